#include "datagram.h"

#include <string.h>

#include "octets.h"

enum { UDP_HEADER = 8, UDP_SRC = 0, UDP_DST = 2, UDP_LENGTH = 4, UDP_CHECKSUM = 6 };
enum { IPV4_LENGTH = 2, IPV4_LIFE = 8, IPV4_PROTOCOL = 9, IPV4_SRC = 12, IPV4_DST = 16, IPV4_HEADER = 20 };
enum { IPV6_LENGTH = 4, IPV6_NEXT = 6, IPV6_LIFE = 7, IPV6_SRC = 8, IPV6_DST = 24, IPV6_HEADER = 40 };
enum { HOPS = 64 };

size_t headers_length(sa_family_t family) { return UDP_HEADER + (family == AF_INET ? IPV4_HEADER : IPV6_HEADER); }

socklen_t end_length(sa_family_t family) { return family == AF_INET ? sizeof(struct sockaddr_in) : sizeof(struct sockaddr_in6); }

static void write_ipv4(unsigned char *bytes, size_t data, const struct sockaddr_in *from, const struct sockaddr_in *to) {
    memset(bytes, 0, IPV4_HEADER);
    bytes[0] = 0x45;
    bytes[IPV4_LIFE] = HOPS;
    bytes[IPV4_PROTOCOL] = IPPROTO_UDP;
    put_u16(bytes + IPV4_LENGTH, IPV4_HEADER + UDP_HEADER + data);
    memcpy(bytes + IPV4_SRC, &from->sin_addr, 4);
    memcpy(bytes + IPV4_DST, &to->sin_addr, 4);
}

static void write_ipv6(unsigned char *bytes, size_t data, const struct sockaddr_in6 *from, const struct sockaddr_in6 *to) {
    memset(bytes, 0, IPV6_HEADER);
    bytes[0] = 0x60;
    bytes[IPV6_NEXT] = IPPROTO_UDP;
    bytes[IPV6_LIFE] = HOPS;
    put_u16(bytes + IPV6_LENGTH, UDP_HEADER + data);
    memcpy(bytes + IPV6_SRC, &from->sin6_addr, 16);
    memcpy(bytes + IPV6_DST, &to->sin6_addr, 16);
}

static in_port_t port_of(const union end *end) { return end->any.sa_family == AF_INET ? end->four.sin_port : end->six.sin6_port; }

void write_headers(unsigned char *bytes, size_t data, const union end *from, const union end *to) {
    bool is_ipv4 = from->any.sa_family == AF_INET;
    unsigned char *udp = bytes + (is_ipv4 ? IPV4_HEADER : IPV6_HEADER);
    if (is_ipv4) write_ipv4(bytes, data, &from->four, &to->four);
    else write_ipv6(bytes, data, &from->six, &to->six);
    put_u16(udp + UDP_SRC, ntohs(port_of(from)));
    put_u16(udp + UDP_DST, ntohs(port_of(to)));
    put_u16(udp + UDP_LENGTH, UDP_HEADER + data);
    put_u16(udp + UDP_CHECKSUM, 0);
}

union end client_end(int way, const unsigned char *bytes) {
    bool is_src = way == 0;
    size_t port = is_src ? UDP_SRC : UDP_DST;
    union end client;
    memset(&client, 0, sizeof client);
    if (bytes[0] >> 4 == 4) {
        client.four.sin_family = AF_INET;
        memcpy(&client.four.sin_addr, bytes + (is_src ? IPV4_SRC : IPV4_DST), 4);
        memcpy(&client.four.sin_port, bytes + IPV4_HEADER + port, 2);
    } else {
        client.six.sin6_family = AF_INET6;
        memcpy(&client.six.sin6_addr, bytes + (is_src ? IPV6_SRC : IPV6_DST), 16);
        memcpy(&client.six.sin6_port, bytes + IPV6_HEADER + port, 2);
    }
    return client;
}
