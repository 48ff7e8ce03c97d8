#include "joins.h"

#include <netinet/in.h>
#include <string.h>

#include "octets.h"
#include "segments.h"

enum { IPV4_HEADER = 20, IPV4_NUMBER = 4, IPV4_FRAGMENT = 6, IPV4_LIFE = 8, IPV4_PROTOCOL = 9, IPV4_ADDRESSES = 12 };
enum { IPV6_HEADER = 40, IPV6_PROTOCOL = 6 };
enum { TCP_SEQUENCE = 4, TCP_ACKNOWLEDGED = 8, TCP_OFFSET = 12, TCP_FLAGS = 13, TCP_WINDOW = 14 };
enum { TCP_CHECKSUM = 16, TCP_URGENT = 18, TCP_SHORTEST = 20 };
enum { UDP_LENGTH = 4, UDP_CHECKSUM = 6, UDP_HEADER = 8, OF_UDP = 5 /* a kind of a note, which older headers lack */ };
enum { PUSH = 8, ACKNOWLEDGES = 16 };

static bool is_ipv4(const unsigned char *ip) { return ip[0] >> 4 == 4; }

static size_t ip_header(const unsigned char *ip) { return is_ipv4(ip) ? IPV4_HEADER : IPV6_HEADER; }

/* Returns the protocol of an IP packet, or 0 if the packet has IPv4 options or is a fragment. */
static int protocol_of(const unsigned char *ip) {
    if (ip[0] >> 4 == 6) return ip[IPV6_PROTOCOL];
    bool has_options = ip[0] != 0x45;
    bool is_fragment = (u16_at(ip + IPV4_FRAGMENT) & 0x3fff) != 0;
    return has_options || is_fragment ? 0 : ip[IPV4_PROTOCOL];
}

static bool is_udp(const unsigned char *ip) { return protocol_of(ip) == IPPROTO_UDP; }

/* Returns the bytes of the header of UDP or TCP, `len` bytes long with its data, or 0 if the packet can't be joined. TCP may only have the
   flags of data that goes on. */
static size_t inner_header(const unsigned char *inner, size_t len, int protocol) {
    if (protocol == IPPROTO_UDP) {
        bool is_whole = len > UDP_HEADER && u16_at(inner + UDP_LENGTH) == len;
        return is_whole ? UDP_HEADER : 0;
    }
    if (protocol != IPPROTO_TCP || len < TCP_SHORTEST || (inner[TCP_FLAGS] & ~PUSH) != ACKNOWLEDGES) return 0;
    size_t header = (size_t)(inner[TCP_OFFSET] >> 4) * 4;
    return header < len ? header : 0;
}

/* Returns the bytes before the data of a packet, or 0 if it can't be joined. Its checksum has to be left to a card. */
static size_t headers_of(const struct bytes *packet) {
    struct virtio_net_hdr note;
    memcpy(&note, packet->at - NOTE, NOTE);
    int protocol = protocol_of(packet->at);
    size_t start = ip_header(packet->at);
    if (!(note.flags & VIRTIO_NET_HDR_F_NEEDS_CSUM) || note.csum_start != start || packet->len < start) return 0;
    int checksum = protocol == IPPROTO_UDP ? UDP_CHECKSUM : TCP_CHECKSUM;
    if (note.csum_offset != checksum) return 0;
    size_t inner = inner_header(packet->at + start, packet->len - start, protocol);
    return inner ? start + inner : 0;
}

/* Whether two headers have the same bytes in a range. */
static bool is_same(const unsigned char *first, const unsigned char *next, size_t from, size_t to) {
    return memcmp(first + from, next + from, to - from) == 0;
}

/* Whether two IP headers only differ in their lengths and checksums, and in IPv4 by `number` in their identifications. */
static bool is_same_ip(const unsigned char *first, const unsigned char *next, unsigned number) {
    if (!is_ipv4(first)) return is_same(first, next, 0, 4) && is_same(first, next, IPV6_PROTOCOL, IPV6_HEADER);
    return is_same(first, next, 0, 2) && (uint16_t)(u16_at(first + IPV4_NUMBER) + number) == u16_at(next + IPV4_NUMBER) &&
           is_same(first, next, IPV4_FRAGMENT, IPV4_PROTOCOL + 1) && is_same(first, next, IPV4_ADDRESSES, IPV4_HEADER);
}

/* Whether two headers of TCP only differ in their flags and checksums, and by `data` in their sequence numbers. */
static bool is_same_tcp(const unsigned char *first, const unsigned char *next, size_t header, uint32_t data) {
    return is_same(first, next, 0, TCP_SEQUENCE) && u32_at(first + TCP_SEQUENCE) + data == u32_at(next + TCP_SEQUENCE) &&
           is_same(first, next, TCP_ACKNOWLEDGED, TCP_FLAGS) && is_same(first, next, TCP_WINDOW, TCP_CHECKSUM) &&
           is_same(first, next, TCP_URGENT, header);
}

bool joins(const struct bytes *packets, int count, const struct bytes *next) {
    size_t headers = headers_of(packets);
    if (!headers || count == MOST_JOINED || headers_of(next) != headers) return false;
    const struct bytes *last = &packets[count - 1];
    size_t start = ip_header(packets->at);
    size_t data = (size_t)count * (packets->len - headers);
    const unsigned char *first_inner = packets->at + start;
    const unsigned char *next_inner = next->at + start;
    if (last->len != packets->len || next->len > packets->len || next->len + data > LONGEST) return false;
    if (!is_same_ip(packets->at, next->at, (unsigned)count)) return false;
    if (is_udp(packets->at)) return is_same(first_inner, next_inner, 0, UDP_LENGTH);
    return !(last->at[start + TCP_FLAGS] & PUSH) && is_same_tcp(first_inner, next_inner, headers - start, (uint32_t)data);
}

bool joins_tcp(const struct bytes *packets, int count, const struct bytes *next) { return !is_udp(packets->at) && joins(packets, count, next); }

/* Returns the kind of a joined packet for its note. */
static uint8_t kind_of(const unsigned char *ip) {
    if (is_udp(ip)) return OF_UDP;
    return is_ipv4(ip) ? VIRTIO_NET_HDR_GSO_TCPV4 : VIRTIO_NET_HDR_GSO_TCPV6;
}

size_t join(const struct bytes *packets, int count) {
    struct virtio_net_hdr note;
    if (count == 1) return 0;
    size_t headers = headers_of(packets);
    size_t start = ip_header(packets->at);
    size_t len = packets->len;
    for (int i = 1; i < count; i++) len += packets[i].len - headers;
    memcpy(&note, packets->at - NOTE, NOTE);
    note.gso_type = kind_of(packets->at);
    note.gso_size = (uint16_t)(packets->len - headers);
    note.hdr_len = (uint16_t)headers;
    memcpy(packets->at - NOTE, &note, NOTE);
    fit_ip(packets->at, len, 0);
    unsigned char *inner = packets->at + start;
    if (is_udp(packets->at)) {
        fit_checksum(inner + UDP_CHECKSUM, packets->len - start, len - start);
        put_u16(inner + UDP_LENGTH, len - start);
    } else {
        fit_checksum(inner + TCP_CHECKSUM, packets->len - start, len - start);
        inner[TCP_FLAGS] |= packets[count - 1].at[start + TCP_FLAGS];
    }
    return headers;
}
