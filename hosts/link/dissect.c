#include "dissect.h"

#include <netinet/in.h>

#include "octets.h"

enum { IPV4_CLASS = 1, IPV4_FRAGMENT = 6, IPV4_PROTOCOL = 9, IPV4_SRC = 12, IPV4_DST = 16, IPV4_HEADER = 20 };
enum { IPV6_NEXT = 6, IPV6_SRC = 8, IPV6_DST = 24, IPV6_HEADER = 40 };
enum { FRAGMENT = 44, FRAGMENT_HEADER = 8, SHORTEST_EXTENSION = 8 };
enum { ICMP_HEADER = 8, UNREACHABLE = 3, NO_NETWORK = 0, TOO_LONG = 4, UNREACHABLE_SIX = 1, NO_ROUTE_SIX = 0 }; /* RFC 792, RFC 4443 */

/* Returns the number in eight bytes. */
static uint64_t u64_at(const unsigned char *at) { return (uint64_t)u32_at(at) << 32 | u32_at(at + 4); }

/* Returns an IPv4 address as ::ffff:a.b.c.d. */
static struct address mapped_address(uint32_t address) { return (struct address){0, UINT64_C(0xffff) << 32 | address}; }

static void read_ports(const unsigned char *bytes, size_t len, size_t header, struct dn_packet *packet) {
    if ((packet->proto != IPPROTO_TCP && packet->proto != IPPROTO_UDP) || len < header + 4) return;
    packet->sport = (uint16_t)u16_at(bytes + header);
    packet->dport = (uint16_t)u16_at(bytes + header + 2);
}

static void dissect_ipv4(const unsigned char *bytes, size_t len, struct dn_packet *packet, struct headers *headers) {
    packet->src = u32_at(bytes + IPV4_SRC);
    packet->dst = u32_at(bytes + IPV4_DST);
    packet->proto = bytes[IPV4_PROTOCOL];
    *headers = (struct headers){mapped_address(packet->src), mapped_address(packet->dst), bytes[IPV4_CLASS] >> 2};
    bool is_first_fragment = (u16_at(bytes + IPV4_FRAGMENT) & 0x1fff) == 0;
    if (is_first_fragment) read_ports(bytes, len, (size_t)(bytes[0] & 15) * 4, packet);
}

static bool is_extension(uint8_t kind) { return kind == IPPROTO_HOPOPTS || kind == IPPROTO_ROUTING || kind == FRAGMENT || kind == IPPROTO_DSTOPTS; }

static void dissect_ipv6(struct strangers *strangers, const unsigned char *bytes, size_t len, struct dn_packet *packet, struct headers *headers) {
    uint8_t kind = bytes[IPV6_NEXT];
    size_t header = IPV6_HEADER;
    bool is_first_fragment = true;
    packet->src = stand_in(strangers, bytes + IPV6_SRC);
    packet->dst = stand_in(strangers, bytes + IPV6_DST);
    headers->src = (struct address){u64_at(bytes + IPV6_SRC), u64_at(bytes + IPV6_SRC + 8)};
    headers->dst = (struct address){u64_at(bytes + IPV6_DST), u64_at(bytes + IPV6_DST + 8)};
    headers->dscp = (int)(u16_at(bytes) >> 6 & 63);
    while (len >= header + SHORTEST_EXTENSION && is_extension(kind)) {
        const unsigned char *extension = bytes + header;
        if (kind == FRAGMENT && (u16_at(extension + 2) & 0xfff8)) is_first_fragment = false;
        header += kind == FRAGMENT ? FRAGMENT_HEADER : (extension[1] + 1u) * 8;
        kind = extension[0];
    }
    packet->proto = kind;
    if (is_first_fragment) read_ports(bytes, len, header, packet);
}

bool dissect(struct strangers *strangers, const unsigned char *bytes, size_t len, struct dn_packet *packet, struct headers *headers) {
    if (len >= IPV4_HEADER && bytes[0] >> 4 == 4) dissect_ipv4(bytes, len, packet, headers);
    else if (len >= IPV6_HEADER && bytes[0] >> 4 == 6) dissect_ipv6(strangers, bytes, len, packet, headers);
    else return false;
    return true;
}

static bool is_icmp(const unsigned char *bytes) {
    if (bytes[0] >> 4 == 6) return bytes[IPV6_NEXT] == IPPROTO_ICMPV6;
    return bytes[IPV4_PROTOCOL] == IPPROTO_ICMP;
}

/* Whether an ICMP message of this type and code reports a rejection that the kernel doesn't count. */
static bool is_rejection(bool is_ipv6, int type, int code) {
    if (is_ipv6) return type == UNREACHABLE_SIX && code != NO_ROUTE_SIX;
    return type == UNREACHABLE && code != NO_NETWORK && code != TOO_LONG;
}

const unsigned char *rejected_packet(const unsigned char *bytes, size_t len, size_t *quoted) {
    bool is_ipv6 = bytes[0] >> 4 == 6;
    size_t header = is_ipv6 ? IPV6_HEADER : (size_t)(bytes[0] & 15) * 4;
    if (len < header + ICMP_HEADER || !is_icmp(bytes)) return NULL;
    if (!is_rejection(is_ipv6, bytes[header], bytes[header + 1])) return NULL;
    *quoted = len - header - ICMP_HEADER;
    return bytes + header + ICMP_HEADER;
}
