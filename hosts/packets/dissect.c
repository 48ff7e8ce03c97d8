#include "dissect.h"

#include <netinet/in.h>
#include <string.h>

enum { ETHER_IP = 0x0800, ETHER_IP6 = 0x86dd, SESSION = 0x8864, LABEL = 0x8847, OTHER_LABEL = 0x8848, LONGEST_802_3 = 1500 };
enum { TAG = 0x8100, OUTER_TAG = 0x88a8, OLD_TAG = 0x9100, PPP_IP = 0x0021, PPP_IP6 = 0x0057, PPP_LABEL = 0x0281 };
enum { IPV4_HEADER = 20, IPV6_HEADER = 40, TCP_HEADER = 20, OTHER_HEADER = 8, SCTP_HEADER = 12 }; /* bytes */
enum { HOP_BY_HOP = 0, ROUTING = 43, FRAGMENT = 44, DESTINATION = 60 };                           /* headers that extend IPv6 */
enum { PADDING = 0, JUMBO = 0xc2 };                                                               /* options of HOP_BY_HOP */

/* The IP packet in a frame: its version, 0 where there is none and below it where the link isn't known, and where it begins, which may
   be behind the frame's end. */
struct inner {
    int version;
    size_t begin;
};

static const struct inner none;

/* A number in network order; -1 where the bytes end before its end. */
static int two_at(struct bytes bytes, size_t at) { return at + 2 <= bytes.len ? bytes.at[at] << 8 | bytes.at[at + 1] : -1; }

static struct inner by_version(struct bytes frame, size_t at) {
    int version = at < frame.len ? frame.at[at] >> 4 : 0;
    return version == 4 || version == 6 ? (struct inner){version, at} : none;
}

/* Behind the label of MPLS that is the last one. */
static struct inner behind_labels(struct bytes frame, size_t at) {
    for (; at + 4 <= frame.len; at += 4)
        if (frame.at[at + 2] & 1) return by_version(frame, at + 4);
    return none;
}

static struct inner by_kind(int kind, int four, int six, size_t at) {
    return kind == four ? (struct inner){4, at} : kind == six ? (struct inner){6, at} : none;
}

/* Behind a PPP header, with or without the address and control of HDLC; a protocol whose first byte is odd has only that one. */
static struct inner behind_ppp(struct bytes frame, size_t at) {
    if (two_at(frame, at) == 0xff03) at += 2;
    bool is_short = at < frame.len && frame.at[at] & 1;
    int kind = is_short ? frame.at[at] : two_at(frame, at);
    at += is_short ? 1 : 2;
    return kind == PPP_LABEL ? behind_labels(frame, at) : by_kind(kind, PPP_IP, PPP_IP6, at);
}

static bool is_snap(struct bytes frame, size_t at) {
    return at + 6 <= frame.len && memcmp(frame.at + at, (const uint8_t[]){0xaa, 0xaa, 3, 0, 0, 0}, 6) == 0;
}

/* Behind a kind of Ethernet, or a length with a header of 802.2, and the tags that there are. */
static struct inner behind_kind(struct bytes frame, size_t at, int kind) {
    while (kind == TAG || kind == OUTER_TAG || kind == OLD_TAG || (kind >= 0 && kind <= LONGEST_802_3)) {
        bool is_length = kind <= LONGEST_802_3;
        if (is_length && !is_snap(frame, at)) return none;
        at += is_length ? 8 : 4;
        kind = two_at(frame, at - 2);
    }
    if (kind == SESSION) return behind_ppp(frame, at + 6);
    if (kind == LABEL || kind == OTHER_LABEL) return behind_labels(frame, at);
    return by_kind(kind, ETHER_IP, ETHER_IP6, at);
}

/* Behind a kind of Ethernet that stands at a place. */
static struct inner behind_kind_at(struct bytes frame, size_t place, size_t at) { return behind_kind(frame, at, two_at(frame, place)); }

static struct inner behind_llc(struct bytes frame, size_t at) { return behind_kind(frame, at, 0); }

/* Behind the family of addresses of a loopback interface, of BSD, macOS or Linux. */
static struct inner behind_family(struct bytes frame, bool is_big) {
    if (frame.len < 5) return none;
    uint8_t family = frame.at[is_big ? 3 : 0];
    bool is_small = !(frame.at[1] | frame.at[2] | frame.at[is_big ? 0 : 3]);
    if (is_small && family == 2) return (struct inner){4, 4};
    return is_small && (family == 10 || family == 24 || family == 28 || family == 30) ? (struct inner){6, 4} : none;
}

/* In the byte order of the machine that captured. */
static struct inner behind_null(struct bytes frame) {
    struct inner made = behind_family(frame, false);
    return made.version ? made : behind_family(frame, true);
}

/* Behind the header of a data frame of 802.11 that isn't encrypted. */
static struct inner behind_wireless(struct bytes frame, size_t at) {
    int control = two_at(frame, at), kind = control >> 8, flags = control & 0xff;
    if (control < 0 || (kind & 0x0c) != 0x08 || kind & 0x40 || flags & 0x40) return none;
    bool has_quality = kind & 0x80;
    size_t header = 24u + 6u * ((flags & 3) == 3) + 2u * has_quality + 4u * (has_quality && flags & 0x80);
    return behind_llc(frame, at + header);
}

static struct inner inner_of(unsigned link, struct bytes frame) {
    switch (link) {
    case 0: return behind_null(frame);
    case 1: return behind_kind_at(frame, 12, 14); /* Ethernet */
    case 9:
    case 50: return behind_ppp(frame, 0);
    case 51: return behind_ppp(frame, 6); /* PPPoE */
    case 12:
    case 14:
    case 101: return by_version(frame, 0);
    case 104: return behind_kind_at(frame, 2, 4); /* HDLC of Cisco */
    case 105: return behind_wireless(frame, 0);
    case 108: return behind_family(frame, true);
    case 113: return behind_kind_at(frame, 14, 16);                                                        /* cooked by Linux */
    case 127: return behind_wireless(frame, frame.len < 4 ? frame.len : frame.at[2] + frame.at[3] * 256u); /* radiotap */
    case 228: return (struct inner){4, 0};
    case 229: return (struct inner){6, 0};
    case 276: return behind_kind_at(frame, 0, 20); /* cooked by Linux, version 2 */
    default: return (struct inner){-1, 0};
    }
}

static struct bytes behind(struct bytes bytes, size_t size) {
    return size < bytes.len ? (struct bytes){bytes.at + size, bytes.len - size} : (struct bytes){0};
}

static struct bytes front(struct bytes bytes, size_t size) { return (struct bytes){bytes.at, size < bytes.len ? size : bytes.len}; }

/* The ports and the length of the transport header, of which a capture or a fragment may lack a part. */
static void read_transport(struct bytes bytes, struct packet *made) {
    bool is_tcp = made->proto == IPPROTO_TCP, is_sctp = made->proto == IPPROTO_SCTP;
    bool is_other = made->proto == IPPROTO_UDP || made->proto == IPPROTO_UDPLITE || made->proto == IPPROTO_DCCP;
    if (!is_tcp && !is_sctp && !is_other) return;
    made->headers += !is_tcp ? OTHER_HEADER : bytes.len >= 14 ? bytes.at[12] >> 4 << 2 : TCP_HEADER;
    if (bytes.len < (is_sctp ? SCTP_HEADER : 4)) return;
    made->sport = (uint16_t)two_at(bytes, 0);
    made->dport = (uint16_t)two_at(bytes, 2);
}

static bool read_four(struct bytes packet, struct packet *made) {
    if (packet.len < IPV4_HEADER || packet.at[0] >> 4 != 4) return false;
    size_t own = (size_t)(packet.at[0] & 15) * 4, length = (size_t)two_at(packet, 2);
    if (own < IPV4_HEADER || (length && length < own) || own > packet.len) return false;
    memcpy(made->src.bytes + ADDRESS - 4, packet.at + 12, 4);
    memcpy(made->dst.bytes + ADDRESS - 4, packet.at + 16, 4);
    made->length = (uint32_t)length;
    made->headers = (uint16_t)own;
    made->proto = packet.at[9];
    made->dscp = packet.at[1] >> 2;
    bool is_later = two_at(packet, 6) & 0x1fff;
    read_transport(is_later ? (struct bytes){0} : behind(front(packet, length ? length : packet.len), own), made);
    return true;
}

/* Whether hop-by-hop options, as far as the capture has them, say that it is a packet of more than 65,535 bytes. */
static bool is_jumbo(struct bytes options) {
    if (options.len < 2) return false;
    size_t at = 2, end = front(options, ((size_t)options.at[1] + 1) * 8).len;
    while (at + 1 < end && options.at[at] != JUMBO) at += options.at[at] == PADDING ? 1 : 2u + options.at[at + 1];
    return at + 1 < end && options.at[at] == JUMBO;
}

/* The bytes that have to be there of a header that extends IPv6, 0 where a kind is none. */
static size_t needed(uint8_t kind) { return kind == FRAGMENT ? 8 : kind == HOP_BY_HOP || kind == DESTINATION ? 2 : kind == ROUTING ? 1 : 0; }

/* Finds the protocol behind the headers that extend an IPv6 packet, which is the one behind the first of each kind, and its bytes,
   none of a later fragment. */
static struct bytes behind_extensions(struct bytes bytes, uint8_t *proto) {
    uint64_t members = 0;
    bool is_later = false;
    for (uint8_t following = *proto, kind; !is_later && needed(following) && bytes.len >= needed(following);) {
        kind = following;
        is_later = kind == FRAGMENT && two_at(bytes, 2) >> 3 > 0;
        following = bytes.at[0];
        if (*proto == kind && !(members >> kind & 1)) *proto = following;
        members |= UINT64_C(1) << kind;
        bytes = behind(bytes, kind == FRAGMENT ? 8 : bytes.len > 1 ? 8 * (bytes.at[1] + 1u) : 1);
    }
    return is_later ? (struct bytes){0} : bytes;
}

static bool read_six(struct bytes packet, struct packet *made) {
    if (packet.len < IPV6_HEADER) return false;
    uint32_t payload = (uint32_t)two_at(packet, 4);
    struct bytes rest = behind(packet, IPV6_HEADER);
    memcpy(made->src.bytes, packet.at + 8, ADDRESS);
    memcpy(made->dst.bytes, packet.at + 24, ADDRESS);
    made->src.is_six = made->dst.is_six = true;
    made->length = payload ? payload + IPV6_HEADER : 0;
    made->headers = IPV6_HEADER;
    made->proto = packet.at[6];
    made->dscp = (two_at(packet, 0) >> 6) & 0x3f;
    /* What is behind the header of another one isn't known. */
    bool is_known = payload || (made->proto == HOP_BY_HOP && is_jumbo(rest));
    read_transport(is_known ? behind_extensions(front(rest, payload ? payload : rest.len), &made->proto) : (struct bytes){0}, made);
    return true;
}

int dissect(unsigned link, struct bytes frame, struct packet *made) {
    struct inner inner = inner_of(link, frame);
    if (inner.version <= 0) return inner.version;
    *made = (struct packet){.begin = inner.begin};
    return (inner.version == 6 ? read_six : read_four)(behind(frame, inner.begin), made);
}
