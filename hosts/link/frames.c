#include "frames.h"

#include "octets.h"

enum { TYPE = 2, TAG = 4 }; /* bytes */
enum { OF_IPV4 = 0x0800, OF_IPV6 = 0x86dd, OF_TAG = 0x8100, OF_OUTER_TAG = 0x88a8 };

/* Returns the place of the type, behind all tags. */
static size_t place_of_type(const unsigned char *frame, size_t len) {
    size_t at = SHORTEST_FRAME - TYPE;
    while (at + TAG + TYPE <= len && (u16_at(frame + at) == OF_TAG || u16_at(frame + at) == OF_OUTER_TAG)) at += TAG;
    return at;
}

static uint64_t eui64(const unsigned char mac[MAC]) {
    uint64_t number = 0;
    const unsigned char bytes[8] = {mac[0] ^ 2, mac[1], mac[2], 0xff, 0xfe, mac[3], mac[4], mac[5]};
    for (size_t i = 0; i < sizeof bytes; i++) number = number << 8 | bytes[i];
    return number;
}

/* Returns the IPv6 address of an interface with this address. */
static struct address address_of(const unsigned char mac[MAC]) { return (struct address){UINT64_C(0xfe80) << 48, eui64(mac)}; }

static uint32_t stand_in_of(struct strangers *strangers, struct address address) {
    unsigned char bytes[16];
    for (int i = 0; i < 8; i++) {
        bytes[i] = (unsigned char)(address.high >> (56 - 8 * i));
        bytes[8 + i] = (unsigned char)(address.low >> (56 - 8 * i));
    }
    return stand_in(strangers, bytes);
}

static bool is_ip(const struct payload *payload, unsigned type) {
    unsigned version = payload->len ? payload->bytes[0] >> 4 : 0;
    return (type == OF_IPV4 && version == 4) || (type == OF_IPV6 && version == 6);
}

bool dissect_frame(struct strangers *strangers, const unsigned char *frame, size_t len, struct payload *payload, struct dn_packet *packet,
                   struct headers *headers) {
    if (len < SHORTEST_FRAME) return false;
    size_t at = place_of_type(frame, len);
    unsigned type = u16_at(frame + at);
    *payload = (struct payload){.bytes = frame + at + TYPE, .len = len - at - TYPE};
    payload->is_ip = is_ip(payload, type) && dissect(strangers, payload->bytes, payload->len, packet, headers);
    if (payload->is_ip) return true;
    *headers = (struct headers){.src = address_of(frame + MAC), .dst = address_of(frame)};
    packet->src = stand_in_of(strangers, headers->src);
    packet->dst = stand_in_of(strangers, headers->dst);
    packet->dport = (uint16_t)type;
    return true;
}
