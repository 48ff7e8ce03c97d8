#include "content.h"

#include <netinet/in.h>
#include <stdbool.h>
#include <string.h>

enum { IPV4_CLASS = 1, IPV4_LIFE = 8, IPV4_PROTOCOL = 9, IPV4_CHECKSUM = 10, IPV4_HEADER = 20 };
enum { IPV6_NEXT = 6, IPV6_LIFE = 7, IPV6_HEADER = 40 };
enum { TCP_CHECKSUM = 16, UDP_CHECKSUM = 6, NEITHER = -1 };

/* Returns a sum that depends on the sum so far and on a word. */
static uint64_t mix(uint64_t sum, uint64_t word) {
    __extension__ typedef unsigned __int128 wide;
    wide product = (wide)(sum ^ word) * 0x9e3779b97f4a7c15;
    return (uint64_t)product ^ (uint64_t)(product >> 64);
}

static uint64_t mix_bytes(uint64_t sum, const unsigned char *bytes, size_t len) {
    uint64_t word;
    for (; len >= sizeof word; len -= sizeof word) {
        memcpy(&word, bytes, sizeof word);
        sum = mix(sum, word);
        bytes += sizeof word;
    }
    word = 0;
    memcpy(&word, bytes, len);
    return mix(sum, word ^ (uint64_t)len << 56);
}

/* Returns the place of a protocol's checksum behind the IP header, or NEITHER. */
static int checksum_of(int protocol) {
    if (protocol == IPPROTO_TCP) return TCP_CHECKSUM;
    return protocol == IPPROTO_UDP ? UDP_CHECKSUM : NEITHER;
}

/* Clears the fields of an IP header that hosts and cards change. */
static void clear_changing(unsigned char *header, bool is_ipv4) {
    if (is_ipv4) {
        header[IPV4_CLASS] = 0;
        header[IPV4_LIFE] = 0;
        header[IPV4_CHECKSUM] = 0;
        header[IPV4_CHECKSUM + 1] = 0;
    } else {
        header[0] &= 0xf0; /* class and flow label */
        header[1] &= 0x0f;
        header[IPV6_LIFE] = 0;
    }
}

bool is_last_hop(const unsigned char *bytes) {
    bool is_ipv4 = bytes[0] >> 4 == 4;
    return bytes[is_ipv4 ? IPV4_LIFE : IPV6_LIFE] <= 1;
}

uint64_t content_of(const unsigned char *bytes, size_t len) {
    unsigned char header[IPV6_HEADER] = {0};
    bool is_ipv4 = bytes[0] >> 4 == 4;
    size_t fixed = is_ipv4 ? IPV4_HEADER : IPV6_HEADER;
    memcpy(header, bytes, fixed);
    clear_changing(header, is_ipv4);
    uint64_t sum = mix_bytes(1, header, fixed);
    int checksum = checksum_of(header[is_ipv4 ? IPV4_PROTOCOL : IPV6_NEXT]);
    if (is_ipv4 && header[0] != 0x45) checksum = NEITHER; /* behind options */
    if (checksum == NEITHER || len < fixed + (size_t)checksum + 2) return mix_bytes(sum, bytes + fixed, len - fixed);
    sum = mix_bytes(sum, bytes + fixed, (size_t)checksum);
    return mix_bytes(sum, bytes + fixed + checksum + 2, len - fixed - (size_t)checksum - 2);
}

uint64_t content_of_bytes(const unsigned char *bytes, size_t len) { return mix_bytes(1, bytes, len); }

size_t bits_behind_header(const unsigned char *bytes, size_t len) {
    size_t header = bytes[0] >> 4 == 4 ? (size_t)(bytes[0] & 15) * 4 : IPV6_HEADER;
    return len > header ? 8 * (len - header) : 0;
}
