/* Packets that a call has to refuse, each for one of its fields. */
#include "holds.h"

/* A packet of 1,000 bytes to pipe 1, which takes 1 ms at 8 Mbit/s. */
static struct dn_packet good(uint64_t moment) {
    return (struct dn_packet){.moment = moment, .src = 1, .dst = 2, .sport = 3, .dport = 4, .length = 1000, .number = 1, .kind = DN_PIPE, .proto = 17};
}

/* What CALL answers about a packet with one field out of range. */
#define REFUSED(CALL, FIELD, VALUE, STATUS)      \
    do {                                         \
        struct dn_packet wrong_ = good(0);       \
        wrong_.FIELD = (VALUE);                  \
        HOLDS(CALL(wrong_) == (STATUS));         \
    } while (0)
#define REFUSED_PACKETS(CALL)                                   \
    REFUSED(CALL, moment, DN_LAST_MOMENT + 1, DN_BAD_MOMENT);   \
    REFUSED(CALL, moment, UINT64_MAX, DN_BAD_MOMENT);           \
    for (int kind_ = 2; kind_ < 256; kind_++) REFUSED(CALL, kind, (uint8_t)kind_, DN_BAD_KIND); \
    REFUSED(CALL, number, 0, DN_BAD_NUMBER);                    \
    REFUSED(CALL, length, 0, DN_BAD_LENGTH);                    \
    REFUSED(CALL, reserved, 1, DN_BAD_RESERVED)
