/* Slots: the moments of a recorded link, at each of which a number of bytes may leave. */
#pragma once
#include <stddef.h>
#include <stdint.h>

struct slots {
    const uint32_t *moments; /* ascending ms, of which the last is the period; NULL without slots */
    size_t count;            /* the number of moments */
    uint64_t base;           /* ns: the beginning of the present period */
    size_t at;               /* the place of the present slot in the period */
    uint64_t left;           /* bytes that may still leave in the present slot */
};

/* Goes to the first slot that isn't before a moment in ns. Each slot has `bytes`. */
void seek(struct slots *slots, uint64_t moment, uint64_t bytes);

/* Takes `wanted` bytes, first from the present slot and then from the next ones, which have `bytes` each. Returns the moment in ns of the
   last byte. */
uint64_t take_slots(struct slots *slots, uint64_t wanted, uint64_t bytes);
