#include "slots.h"

enum { MS = 1000000 }; /* ns */

/* Returns the moment, in ns, of a slot in the present period. */
static uint64_t moment_of(const struct slots *slots, size_t place) { return slots->base + (uint64_t)slots->moments[place] * MS; }

void seek(struct slots *slots, uint64_t moment, uint64_t bytes) {
    uint64_t period = (uint64_t)slots->moments[slots->count - 1] * MS;
    size_t low = 0;
    size_t high = slots->count - 1;
    slots->base = moment ? (moment - 1) / period * period : 0; /* the end of a period belongs to it, not to the next one */
    while (low < high) {
        size_t middle = low + (high - low) / 2;
        if (moment_of(slots, middle) < moment) low = middle + 1;
        else high = middle;
    }
    slots->at = low;
    slots->left = bytes;
}

/* Goes to the next slot, perhaps of the next period. */
static void go_to_next(struct slots *slots, uint64_t bytes) {
    slots->left = bytes;
    slots->at++;
    if (slots->at < slots->count) return;
    slots->base = moment_of(slots, slots->count - 1);
    slots->at = 0;
}

uint64_t take_slots(struct slots *slots, uint64_t wanted, uint64_t bytes) {
    while (wanted > slots->left) {
        wanted -= slots->left;
        go_to_next(slots, bytes);
    }
    slots->left -= wanted;
    return moment_of(slots, slots->at);
}
