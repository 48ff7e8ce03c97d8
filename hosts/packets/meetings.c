#include "meetings.h"

#include <stdlib.h>

enum { SENDS = 1, RECEIVES = 2 };
#define HAVE_MET UINT32_MAX

/* What each address does in flows with a target. Few pairs are looked for where few addresses do both. */
static uint8_t *ends_of(const struct frames *frames, const uint32_t *targets) {
    uint8_t *ends = zeroed(frames->addresses.count, sizeof *ends);
    for (uint32_t i = 0; i < frames->flows.count; i++) {
        const struct flow *flow = item_of(&frames->flows, i);
        if (!targets[i]) continue;
        ends[flow->src] |= SENDS;
        ends[flow->dst] |= RECEIVES;
    }
    return ends;
}

size_t find_meetings(const struct frames *frames, const uint32_t *targets, struct meeting *meetings) {
    struct table pairs = empty_table(2 * sizeof(uint64_t));
    uint32_t *firsts = zeroed(frames->flows.count, sizeof *firsts); /* the sender of the first flow of each pair */
    uint8_t *ends = ends_of(frames, targets);
    size_t count = 0;
    for (uint32_t i = 0; i < frames->flows.count; i++) {
        const struct flow *flow = item_of(&frames->flows, i);
        uint32_t src = flow->src, dst = flow->dst, known = pairs.count;
        if (!targets[i] || src == dst || (ends[src] & ends[dst]) != (SENDS | RECEIVES)) continue;
        const uint64_t pair[] = {(uint64_t)(src < dst ? src : dst) << 32 | (src < dst ? dst : src), targets[i]};
        uint32_t *first = &firsts[number_of(&pairs, pair)];
        if (pairs.count > known) *first = src;
        if (*first == src || *first == HAVE_MET) continue;
        meetings[count++] = (struct meeting){targets[i], *first, src};
        *first = HAVE_MET;
    }
    free(pairs.items);
    free(pairs.slots);
    free(firsts);
    free(ends);
    return count;
}
