#include "late_remarks.h"

#include <inttypes.h>

#include "host.h"

/* One kind of lateness of a way. */
struct lateness_of_way {
    uint64_t most;    /* the greatest one of this second, in ns */
    uint64_t counted; /* the moment up to which its time is counted */
};

struct late_remarks {
    uint64_t begun;                            /* the moment of the first packet of this second */
    bool any;                                  /* whether a packet of this second has been noted */
    struct lateness_of_way ways[][LATENESSES]; /* by ways */
};

struct late_remarks *new_late_remarks(int ways) {
    struct late_remarks *late = NULL;
    return allocate_zeros(sizeof *late + (size_t)ways * sizeof *late->ways);
}

/* Where the page counts a kind of lateness of a way. */
struct late_counts {
    uint64_t *most;
    uint64_t *packets; /* bins */
    uint64_t *time;    /* bins */
};

static inline struct late_counts counts_of(struct way *way, enum lateness kind) {
    if (kind == LATE) return (struct late_counts){&way->late_most, way->late, way->late_time};
    return (struct late_counts){&way->unread_most, way->unread, way->unread_time};
}

/* Counts a packet's lateness in the page. A time in which several packets were late is counted once, for the packet that was noted first. */
static void count_lateness(struct host *host, int way, enum lateness kind, uint64_t ns, uint64_t until) {
    struct late_counts counts = counts_of(&host->page->ways[way], kind);
    uint64_t *counted = &host->late->ways[way][kind].counted;
    uint64_t from = ns < until ? until - ns : 0;
    count_time(counts.packets, ns, 1);
    if (ns > *counts.most) *counts.most = ns;
    if (from < *counted) from = *counted;
    if (from >= until) return;
    count_time(counts.time, ns, until - from);
    *counted = until;
}

void note_lateness(struct host *host, int way, enum lateness kind, uint64_t ns, uint64_t until) {
    struct late_remarks *late = host->late;
    count_lateness(host, way, kind, ns, until);
    if (!late->any) late->begun = present(&host->clock);
    late->any = true;
    if (ns > late->ways[way][kind].most) late->ways[way][kind].most = ns;
}

void remark_lateness(struct host *host, uint64_t moment, bool is_last) {
    struct late_remarks *late = host->late;
    if (!late->any || (!is_last && moment < late->begun + SECOND)) return;
    remark(host->transcript, "#,late,%" PRIu64, moment);
    for (int way = 0; way < host->carrier.ways; way++) {
        struct lateness_of_way *kinds = late->ways[way];
        remark(host->transcript, ",%" PRIu64 ",%" PRIu64, kinds[LATE].most, kinds[UNREAD].most);
        kinds[LATE].most = 0;
        kinds[UNREAD].most = 0;
    }
    remark(host->transcript, "\n");
    late->any = false;
}
