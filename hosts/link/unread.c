#define _GNU_SOURCE
#include "unread.h"

#include <fcntl.h>
#include <stdlib.h>
#include <string.h>
#include <unistd.h>

enum { OVERSLEPT = 10000000 }; /* ns by which a timer of a busy machine may be late */

struct interface {
    uint64_t empty_at;        /* the last moment at which it is known to have been empty */
    uint64_t ready_at;        /* the number of the last wait that found packets there */
    uint64_t taken;           /* the number of packets taken from it */
    uint64_t taken_at[QUEUE]; /* the moments at which the last of them were taken, in a ring */
    uint64_t lain;            /* ns for which the last of them can have lain */
    bool unemptied;           /* whether packets can have remained there */
};

struct unread {
    int schedstat;                 /* a descriptor of /proc/thread-self/schedstat, or -1 */
    uint64_t queued;               /* ns for which this program had waited for a processor at the last reading */
    uint64_t waits;                /* the number of waits that have ended */
    uint64_t waited;               /* the moment at which the last of them ended */
    struct interface interfaces[]; /* by ways */
};

/* Reads for how many ns this program has waited for a processor since the last reading. */
static uint64_t read_queued(struct unread *unread) {
    char text[80];
    if (unread->schedstat < 0) return 0;
    ssize_t len = pread(unread->schedstat, text, sizeof text - 1, 0);
    if (len <= 0) return 0;
    text[len] = 0;
    const char *second = strchr(text, ' ');
    if (!second) return 0;
    uint64_t before = unread->queued;
    unread->queued = strtoull(second, NULL, 10);
    return unread->queued - before;
}

struct unread *begin_unread(int ways, struct clock *clock) {
    struct unread *unread = allocate_zeros(sizeof *unread + (size_t)ways * sizeof *unread->interfaces);
    unread->schedstat = clock->stands ? -1 : open("/proc/thread-self/schedstat", O_RDONLY | O_CLOEXEC);
    read_queued(unread);
    unread->waited = now(clock);
    unread->waits = 1;
    return unread;
}

void note_taken(struct unread *unread, int way, uint64_t moment) {
    struct interface *interface = &unread->interfaces[way];
    uint64_t *place = &interface->taken_at[interface->taken % QUEUE]; /* of the packet QUEUE places before this one */
    uint64_t since = *place > interface->empty_at ? *place : interface->empty_at;
    interface->lain = moment - since;
    *place = moment;
    interface->taken++;
}

uint64_t has_lain(const struct unread *unread, int way) { return unread->interfaces[way].lain; }

void note_empty(struct unread *unread, int way, uint64_t moment) {
    unread->interfaces[way].empty_at = moment;
    unread->interfaces[way].unemptied = false;
}

void note_unemptied(struct unread *unread, int way) { unread->interfaces[way].unemptied = true; }

/* Notes that an interface was empty at a moment, unless a later one is known. */
static void note_was_empty(struct interface *interface, uint64_t moment) {
    if (moment > interface->empty_at) interface->empty_at = moment;
}

/* Returns the last moment at which the packets that ended a sleep hadn't come. If the sleep lasted beyond its timer, not counting the wait
   for a processor, the program was paused without a report. */
static uint64_t last_nothing(struct unread *unread, uint64_t moment, const struct wait *wait) {
    uint64_t queued = read_queued(unread);
    uint64_t woken = queued < moment ? moment - queued : 0;
    bool is_overslept = woken > OVERSLEPT && woken - OVERSLEPT > wait->timer;
    return wait->paused || is_overslept ? wait->nothing : woken;
}

void note_wait(struct unread *unread, uint64_t moment, const struct wait *wait) {
    uint64_t nothing = wait->slept ? last_nothing(unread, moment, wait) : 0;
    for (int i = 0; i < wait->count; i++) {
        struct interface *interface = &unread->interfaces[wait->ready[i]];
        bool was_ready_before = interface->ready_at == unread->waits; /* at the end of the wait before this one */
        if (!was_ready_before) note_was_empty(interface, unread->waited);
        if (wait->slept && !interface->unemptied) note_was_empty(interface, nothing);
        interface->ready_at = unread->waits + 1;
    }
    unread->waits++;
    unread->waited = moment;
}
