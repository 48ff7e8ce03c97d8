#define _GNU_SOURCE
#include "changes.h"

#include <hingetulip.h>
#include <stdio.h>
#include <string.h>

#include "host.h"

enum { OUTAGE_PROTOCOL = 255 }; /* the protocol of an outage's packet, which no IP packet has */

struct change {
    uint64_t moment;
    char *line;      /* the line to follow, or NULL for an outage */
    int pipe;        /* the pipe of an outage */
    uint16_t length; /* bytes of an outage's packet */
};

struct changes {
    struct change *list; /* in the order of their moments */
    size_t count;        /* the number of changes */
    size_t done;         /* the number of changes at the front that have been made */
};

struct changes *new_changes(void) {
    return allocate_zeros(sizeof(struct changes));
}

/* Doubles the room of the list if it is full. The room is always a power of two. */
static void make_room(struct changes *changes) {
    size_t count = changes->count;
    bool is_full = (count & (count - 1)) == 0;
    if (is_full) changes->list = reallocate(changes->list, (count ? 2 * count : 1) * sizeof *changes->list);
}

/* Inserts a change behind the changes at its moment and before. */
static void insert(struct changes *changes, struct change change) {
    make_room(changes);
    size_t place = changes->count++;
    while (place > changes->done && changes->list[place - 1].moment > change.moment) {
        changes->list[place] = changes->list[place - 1];
        place--;
    }
    changes->list[place] = change;
}

void insert_line(struct changes *changes, uint64_t moment, const char *line) {
    char *text = strdup(line);
    if (!text) fail("the plan", "out of memory");
    insert(changes, (struct change){.moment = moment, .line = text});
}

void insert_outage(struct changes *changes, uint64_t moment, int pipe, uint16_t length) {
    insert(changes, (struct change){.moment = moment, .pipe = pipe, .length = length});
}

uint64_t next_change(const struct changes *changes) {
    if (changes->done == changes->count) return DN_NEVER;
    return changes->list[changes->done].moment;
}

/* Begins an outage: at the pipe's rate, the transmission of the longest packet lasts as long as the outage. If no packet waits for the
   pipe, a packet of this length that nobody sent is submitted. Otherwise the outage would begin with the next packet, and end early behind
   a small one. */
static void begin_outage(struct host *host, const struct change *change) {
    struct dn_packet packet = {.moment = change->moment, .kind = DN_PIPE, .number = (uint16_t)change->pipe, .length = change->length};
    struct dn_fate fate;
    packet.proto = OUTAGE_PROTOCOL;
    packet.word = WORD_OF_NONE;
    if (has_waiting(host->links, change->pipe)) return;
    submit_paced(host->pacing, &packet, &fate);
    if (fate.outcome != DN_QUEUED) return;
    struct packet held = {.number = fate.packet, .way = change->pipe - 1};
    hold(host->held, &held, NULL, 0);
}

/* Makes a change. A line that is refused is reported on standard error. */
static void apply_change(struct host *host, const struct change *change) {
    catch_up(host->pacing, change->moment);
    if (!change->line) {
        begin_outage(host, change);
        return;
    }
    advance(host->links, change->moment);
    const char *wrong = make_change(host, change->line, change->moment);
    if (wrong) fprintf(stderr, "hinge: at %.3f s: %s: %s\n", (double)change->moment / 1e9, change->line, wrong);
}

void make_changes(struct host *host, uint64_t moment) {
    struct changes *changes = host->changes;
    while (next_change(changes) <= moment) apply_change(host, &changes->list[changes->done++]);
}
