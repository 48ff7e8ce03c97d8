#define _GNU_SOURCE
#include "pacing.h"

#include <inttypes.h>
#include <stdio.h>
#include <stdlib.h>
#include <string.h>

#include "basics.h"
#include "links.h"
#include "slots.h"

#define BANDWIDTH " bw "
#define MOST_RATE (1000 * SECOND) /* bit/s */

/* An outage: no packet begins from the first moment until the second. */
struct hold {
    uint64_t from;
    uint64_t to;
};

/* A pipe that is paced. */
struct pipe {
    struct slots slots;  /* the moments of its trace, if it has one */
    struct hold *holds;  /* its outages, in the order of their beginnings */
    size_t hold_count;   /* the number of outages */
    size_t holds_over;   /* the number of outages that are over, which are the first ones */
    char *front;         /* its configuration line up to the bandwidth, or NULL if it isn't configured */
    char *behind;        /* the line's rest behind the bandwidth */
    uint64_t bandwidth;  /* bit/s of its line, or 0 without a limit */
    uint64_t rate;       /* bit/s that the links have for it now, or 0 without a limit */
    uint64_t free_at;    /* the end of the last transmission that has begun */
    uint64_t first_rate; /* bit/s of the first packet that waits */
    uint32_t *waiting;   /* a ring with the lengths, in bytes, of the packets that wait */
    size_t first;        /* the place of the first of these */
    size_t count;        /* the number of these */
    size_t room;         /* the number of lengths for which the ring has room */
};

struct pacing {
    struct links *links;
    struct pipe *pipes; /* the pipes that are paced */
    int count;          /* the number of these */
    int most;           /* the greatest number of a pipe */
    int place_of[];     /* by the numbers of pipes: the place in `pipes` from 1 on, or 0 for a pipe that isn't paced */
};

struct pacing *new_pacing(struct links *links, int most) {
    struct pacing *pacing = allocate_zeros(sizeof *pacing + (size_t)(most + 1) * sizeof *pacing->place_of);
    pacing->links = links;
    pacing->most = most;
    return pacing;
}

/* Returns the paced pipe with a number, or NULL if none has it. */
static struct pipe *find_pipe(const struct pacing *pacing, int number) {
    int place = number >= 1 && number <= pacing->most ? pacing->place_of[number] : 0;
    return place ? &pacing->pipes[place - 1] : NULL;
}

static struct pipe *add_pipe(struct pacing *pacing, int number) {
    pacing->pipes = reallocate(pacing->pipes, (size_t)(pacing->count + 1) * sizeof *pacing->pipes);
    struct pipe *pipe = &pacing->pipes[pacing->count++];
    *pipe = (struct pipe){0};
    pacing->place_of[number] = pacing->count;
    return pipe;
}

static struct pipe *find_or_add_pipe(struct pacing *pacing, int number) {
    struct pipe *pipe = find_pipe(pacing, number);
    return pipe ? pipe : add_pipe(pacing, number);
}

void add_slots(struct pacing *pacing, int pipe, const uint32_t *moments, size_t count) {
    find_or_add_pipe(pacing, pipe)->slots = (struct slots){.moments = moments, .count = count};
}

void add_hold(struct pacing *pacing, int number, uint64_t from, uint64_t to) {
    struct pipe *pipe = find_or_add_pipe(pacing, number);
    pipe->holds = reallocate(pipe->holds, (pipe->hold_count + 1) * sizeof *pipe->holds);
    size_t place = pipe->hold_count++;
    while (place > pipe->holds_over && pipe->holds[place - 1].from > from) {
        pipe->holds[place] = pipe->holds[place - 1];
        place--;
    }
    pipe->holds[place] = (struct hold){from, to};
}

void pace(struct pacing *pacing, int number) { find_or_add_pipe(pacing, number); }

/* Doubles a full ring, with the first packet at its beginning. */
static void widen_ring(struct pipe *pipe) {
    size_t room = pipe->room ? 2 * pipe->room : 64;
    uint32_t *ring = reallocate(NULL, room * sizeof *ring);
    for (size_t i = 0; i < pipe->count; i++) ring[i] = pipe->waiting[(pipe->first + i) % pipe->room];
    free(pipe->waiting);
    pipe->waiting = ring;
    pipe->room = room;
    pipe->first = 0;
}

/* Puts a packet with this length behind the packets that wait. */
static void push_waiting(struct pipe *pipe, uint32_t bytes) {
    if (pipe->count == pipe->room) widen_ring(pipe);
    pipe->waiting[(pipe->first + pipe->count) % pipe->room] = bytes;
    pipe->count++;
}

/* Takes out the first packet that waits, and returns its length. */
static uint32_t pop_waiting(struct pipe *pipe) {
    uint32_t bytes = pipe->waiting[pipe->first];
    pipe->first = (pipe->first + 1) % pipe->room;
    pipe->count--;
    return bytes;
}

/* Passes over the outages that are over at a moment. */
static void skip_holds(struct pipe *pipe, uint64_t moment) {
    while (pipe->holds_over < pipe->hold_count && pipe->holds[pipe->holds_over].to <= moment) pipe->holds_over++;
}

/* Returns the end of the outage that contains a moment, and of the outages that begin in it; the moment itself without an outage. */
static uint64_t after_holds(const struct pipe *pipe, uint64_t moment) {
    uint64_t end = moment;
    for (size_t at = pipe->holds_over; at < pipe->hold_count && pipe->holds[at].from <= end; at++)
        if (pipe->holds[at].to > end) end = pipe->holds[at].to;
    return end;
}

/* Returns the rate at which these bits take `time` ns, or a little longer. The rate always has a limit: without one, the links would begin
   the next packet at the same moment, before it has its rate. */
static uint64_t rate_for(uint64_t bits, uint64_t time) {
    uint64_t rate = time ? bits * SECOND / time : MOST_RATE;
    if (rate < 1) return 1;
    return rate > MOST_RATE ? MOST_RATE : rate;
}

/* Returns the rate of a packet whose transmission begins at a moment, and takes its bytes from the trace. A packet that `waited` for another
   transmission first uses the bytes that this left of its last moment. */
static uint64_t take_rate(struct pipe *pipe, uint64_t begin, uint32_t bytes, bool waited) {
    uint64_t bits = (uint64_t)bytes * 8;
    skip_holds(pipe, begin);
    uint64_t from = after_holds(pipe, begin);
    if (!pipe->slots.moments) return from == begin ? pipe->bandwidth : rate_for(bits, from - begin);
    if (!waited || from != begin) seek(&pipe->slots, from, SLOT);
    uint64_t end = take_slots(&pipe->slots, bytes, SLOT);
    return rate_for(bits, end > begin ? end - begin : 0);
}

/* Has the links obey a pipe's line with another bandwidth: a rate in bit/s, or 0 for none. */
static void set_rate(struct links *links, struct pipe *pipe, uint64_t rate) {
    char *line = NULL;
    int len;
    if (rate == pipe->rate || !pipe->front) return;
    if (rate) len = asprintf(&line, "%s" BANDWIDTH "%" PRIu64 "bit/s%s", pipe->front, rate, pipe->behind);
    else len = asprintf(&line, "%s%s", pipe->front, pipe->behind);
    if (len < 0) fail("the links", "out of memory");
    const char *wrong = obey(links, line);
    if (wrong) fail(line, wrong);
    free(line);
    pipe->rate = rate;
}

/* Returns the ns for which these bytes are transmitted at a rate. */
static uint64_t transmission(uint32_t bytes, uint64_t rate) { return rate ? ((uint64_t)bytes * 8 * SECOND + rate - 1) / rate : 0; }

/* Sets the rate of the first packet that waits, before its transmission begins. */
static void prepare_first(struct links *links, struct pipe *pipe) {
    if (!pipe->count) return;
    pipe->first_rate = take_rate(pipe, pipe->free_at, pipe->waiting[pipe->first], true);
    set_rate(links, pipe, pipe->first_rate);
}

/* Returns the pipe whose next transmission begins first, up to a moment, or NULL if none begins. */
static struct pipe *next_to_begin(const struct pacing *pacing, uint64_t moment) {
    struct pipe *first = NULL;
    for (int i = 0; i < pacing->count; i++) {
        struct pipe *pipe = &pacing->pipes[i];
        if (pipe->count && pipe->free_at <= moment && (!first || pipe->free_at < first->free_at)) first = pipe;
    }
    return first;
}

void catch_up(struct pacing *pacing, uint64_t moment) {
    struct pipe *pipe = next_to_begin(pacing, moment);
    while (pipe) {
        uint32_t bytes = pop_waiting(pipe);
        advance(pacing->links, pipe->free_at);
        pipe->free_at += transmission(bytes, pipe->rate);
        prepare_first(pacing->links, pipe);
        pipe = next_to_begin(pacing, moment);
    }
}

/* Submits a packet whose transmission begins at once, at a rate of its own. If the links lose the packet, the trace gets its bytes back. */
static void submit_beginning(struct links *links, struct pipe *pipe, const struct dn_packet *packet, struct dn_fate *fate) {
    struct slots slots_before = pipe->slots;
    set_rate(links, pipe, take_rate(pipe, packet->moment, packet->length, false));
    submit(links, packet, fate);
    if (fate->outcome == DN_QUEUED) pipe->free_at = packet->moment + transmission(packet->length, pipe->rate);
    else pipe->slots = slots_before;
}

/* Submits a packet that waits for another transmission. */
static void submit_waiting(struct links *links, struct pipe *pipe, const struct dn_packet *packet, struct dn_fate *fate) {
    submit(links, packet, fate);
    if (fate->outcome != DN_QUEUED) return;
    push_waiting(pipe, packet->length);
    if (pipe->count == 1) prepare_first(links, pipe);
}

void submit_paced(struct pacing *pacing, const struct dn_packet *packet, struct dn_fate *fate) {
    struct pipe *pipe = packet->kind == DN_PIPE ? find_pipe(pacing, packet->number) : NULL;
    if (!pipe) submit(pacing->links, packet, fate);
    else if (!pipe->count && pipe->free_at <= packet->moment) submit_beginning(pacing->links, pipe, packet, fate);
    else submit_waiting(pacing->links, pipe, packet, fate);
}

/* Keeps a pipe's line in two parts, before and behind its bandwidth. */
static void keep_line(struct pipe *pipe, const char *line) {
    const char *bandwidth = strstr(line, BANDWIDTH);
    free(pipe->front);
    free(pipe->behind);
    if (bandwidth) {
        const char *value = bandwidth + strlen(BANDWIDTH);
        pipe->front = strndup(line, (size_t)(bandwidth - line));
        pipe->behind = strdup(value + strcspn(value, " "));
        pipe->bandwidth = strtoull(value, NULL, 10);
    } else {
        pipe->front = strdup(line);
        pipe->behind = strdup("");
        pipe->bandwidth = 0;
    }
    if (!pipe->front || !pipe->behind) fail("the links", "out of memory");
    pipe->rate = pipe->bandwidth;
}

/* Notes a pipe's line, which ended the rate of the first packet that waits. With a trace the packet keeps this rate, whose bytes it has
   taken; without one it gets a rate by the line's bandwidth. */
static void reconfigure(struct pacing *pacing, struct pipe *pipe, const char *line) {
    keep_line(pipe, line);
    if (pipe->slots.moments && pipe->count) set_rate(pacing->links, pipe, pipe->first_rate);
    else prepare_first(pacing->links, pipe);
}

/* Notes that a pipe has been deleted, together with the packets that waited. */
static void forget(struct pipe *pipe) {
    free(pipe->front);
    pipe->front = NULL;
    pipe->count = 0;
}

void note_configured(struct pacing *pacing, const char *line) {
    int number;
    if (strncmp(line, "pipe ", strlen("pipe ")) != 0) return;
    bool deletes = strncmp(line, "pipe delete ", strlen("pipe delete ")) == 0;
    const char *rest = line + strlen(deletes ? "pipe delete " : "pipe ");
    struct pipe *pipe = take_int(&rest, 1, pacing->most, &number) ? find_pipe(pacing, number) : NULL;
    if (!pipe) return;
    if (deletes) forget(pipe);
    else reconfigure(pacing, pipe, line);
}
