#include "frames.h"

#include <stdio.h>
#include <stdlib.h>

#include "dissect.h"

enum { LONGEST_SEGMENT = 8 * 65535 }; /* bytes that Linux gives a card to cut; none takes more */
enum { LONGEST = 1500 };              /* bytes of a packet on most links */

static void refuse_length(uint64_t number, uint32_t length) {
    if (length <= LONGEST_SEGMENT) return;
    char text[32];
    snprintf(text, sizeof text, "%s", grouped(length));
    refuse("frame %llu is an IP packet of %s bytes, and a card is given at most %s to cut", (unsigned long long)number, text,
           grouped(LONGEST_SEGMENT));
}

static void add(struct frames *frames, const struct frame *frame) {
    if (frames->count == frames->room) {
        frames->room = frames->room ? 2 * frames->room : 1024;
        frames->items = grown(frames->items, frames->room * sizeof *frames->items);
    }
    frames->items[frames->count++] = *frame;
}

static void number_flow(struct frames *frames, const struct waiting *waiting, size_t place) {
    frames->items[place].flow = waited(&frames->flows, waiting, place);
}

static void take(struct frames *frames, struct waiting *waiting, const struct raw *raw) {
    uint64_t number = ++frames->captured;
    struct packet packet;
    int found = dissect(raw->link, raw->bytes, &packet);
    if (found < 0) refuse("frame %llu has the link type %u, and none is known of these: " KNOWN_LINKS, (unsigned long long)number, raw->link);
    if (!found) return;
    if (!raw->has_time) refuse("frame %llu of the capture has no time", (unsigned long long)number);
    /* of more than 65,535 bytes, or one that the card was still to cut */
    if (!packet.length && raw->length > packet.begin) packet.length = raw->length - (uint32_t)packet.begin;
    refuse_length(number, packet.length);
    frames->long_ones += packet.length > LONGEST;
    struct flow flow = {.sport = packet.sport, .dport = packet.dport, .proto = packet.proto, .dscp = packet.dscp};
    flow.src = number_of(&frames->addresses, &packet.src);
    flow.dst = number_of(&frames->addresses, &packet.dst);
    size_t place = frames->count;
    if (place >= MOST_WAITING) number_flow(frames, waiting, place - MOST_WAITING);
    wait_for(&frames->flows, waiting, place, &flow);
    add(frames, &(struct frame){raw->time, number, packet.headers, 0, packet.length});
}

static int by_time(const void *one, const void *other) {
    const struct frame *a = one, *b = other;
    return a->time != b->time ? (a->time > b->time) - (a->time < b->time) : (a->number > b->number) - (a->number < b->number);
}

/* Flows are numbered by their first packets in order of time, too. */
static void sort(struct frames *frames) {
    struct table flows = empty_table(sizeof(struct flow));
    qsort(frames->items, frames->count, sizeof *frames->items, by_time);
    for (size_t i = 0; i < frames->count; i++) {
        uint32_t *flow = &frames->items[i].flow;
        *flow = number_of(&flows, item_of(&frames->flows, *flow));
    }
    free(frames->flows.items);
    free(frames->flows.slots);
    frames->flows = flows;
}

void read_frames(struct capture *capture, struct frames *frames) {
    struct raw raw;
    struct waiting waiting;
    bool is_in_order = true;
    *frames = (struct frames){.addresses = empty_table(sizeof(struct address)), .flows = empty_table(sizeof(struct flow))};
    begin_capture(capture);
    while (next_frame(capture, &raw)) take(frames, &waiting, &raw);
    for (size_t i = frames->count > MOST_WAITING ? frames->count - MOST_WAITING : 0; i < frames->count; i++) number_flow(frames, &waiting, i);
    for (size_t i = 1; i < frames->count; i++) is_in_order = is_in_order && frames->items[i - 1].time <= frames->items[i].time;
    if (!is_in_order) sort(frames);
}
