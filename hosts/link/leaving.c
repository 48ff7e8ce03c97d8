#include "leaving.h"

#include <inttypes.h>

#include "content.h"
#include "host.h"
#include "joins.h"
#include "ways.h"

/* The packets that leave at a moment. */
struct leaving {
    struct packet *packets[MOST_JOINED]; /* packets of one way, which the carrier sends in one write */
    struct bytes bytes[MOST_JOINED];     /* the bytes of each */
    uint64_t dues[MOST_JOINED];          /* the moment at which each was due */
    int count;                           /* the number of these packets */
    struct packet *first_frame;          /* a list of frames that have arrived at switches */
    struct packet *last_frame;           /* the last of these */
};

/* Chooses the pipe of a packet's second pass, or 0 if the packet has none left. A pipe is drawn even if a fault names another one, so that
   the fault changes nothing for other packets. */
static int choose_second_pipe(struct host *host, const struct packet *packet) {
    if (packet->again) return 0;
    int pipe = draw_second_pipe(host->passes, packet->way);
    return pipe && packet->late ? packet->late : pipe;
}

/* Submits a packet that has left its first pipe to another one. If a line has deleted this one, the packet is counted as one without a
   target. */
static void submit_again(struct host *host, struct packet *packet, int pipe, uint64_t due) {
    struct arrival arrival = {.bytes = packet->bytes + host->carrier.prefix, .size = packet->size};
    struct payload payload;
    struct headers headers;
    struct dn_fate fate;
    make_changes(host, host->clock.last);
    struct dn_packet again = {.moment = host->clock.last, .word = WORD_OF_NONE};
    read_arrival(host, packet->way, &arrival, &payload, &again, &headers);
    again.kind = DN_PIPE;
    again.number = (uint16_t)pipe;
    remark_payload(host, &payload, packet->is_for_all);
    submit(host->links, &again, &fate);
    if (fate.outcome == DN_QUEUED) {
        packet->again = true;
        packet->behind = host->clock.last - due;
        hold_again(host->held, packet, fate.packet);
    } else {
        host->page->ways[packet->way].no_target++;
        release_packet(host->held, packet);
    }
}

/* Flips a bit behind a packet's IP header, where checksums cover it, and remarks the bit. A frame without IP stays whole. */
static void corrupt(struct host *host, struct packet *packet) {
    struct arrival arrival = {.bytes = packet->bytes + host->carrier.prefix, .size = packet->size};
    struct dn_packet fields = {0};
    struct payload payload;
    struct headers headers;
    size_t bits = 0, bit = 0;
    read_arrival(host, packet->way, &arrival, &payload, &fields, &headers);
    if (payload.is_ip) bits = bits_behind_header(payload.bytes, payload.len);
    if (bits) {
        unsigned char *bytes = packet->bytes + host->carrier.prefix;
        bit = flipped_bit(host->passes, packet->way, bits);
        if (host->carrier.finish) host->carrier.finish(bytes, packet->size);
        bytes[packet->size - 1 - bit / 8] ^= (unsigned char)(1 << bit % 8);
        host->page->ways[packet->way].corrupted++;
    }
    remark(host->transcript, "#,corrupt,%" PRIu64 ",%zu,%zu,%016" PRIx64 "\n", packet->number, bit, bits, number_of_content(&payload));
}

static void remark_refused(const struct host *host, const struct packet *packet) {
    remark(host->transcript, "#,refused,%" PRIu64 "\n", packet->number);
}

/* Counts a packet that has left its link. It is late from its due moment to the end of the write that sent it, and by its first pass's
   delay. */
static void note_left(struct host *host, const struct packet *packet, uint64_t due, bool is_sent, uint64_t moment) {
    struct way *counts = &host->page->ways[packet->way];
    if (is_sent) {
        counts->sent++;
        counts->sent_bytes += packet->len;
    } else {
        counts->refused++;
        remark_refused(host, packet);
    }
    counts->stayed += moment - packet->came;
    note_lateness(host, packet->way, LATE, moment - due + packet->behind, moment);
}

static void arrive_at_switch(struct host *host, struct leaving *leaving, struct packet *packet, uint64_t due) {
    note_left(host, packet, due, true, present(&host->clock));
    packet->next = NULL;
    if (leaving->first_frame) leaving->last_frame->next = packet;
    else leaving->first_frame = packet;
    leaving->last_frame = packet;
}

/* Gives a frame to the way by which its switch sends it on, or to each other way of the switch. */
static void switch_frame(struct host *host, const struct packet *packet) {
    struct arrival arrival = {.bytes = packet->bytes + host->carrier.prefix, .size = packet->size};
    int next = next_way(host->switches, packet->way, arrival.bytes, host->clock.last);
    if (next == TO_ALL) {
        arrival.is_for_all = true;
        next = other_way(host->switches, packet->way, NO_WAY);
    }
    if (next < 0) remark_refused(host, packet);
    while (next >= 0) {
        give_to_link(host, next, &arrival, host->clock.last);
        next = arrival.is_for_all ? other_way(host->switches, packet->way, next) : NO_WAY;
    }
}

static void switch_frames(struct host *host, struct packet *frame) {
    while (frame) {
        struct packet *next = frame->next;
        switch_frame(host, frame);
        release_packet(host->held, frame);
        frame = next;
    }
}

/* Sends the packets of one write. */
static void send_leaving(struct host *host, struct leaving *leaving) {
    if (!leaving->count) return;
    bool is_sent = host->carrier.transmit(host->carrier.state, leaving->packets[0]->way, leaving->bytes, leaving->count);
    uint64_t moment = present(&host->clock);
    for (int i = 0; i < leaving->count; i++) {
        note_left(host, leaving->packets[i], leaving->dues[i], is_sent, moment);
        release_packet(host->held, leaving->packets[i]);
    }
    leaving->count = 0;
}

/* Adds a packet to the next write, behind a write of the packets that it can't join. */
static void add_leaving(struct host *host, struct leaving *leaving, struct packet *packet, uint64_t due) {
    struct bytes bytes = {packet->bytes + host->carrier.prefix, packet->size};
    const struct carrier *carrier = &host->carrier;
    bool is_same_way = leaving->count && packet->way == leaving->packets[0]->way;
    if (!is_same_way || !carrier->joins || !carrier->joins(leaving->bytes, leaving->count, &bytes)) send_leaving(host, leaving);
    leaving->packets[leaving->count] = packet;
    leaving->bytes[leaving->count] = bytes;
    leaving->dues[leaving->count] = due;
    leaving->count++;
}

/* Has a packet leave its link's last pipe, or enter the next one. */
static void leave_pipe(struct host *host, struct leaving *leaving, struct packet *packet, uint64_t due) {
    if (!packet->len) { /* the packet of an outage, which nobody sent */
        release_packet(host->held, packet);
        return;
    }
    int pipe = choose_second_pipe(host, packet);
    if (pipe) {
        submit_again(host, packet, pipe, due);
        return;
    }
    if (draws_corruption(host->passes, packet->way)) corrupt(host, packet);
    if (ends_at_switch(host->switches, packet->way)) arrive_at_switch(host, leaving, packet, due);
    else add_leaving(host, leaving, packet, due);
}

void send_due_packets(struct host *host) {
    struct leaving leaving;
    const struct dn_delivery *list;
    leaving.count = 0;
    leaving.first_frame = NULL;
    make_changes(host, host->clock.last);
    catch_up(host->pacing, host->clock.last);
    uint64_t count = collect(host->links, host->clock.last, &list);
    for (uint64_t i = 0; i < count; i++) leave_pipe(host, &leaving, take_held(host->held, list[i].packet), list[i].due);
    send_leaving(host, &leaving);
    switch_frames(host, leaving.first_frame);
}

void count_remaining(struct host *host) {
    const struct dn_delivery *list;
    uint64_t count = collect_rest(host->links, &list);
    for (uint64_t i = 0; i < count; i++) {
        struct packet *packet = take_held(host->held, list[i].packet);
        if (packet->len) host->page->underway++;
        release_packet(host->held, packet);
    }
    discard_held(host->held);
}
