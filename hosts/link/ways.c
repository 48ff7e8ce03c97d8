#include "ways.h"

#include <inttypes.h>

#include "content.h"
#include "host.h"

/* The most packets that are received of a way before another way has its turn. Packets that came together with the last are received, too. */
enum { AT_ONCE = 64 };

uint64_t number_of_content(const struct payload *payload) {
    if (payload->is_ip) return content_of(payload->bytes, payload->len);
    return content_of_bytes(payload->bytes, payload->len);
}

void remark_payload(const struct host *host, const struct payload *payload, bool is_for_all) {
    if (!host->remarks_contents) return;
    if (is_for_all) remark(host->transcript, "#,flooded\n");
    else if (payload->is_ip && is_last_hop(payload->bytes)) remark(host->transcript, "#,last\n");
    remark_content(host->transcript, number_of_content(payload));
}

/* Remarks the rejection that an ICMP message reports: who rejected which packet. The path audit would otherwise miss the rejected packet. */
static void remark_rejected(const struct host *host, int way, const struct payload *payload, const struct dn_packet *packet) {
    size_t len;
    struct dn_packet lost;
    struct headers headers;
    if (!host->remarks_contents || !payload->is_ip) return;
    const unsigned char *bytes = rejected_packet(payload->bytes, payload->len, &len);
    if (!bytes || !dissect(host->strangers, bytes, len, &lost, &headers)) return;
    remark(host->transcript, "#,rejected,%" PRIu64 ",%d,%" PRIu32 ",%" PRIu32 ",%" PRIu32 "\n", packet->moment, way + 1, packet->src, lost.src,
           lost.dst);
}

bool read_arrival(const struct host *host, int way, const struct arrival *arrival, struct payload *payload, struct dn_packet *packet,
                  struct headers *headers) {
    bool is_whole;
    *payload = (struct payload){arrival->bytes, arrival->size, true};
    if (carries_frames(host->switches, way)) is_whole = dissect_frame(host->strangers, arrival->bytes, arrival->size, payload, packet, headers);
    else is_whole = dissect(host->strangers, arrival->bytes, arrival->size, packet, headers);
    if (!is_whole) return false;
    packet->length = (uint16_t)(payload->len ? payload->len : 1);
    return payload->len <= LONGEST;
}

/* Keeps the bytes of a packet that the links have accepted, under the number of its fate. */
static void hold_arrival(struct host *host, int way, const struct arrival *arrival, const struct dn_packet *packet, uint64_t number) {
    size_t prefix = host->carrier.prefix;
    struct packet held = {.number = number, .way = way, .came = packet->moment, .len = packet->length, .size = arrival->size};
    held.late = fault_of(host->passes, way, IS_LATE);
    held.is_for_all = arrival->is_for_all;
    hold(host->held, &held, arrival->bytes - prefix, prefix + arrival->size);
}

/* Submits an arrival with a random word, by which the links decide about a loss. */
static void submit_arrival(struct host *host, int way, const struct arrival *arrival, const struct payload *payload, struct dn_packet *packet,
                           uint32_t word) {
    struct way *counts = &host->page->ways[way];
    struct dn_fate fate;
    counts->came++;
    counts->came_bytes += packet->length;
    packet->word = word;
    catch_up(host->pacing, packet->moment);
    remark_rejected(host, way, payload, packet);
    remark_payload(host, payload, arrival->is_for_all);
    submit_paced(host->pacing, packet, &fate);
    switch (fate.outcome) {
    case DN_QUEUED: hold_arrival(host, way, arrival, packet, fate.packet); break;
    case DN_LOST: counts->lost++; break;
    case DN_FULL: counts->full++; break;
    default: counts->no_target++;
    }
}

/* Submits an arrival, and its double if a fault wants one. The double isn't counted among the way's packets, and no loss rate loses it. The
   cut of a port (`is_cut`) loses both. */
static void submit_with_double(struct host *host, int way, const struct arrival *arrival, const struct payload *payload, struct dn_packet *packet,
                               bool is_cut) {
    uint32_t word = next_word(host->losses, host->passes, way);
    submit_arrival(host, way, arrival, payload, packet, is_cut ? WORD_OF_A_LOSS : word);
    if (fault_of(host->passes, way, IS_TWICE)) submit_arrival(host, way, arrival, payload, packet, is_cut ? WORD_OF_A_LOSS : WORD_OF_NONE);
}

bool give_to_link(struct host *host, int way, const struct arrival *arrival, uint64_t moment) {
    struct dn_packet packet = {.moment = moment};
    struct payload payload;
    struct headers headers;
    make_changes(host, moment);
    if (!read_arrival(host, way, arrival, &payload, &packet, &headers)) return false;
    enum extent extent = extent_of_cut(host->cuts, way, &packet);
    bool is_cut = extent == CUTS_PORT;
    if (extent != CUTS_NOTHING) classify_plainly(way, &packet);
    else classify(&host->rules, way, &headers, &packet);
    submit_with_double(host, way, arrival, &payload, &packet, is_cut);
    if (draws_copy(host->passes, way)) submit_with_double(host, way, arrival, &payload, &packet, is_cut);
    return true;
}

/* Gives the bytes that a carrier has received to their link, or counts them as turned away. */
static void take_received(struct host *host, int way, const unsigned char *bytes, size_t size, uint64_t moment) {
    struct arrival arrival = {.bytes = bytes, .size = size};
    bool is_given = give_to_link(host, way, &arrival, moment);
    if (is_given) note_lateness(host, way, UNREAD, has_lain(host->unread, way), moment);
    else if (carries_frames(host->switches, way)) host->page->ways[way].turned_away++;
    else host->page->ways[way].not_ip++;
}

static void drop_waiting(const struct carrier *carrier, int way) {
    unsigned char *bytes;
    ssize_t len = 0;
    while (len >= 0) len = carrier->receive(carrier->state, way, &bytes);
}

void begin_ways(struct host *host) {
    for (int way = 0; way < host->carrier.ways; way++)
        if (carries_frames(host->switches, way) && host->carrier.polled[way] >= 0) drop_waiting(&host->carrier, way);
}

/* Where time stands, a turn receives one packet: the next wait reports further packets at the same moment. A second read would be a system
   call for each packet, and mostly find nothing. */
void receive_packets(struct host *host, int way) {
    const struct carrier *carrier = &host->carrier;
    int most = host->clock.stands ? 1 : AT_ONCE;
    unsigned char *bytes;
    bool goes_on = false;
    note_unemptied(host->unread, way);
    for (int i = 0; i < most || goes_on; i++) {
        ssize_t len = carrier->receive(carrier->state, way, &bytes);
        if (len < 0) {
            note_empty(host->unread, way, host->clock.last);
            return;
        }
        if (!goes_on) note_taken(host->unread, way, present(&host->clock));
        goes_on = carrier->goes_on && carrier->goes_on(carrier->state);
        if (len > 0) take_received(host, way, bytes, (size_t)len, host->clock.last);
    }
    if (host->clock.stands) note_empty(host->unread, way, host->clock.last);
}
