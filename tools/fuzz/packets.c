/* What a packet's sender chooses, as hinge-link reads it: headers, also those of frames, the cutting of TCP and its joining, contents, and a
   client's address. What is cut is joined again, and has all bytes of the data. */
#include <stdint.h>
#include <stdlib.h>
#include <string.h>

#include "../../hosts/link/carrier.h"
#include "../../hosts/link/content.h"
#include "../../hosts/link/datagram.h"
#include "../../hosts/link/dissect.h"
#include "../../hosts/link/frames.h"
#include "../../hosts/link/joins.h"
#include "../../hosts/link/segments.h"

enum { IPV4_AND_UDP = 28, IPV6_AND_UDP = 48, SHORTEST = 40 }; /* bytes; a packet lies in a longer buffer */

/* What a frame carries is the rest of it. */
static void look_at_frame(struct strangers *strangers, const unsigned char *bytes, size_t len) {
    struct dn_packet packet = {0};
    struct headers headers;
    struct payload payload;
    bool is_frame = dissect_frame(strangers, bytes, len, &payload, &packet, &headers);
    if (is_frame != (len >= SHORTEST_FRAME)) abort();
    if (is_frame && (payload.bytes < bytes + SHORTEST_FRAME || payload.bytes + payload.len != bytes + len)) abort();
    if (is_frame) (payload.is_ip ? content_of : content_of_bytes)(payload.bytes, payload.len);
}

/* A packet where nothing lies behind it, so that a read beyond its end is seen. */
static void look_at(struct strangers *strangers, const unsigned char *bytes, size_t len) {
    unsigned char *alone = malloc(len ? len : 1);
    struct dn_packet packet = {0};
    struct headers headers;
    memcpy(alone, bytes, len);
    if (len > 0 && dissect(strangers, alone, len, &packet, &headers)) {
        content_of(alone, len);
        if (len >= (alone[0] >> 4 == 4 ? IPV4_AND_UDP : IPV6_AND_UDP)) {
            client_end(0, alone);
            client_end(1, alone);
        }
    }
    look_at_frame(strangers, alone, len);
    free(alone);
}

/* Copies of what is cut, each with room for its note before it, so that they can be joined. */
static int cut(struct strangers *strangers, struct whole *whole, struct bytes *made, size_t *data) {
    int count = 0;
    *data = 0;
    while (whole->has_another) {
        unsigned char *packet;
        size_t len = cut_next(whole, &packet);
        if (packet < whole->bytes + NOTE || packet + len > whole->bytes + sizeof whole->bytes || len > whole->len) abort();
        look_at(strangers, packet, len);
        *data += len - whole->before;
        if (count == MOST_JOINED) continue;
        unsigned char *room = malloc(NOTE + (len < SHORTEST ? SHORTEST : len));
        memcpy(room, packet - NOTE, NOTE + len);
        made[count++] = (struct bytes){.at = room + NOTE, .len = len};
    }
    return count;
}

int LLVMFuzzerTestOneInput(const uint8_t *given, size_t size) {
    static struct strangers *strangers;
    static struct whole whole;
    struct bytes made[MOST_JOINED];
    size_t data;
    if (!strangers) strangers = new_strangers(new_transcript(NULL));
    look_at(strangers, given, size);
    if (size <= NOTE || size > sizeof whole.bytes) return 0;
    memcpy(whole.bytes, given, size);
    begin_cutting(&whole, size - NOTE);
    int count = cut(strangers, &whole, made, &data), joined = 1;
    if (data != whole.len - whole.before) abort();
    while (joined < count && joins(made, joined, &made[joined])) joined++;
    join(made, joined);
    for (int i = 0; i < count; i++) free(made[i].at - NOTE);
    return 0;
}
