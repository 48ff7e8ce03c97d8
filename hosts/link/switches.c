#include "switches.h"

#include <string.h>

#include "basics.h"
#include "carrier.h"
#include "frames.h"

/* The sizes of a table of senders. An address belongs to one set, whose places are for the senders that were heard last. */
enum { SETS = 4096, PLACES = 4 };

#define AGE (300 * SECOND) /* how long a switch knows a silent sender, as IEEE 802.1Q proposes */

struct sender {
    unsigned char mac[MAC];
    int way;        /* the way by which its last frame came */
    uint64_t heard; /* the moment of this frame plus 1, or 0 in a free place */
};

struct frame_switch {
    int *ways;              /* the ways that end at it */
    int count;              /* the number of these ways */
    struct sender *senders; /* its table of senders, set behind set */
};

struct switches {
    struct frame_switch *list;
    int count;      /* the number of switches */
    int place_of[]; /* by ways: the place of the switch at which the way ends, from 1 on, or 0 */
};

struct switches *new_switches(int ways) {
    return allocate_zeros(sizeof(struct switches) + (size_t)ways * sizeof(int));
}

bool add_switch(struct switches *switches, const int *ways, int count) {
    int place = switches->count + 1;
    int *place_of = switches->place_of;
    for (int i = 0; i < count; i++) {
        if (place_of[ways[i]] || place_of[back(ways[i])] == place) return false;
        place_of[ways[i]] = place;
    }
    switches->list = reallocate(switches->list, (size_t)place * sizeof *switches->list);
    struct frame_switch *added = &switches->list[switches->count++];
    added->count = count;
    added->ways = reallocate(NULL, (size_t)count * sizeof *ways);
    memcpy(added->ways, ways, (size_t)count * sizeof *ways);
    added->senders = allocate_zeros(sizeof *added->senders * SETS * PLACES);
    return true;
}

bool ends_at_switch(const struct switches *switches, int way) { return switches->place_of[way]; }

bool carries_frames(const struct switches *switches, int way) { return switches->place_of[way] || switches->place_of[back(way)]; }

/* Returns the switch at which a way ends. */
static const struct frame_switch *switch_of(const struct switches *switches, int way) { return &switches->list[switches->place_of[way] - 1]; }

/* Returns the first place of an address's set. */
static struct sender *set_of(const struct frame_switch *frame_switch, const unsigned char mac[MAC]) {
    uint64_t number = 0;
    memcpy(&number, mac, MAC);
    return &frame_switch->senders[(number * 0x9e3779b97f4a7c15 >> 52) * PLACES];
}

/* Returns a set's sender with an address, or NULL. */
static struct sender *find_sender(struct sender *set, const unsigned char mac[MAC]) {
    for (struct sender *sender = set; sender < set + PLACES; sender++)
        if (sender->heard && memcmp(sender->mac, mac, MAC) == 0) return sender;
    return NULL;
}

/* Returns a free place of a set, or the place of the sender that was silent for the longest time. */
static struct sender *oldest_place(struct sender *set) {
    struct sender *oldest = set;
    for (struct sender *sender = set; sender < set + PLACES; sender++)
        if (sender->heard < oldest->heard) oldest = sender;
    return oldest;
}

/* Notes in a set that the sender with an address was heard. */
static void note_heard(struct sender *set, const unsigned char mac[MAC], int way, uint64_t moment) {
    struct sender *place = find_sender(set, mac);
    if (!place) place = oldest_place(set);
    *place = (struct sender){.way = way, .heard = moment + 1};
    memcpy(place->mac, mac, MAC);
}

/* Whether a destination is for neighbours on a link, from 01:80:c2:00:00:00 to 0f. A switch sends no such frame on. */
static bool is_of_link(const unsigned char mac[MAC]) { return memcmp(mac, "\x01\x80\xc2\x00\x00", MAC - 1) == 0 && mac[MAC - 1] < 16; }

int next_way(const struct switches *switches, int way, const unsigned char *frame, uint64_t moment) {
    const struct frame_switch *frame_switch = switch_of(switches, way);
    const unsigned char *to = frame;
    const unsigned char *from = frame + MAC;
    if (!is_group(from)) note_heard(set_of(frame_switch, from), from, way, moment);
    if (is_group(to)) return is_of_link(to) ? TO_NONE : TO_ALL;
    const struct sender *destination = find_sender(set_of(frame_switch, to), to);
    if (!destination || moment > destination->heard + AGE) return TO_ALL;
    return destination->way == way ? TO_NONE : back(destination->way);
}

int other_way(const struct switches *switches, int way, int before) {
    const struct frame_switch *frame_switch = switch_of(switches, way);
    bool is_behind = before == NO_WAY;
    for (int place = 0; place < frame_switch->count; place++) {
        int other = back(frame_switch->ways[place]);
        if (is_behind && frame_switch->ways[place] != way) return other;
        if (other == before) is_behind = true;
    }
    return NO_WAY;
}
