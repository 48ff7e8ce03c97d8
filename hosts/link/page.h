/* The page of counts: memory that `hinge run` shares and reads, during the run and after it. hinge/run/page.py repeats the order of its
   fields. */
#pragma once
#include <stdint.h>

enum {
    BINS = 480, /* counts of times by their us: 16 bins for each power of two */
};

enum state { STARTING, RUNNING, ENDED_WELL };
enum realtime { NOT_ASKED, HAS_IT, NOT_ALLOWED };

/* The counts of a way, which is one direction of a link. They are of packets unless a comment says otherwise. */
struct way {
    uint64_t came;              /* submitted to the links, with copies */
    uint64_t came_bytes;        /* bytes */
    uint64_t sent;              /* sent on by the system */
    uint64_t sent_bytes;        /* bytes */
    uint64_t lost;              /* lost by the link: by its loss rate, a cut or a fault */
    uint64_t full;              /* dropped by a full queue */
    uint64_t no_target;         /* submitted to a pipe or queue that didn't exist */
    uint64_t refused;           /* refused by the system behind the link */
    uint64_t corrupted;         /* sent on with a flipped bit */
    uint64_t not_ip;            /* turned away since they weren't of IP */
    uint64_t turned_away;       /* of more clients than there can be, longer than LONGEST, or shorter than a frame */
    uint64_t dropped;           /* dropped by the system before the link, as far as this program can see */
    uint64_t held;              /* in the link now */
    uint64_t discarded;         /* discarded by the delete of their pipe or queue */
    uint64_t stayed;            /* ns: the sum of the times that packets spent in the link */
    uint64_t late_most;         /* ns: the greatest time by which a packet was late */
    uint64_t unread_most;       /* ns: the greatest time that a packet lay unread */
    uint64_t late[BINS];        /* by the time by which they were late */
    uint64_t unread[BINS];      /* by the time that they lay unread */
    uint64_t late_time[BINS];   /* ns in which a due packet waited, by the time by which it was late */
    uint64_t unread_time[BINS]; /* ns in which a packet lay unread, by the time that it lay */
};

struct page {
    uint64_t state;    /* an enum state */
    uint64_t moment;   /* the moment of the last turn */
    uint64_t wakes;    /* the number of waits that slept */
    uint64_t turns;    /* the number of turns */
    uint64_t underway; /* the number of packets in the links at the end */
    uint64_t realtime; /* an enum realtime */
    uint64_t parts;    /* the number of the transcript's files */
    struct way ways[]; /* as carrier.h numbers them */
};

enum { MET = 16 }; /* numbers, with a bit for each of the first rules */

/* Returns the numbers behind the ways, whose bits say which rules a packet has met. */
uint64_t *met_of(struct page *page, int ways);

/* Opens the page of `ways` ways. */
struct page *open_page(int descriptor, int ways);

/* Adds a count to the bin of a time. */
void count_time(uint64_t bins[BINS], uint64_t ns, uint64_t count);
