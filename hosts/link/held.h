/* The packets that are in the links, by the numbers that the library gave them. */
#pragma once
#include <stdbool.h>
#include <stddef.h>
#include <stdint.h>

#include "page.h"

struct packet {
    struct packet *next; /* the next packet in its bucket, or the next free room of its kind */
    int kind;            /* the kind of its room */
    uint64_t number;     /* the library's number */
    int way;             /* the direction of a link, as carrier.h numbers ways */
    uint64_t came;       /* the moment at which it came */
    uint64_t behind;     /* ns by which its first pass was late */
    bool again;          /* whether it is in its second pass (passes.h) */
    int late;            /* the pipe of its second pass if a fault chose one, or 0 */
    bool is_for_all;     /* whether a switch has sent it on to each other way */
    size_t len;          /* bytes that count on the link; 0 for the packet of an outage, which nobody sent */
    size_t size;         /* bytes that the carrier sends on, behind its prefix */
    unsigned char bytes[];
};

/* Returns a table without packets, whose packets the page counts. */
struct held *new_held(struct page *page);

/* Keeps a packet with `kept` bytes. */
void hold(struct held *held, const struct packet *packet, const unsigned char *bytes, size_t kept);

/* Puts back a packet that take_held() returned, under another number. */
void hold_again(struct held *held, struct packet *packet, uint64_t number);

/* Takes out the packet with a number. Ends the program if there is none. */
struct packet *take_held(struct held *held, uint64_t number);

/* Frees a packet that was taken out, or keeps its room for another packet. */
void release_packet(struct held *held, struct packet *packet);

/* Takes out and frees all packets, and counts them as discarded by deletes. */
void discard_held(struct held *held);
