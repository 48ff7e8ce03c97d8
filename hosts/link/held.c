#include "held.h"

#include <stdlib.h>
#include <string.h>

#include "basics.h"

enum { BUCKETS = 65536, KINDS = 2 };

/* Bytes of each kind of room. A free room of a kind is kept for the next packet; a longer packet has a room of its own, of the kind KINDS. */
static const size_t rooms[KINDS] = {256, 2048};

struct held {
    struct packet *buckets[BUCKETS]; /* lists of packets, by the remainders of their numbers */
    struct packet *spare[KINDS];     /* lists of free rooms */
    struct page *page;
};

struct held *new_held(struct page *page) {
    struct held *held = allocate_zeros(sizeof *held);
    held->page = page;
    return held;
}

void hold_again(struct held *held, struct packet *packet, uint64_t number) {
    struct packet **bucket = &held->buckets[number % BUCKETS];
    packet->number = number;
    packet->next = *bucket;
    *bucket = packet;
    held->page->ways[packet->way].held++;
}

/* Returns a room of a kind, which may be a free one. */
static struct packet *new_room(struct held *held, int kind, size_t size) {
    if (kind == KINDS) return reallocate(NULL, size);
    struct packet *room = held->spare[kind];
    if (!room) return reallocate(NULL, rooms[kind]);
    held->spare[kind] = room->next;
    return room;
}

void hold(struct held *held, const struct packet *packet, const unsigned char *bytes, size_t kept) {
    size_t size = sizeof *packet + kept;
    int kind = 0;
    while (kind < KINDS && size > rooms[kind]) kind++;
    struct packet *copy = new_room(held, kind, size);
    *copy = *packet;
    copy->kind = kind;
    if (kept) memcpy(copy->bytes, bytes, kept);
    hold_again(held, copy, packet->number);
}

struct packet *take_held(struct held *held, uint64_t number) {
    struct packet **link = &held->buckets[number % BUCKETS];
    while (*link && (*link)->number != number) link = &(*link)->next;
    struct packet *packet = *link;
    if (!packet) fail("the links", "a packet is delivered that wasn't accepted");
    *link = packet->next;
    held->page->ways[packet->way].held--;
    return packet;
}

void release_packet(struct held *held, struct packet *packet) {
    if (packet->kind == KINDS) free(packet);
    else {
        packet->next = held->spare[packet->kind];
        held->spare[packet->kind] = packet;
    }
}

static void discard(struct held *held, uint64_t number) {
    struct packet *packet = take_held(held, number);
    if (packet->len) held->page->ways[packet->way].discarded++;
    release_packet(held, packet);
}

void discard_held(struct held *held) {
    for (uint64_t bucket = 0; bucket < BUCKETS; bucket++)
        while (held->buckets[bucket]) discard(held, held->buckets[bucket]->number);
}
