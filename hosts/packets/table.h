/* Items of one size, by which those that are equal are found. */
#ifndef TABLE_H
#define TABLE_H
#include "basics.h"

/* Items of one size, each once, which are numbered in the order in which they came. */
struct table {
    size_t words; /* of 64 bits, of an item */
    uint64_t *items;
    uint32_t count, room;
    uint64_t *slots; /* twice as many as there is room for, 0 or an item's number and one, below 32 bits of its hash */
    uint64_t secrets[2];
};

/* A table of items of so many bytes, a multiple of eight. */
struct table empty_table(size_t bytes);

/* The number of an item, which is added where it is new. */
uint32_t number_of(struct table *table, const void *item);

enum { MOST_WAITING = 32 };

/* Items of two words, which are numbered some places later, when memory has brought their places in the table. */
struct waiting {
    uint64_t items[MOST_WAITING][2], hashes[MOST_WAITING];
};

/* Takes the item of a place, behind those of all places before it. */
void wait_for(const struct table *table, struct waiting *waiting, size_t place, const void *item);

/* The number of the item of a place, which waits: one of the last MOST_WAITING. They are asked for in the order of their places. */
uint32_t waited(struct table *table, const struct waiting *waiting, size_t place);

const void *item_of(const struct table *table, uint32_t number);
#endif
