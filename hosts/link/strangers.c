#include "strangers.h"

#include <stdbool.h>
#include <string.h>

#include "basics.h"
#include "octets.h"

enum { MOST = 65536, PLACES = 2 * MOST };
#define FIRST_STAND_IN UINT32_C(0xf0000000) /* 240.0.0.0 */
#define SHARED UINT32_C(0xffffffff)

struct stranger {
    unsigned char address[16];
    uint32_t number; /* its number from 1 on, or 0 in a free place */
};

struct strangers {
    struct transcript *transcript;
    uint32_t count;                 /* the number of strangers */
    struct stranger places[PLACES]; /* a hash table: a stranger is in its first place or behind it, before a free place */
};

/* Returns the place where the search for an address begins. */
static size_t first_place(const unsigned char address[16]) {
    uint64_t half[2];
    memcpy(half, address, sizeof half);
    return (size_t)((half[0] * 0x9e3779b97f4a7c15 ^ half[1]) * 0x9e3779b97f4a7c15 >> 47) % PLACES;
}

struct strangers *new_strangers(struct transcript *transcript) {
    struct strangers *strangers = allocate_zeros(sizeof *strangers);
    strangers->transcript = transcript;
    return strangers;
}

/* Remarks the address that stands for a stranger, and the stranger's address. */
static void remark_address(struct transcript *transcript, uint32_t stand_in, const unsigned char *address) {
    remark(transcript, "#,address,%u.%u.%u.%u", stand_in >> 24, stand_in >> 16 & 255, stand_in >> 8 & 255, stand_in & 255);
    for (int i = 0; i < 16; i += 2) remark(transcript, "%c%04x", i ? ':' : ',', u16_at(address + i));
    remark(transcript, "\n");
}

/* Puts a stranger into a free place, and returns the address that stands for it. */
static uint32_t add_stranger(struct strangers *strangers, struct stranger *place, const unsigned char address[16]) {
    strangers->count++;
    place->number = strangers->count;
    memcpy(place->address, address, 16);
    remark_address(strangers->transcript, FIRST_STAND_IN + place->number, address);
    return FIRST_STAND_IN + place->number;
}

uint32_t stand_in(struct strangers *strangers, const unsigned char address[16]) {
    const struct stranger *places = strangers->places;
    size_t at = first_place(address);
    while (places[at].number && memcmp(places[at].address, address, 16) != 0) at = (at + 1) % PLACES;
    if (places[at].number) return FIRST_STAND_IN + places[at].number;
    if (strangers->count == MOST) return SHARED;
    return add_stranger(strangers, &strangers->places[at], address);
}
