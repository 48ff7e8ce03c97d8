#include "table.h"

#include <stdlib.h>
#include <string.h>
#include <sys/random.h>

enum { WORD = sizeof(uint64_t), LEAST_ROOM = 256 };
#define MOST_ITEMS (UINT32_C(1) << 30)

struct table empty_table(size_t bytes) {
    struct table made = {.words = bytes / WORD};
    /* Without secrets a file could be made so that its items meet in a slot. */
    if (getrandom(made.secrets, sizeof made.secrets, 0) < 0) refused(UNREAD);
    return made;
}

const void *item_of(const struct table *table, uint32_t number) { return table->items + number * table->words; }

static uint64_t folded(uint64_t one, uint64_t other) {
    unsigned __int128 product = (unsigned __int128)one * other;
    return (uint64_t)product ^ (uint64_t)(product >> 64);
}

static uint64_t hash(const struct table *table, const uint64_t *item) {
    uint64_t made = table->secrets[1];
    /* An item has as many words as its table says. NOLINTNEXTLINE(clang-analyzer-core.UndefinedBinaryOperatorResult) */
    for (size_t i = 0; i < table->words; i++) made = folded(item[i] ^ made, table->secrets[0] | 1);
    return folded(made, table->secrets[1] | 1);
}

static bool is_item(const struct table *table, uint32_t number, const uint64_t *item) {
    const uint64_t *other = item_of(table, number);
    uint64_t difference = 0;
    for (size_t i = 0; i < table->words; i++) difference |= item[i] ^ other[i];
    return !difference;
}

static size_t mask_of(const struct table *table) { return 2 * (size_t)table->room - 1; }

/* The slot of an item with this hash, or the empty one in which it is to be. */
static uint64_t *slot_of(const struct table *table, const uint64_t *item, uint64_t hash) {
    size_t mask = mask_of(table), at = hash >> 32 & mask;
    while (table->slots[at] && ((table->slots[at] ^ hash) >> 32 || !is_item(table, (uint32_t)table->slots[at] - 1, item))) at = (at + 1) & mask;
    return &table->slots[at];
}

/* The slots come in the order of the hashes, twice, so that memory is read and written one place after the other. */
static void make_room(struct table *table) {
    if (table->room >= MOST_ITEMS) refuse("it takes more memory than there is");
    uint64_t *old = table->slots;
    size_t count = old ? mask_of(table) + 1 : 0;
    table->room = table->room ? 4 * table->room : LEAST_ROOM;
    table->items = grown(table->items, table->room * table->words * WORD);
    table->slots = zeroed(2 * (size_t)table->room, sizeof *table->slots);
    for (size_t i = 0; i < count; i++) { /* no two are equal, so that none is compared */
        if (!old[i]) continue;
        size_t mask = mask_of(table), at = old[i] >> 32 & mask;
        while (table->slots[at]) at = (at + 1) & mask;
        table->slots[at] = old[i];
    }
    free(old);
}

static uint32_t number_by_hash(struct table *table, const uint64_t *item, uint64_t hash) {
    if (table->count == table->room) make_room(table);
    uint64_t *slot = slot_of(table, item, hash);
    if (!*slot) {
        memcpy(table->items + table->count * table->words, item, table->words * WORD);
        *slot = hash >> 32 << 32 | ++table->count;
    }
    return (uint32_t)*slot - 1;
}

uint32_t number_of(struct table *table, const void *item) { return number_by_hash(table, item, hash(table, item)); }

void wait_for(const struct table *table, struct waiting *waiting, size_t place, const void *item) {
    enum { NEAR = MOST_WAITING / 2 };
    size_t at = place % MOST_WAITING;
    memcpy(waiting->items[at], item, sizeof *waiting->items);
    waiting->hashes[at] = hash(table, waiting->items[at]);
    if (!table->room) return;
    __builtin_prefetch(&table->slots[waiting->hashes[at] >> 32 & mask_of(table)]);
    if (place < NEAR) return;
    uint64_t near = table->slots[waiting->hashes[(place - NEAR) % MOST_WAITING] >> 32 & mask_of(table)];
    if (near) __builtin_prefetch(item_of(table, (uint32_t)near - 1));
}

uint32_t waited(struct table *table, const struct waiting *waiting, size_t place) {
    return number_by_hash(table, waiting->items[place % MOST_WAITING], waiting->hashes[place % MOST_WAITING]);
}
