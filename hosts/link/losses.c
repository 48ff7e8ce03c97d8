#include "losses.h"

#include <string.h>

#include "basics.h"
#include "passes.h"

enum { TO_BAD, TO_GOOD, LOST_IN_GOOD, LOST_IN_BAD };

struct losses {
    enum { WORDS, GILBERT, CHOSEN } kind;
    uint64_t seed;       /* the seed of the random words */
    uint64_t drawn;      /* the number of words that were drawn */
    uint32_t chances[4]; /* of 2^31, for GILBERT */
    bool bad;            /* whether the link is in the bad state, for GILBERT */
};

/* Mixes the seed, the stream and the word's number by splitmix64, as hinge/captures/random_words.py does. */
uint32_t word_of_stream(uint64_t seed, uint64_t stream, uint64_t number) {
    uint64_t z = seed * 0x9e3779b97f4a7c15 + number * 0xd1b54a32d192ed03 + stream * 0x8cb92ba72f3d8dd7;
    z = (z ^ z >> 30) * 0xbf58476d1ce4e5b9;
    z = (z ^ z >> 27) * 0x94d049bb133111eb;
    return (uint32_t)((z ^ z >> 31) & WORD_OF_NONE);
}

struct losses *new_losses(int ways) {
    return allocate_zeros((size_t)ways * sizeof(struct losses));
}

static uint32_t draw(struct losses *model, int way) { return word_of_stream(model->seed, (uint64_t)way, ++model->drawn); }

void set_seed(struct losses *losses, int way, uint64_t seed) { losses[way].seed = seed; }

void set_gilbert(struct losses *losses, int way, const uint32_t chances[4]) {
    losses[way].kind = GILBERT;
    memcpy(losses[way].chances, chances, sizeof losses[way].chances);
}

void set_chosen(struct losses *losses, int way) { losses[way].kind = CHOSEN; }

/* Draws whether the link's state loses a packet, and then whether the state changes. */
static bool draws_loss(struct losses *model, int way) {
    bool is_lost = draw(model, way) < model->chances[model->bad ? LOST_IN_BAD : LOST_IN_GOOD];
    bool changes = draw(model, way) < model->chances[model->bad ? TO_GOOD : TO_BAD];
    if (changes) model->bad = !model->bad;
    return is_lost;
}

uint32_t next_word(struct losses *losses, struct passes *passes, int way) {
    struct losses *model = &losses[way];
    bool is_lost;
    count_packet(passes, way);
    if (model->kind == WORDS) return draw(model, way);
    if (model->kind == CHOSEN) is_lost = fault_of(passes, way, IS_LOST) != 0;
    else is_lost = draws_loss(model, way);
    return is_lost ? WORD_OF_A_LOSS : WORD_OF_NONE;
}
