#include "passes.h"

#include "basics.h"
#include "losses.h"

/* The streams of random words. The streams of losses have the numbers of ways, which are smaller. */
enum { OF_JITTER = 1 << 20, OF_COPIES = 2 << 20, OF_CORRUPTION = 3 << 20, OF_BITS = 4 << 20 };

/* A fault of one packet. */
struct packet_fault {
    uint64_t packet; /* its number among the packets of its way */
    int value;       /* what fault_of() returns */
};

/* The faults of a kind, in the order of their packets. */
struct faults {
    struct packet_fault *list;
    uint64_t length; /* the number of faults */
    uint64_t passed; /* the number of faults at the front whose packets have come */
};

/* The effects on a way. */
struct passes {
    int first_pipe;             /* the first pipe of a second pass */
    int pipe_count;             /* the number of these pipes, or 0 without jitter */
    uint32_t copy_chance;       /* of 2^31 */
    uint32_t corruption_chance; /* of 2^31 */
    uint64_t seed;              /* of the random words */
    uint64_t jitters;           /* the number of words drawn for second passes */
    uint64_t copies;            /* the number of words drawn for copies */
    uint64_t corruptions;       /* the number of words drawn for flipped bits */
    uint64_t came;              /* the number of packets that have come */
    struct faults faults[FAULTS];
};

struct passes *new_passes(int ways) {
    return allocate_zeros((size_t)ways * sizeof(struct passes));
}

void set_jitter(struct passes *passes, int way, int first, int count, uint64_t seed) {
    passes[way].first_pipe = first;
    passes[way].pipe_count = count;
    passes[way].seed = seed;
}

void set_copies(struct passes *passes, int way, uint32_t chance, uint64_t seed) {
    passes[way].copy_chance = chance;
    passes[way].seed = seed;
}

void set_corruption(struct passes *passes, int way, uint32_t chance, uint64_t seed) {
    passes[way].corruption_chance = chance;
    passes[way].seed = seed;
}

void add_fault(struct passes *passes, int way, enum fault fault, uint64_t packet, int value) {
    struct faults *faults = &passes[way].faults[fault];
    bool is_full = (faults->length & (faults->length - 1)) == 0; /* the room is the next power of two */
    if (is_full) faults->list = reallocate(faults->list, (faults->length ? 2 * faults->length : 1) * sizeof *faults->list);
    faults->list[faults->length++] = (struct packet_fault){packet, value};
}

void count_packet(struct passes *passes, int way) { passes[way].came++; }

int fault_of(struct passes *passes, int way, enum fault fault) {
    struct faults *faults = &passes[way].faults[fault];
    uint64_t came = passes[way].came;
    while (faults->passed < faults->length && faults->list[faults->passed].packet < came) faults->passed++;
    if (faults->passed == faults->length) return 0;
    const struct packet_fault *next = &faults->list[faults->passed];
    return next->packet == came ? next->value : 0;
}

int draw_second_pipe(struct passes *passes, int way) {
    struct passes *effects = &passes[way];
    if (!effects->pipe_count) return 0;
    uint32_t word = word_of_stream(effects->seed, OF_JITTER + (uint64_t)way, ++effects->jitters);
    return effects->first_pipe + (int)(word % (uint32_t)effects->pipe_count);
}

bool draws_copy(struct passes *passes, int way) {
    struct passes *effects = &passes[way];
    if (!effects->copy_chance) return false;
    return word_of_stream(effects->seed, OF_COPIES + (uint64_t)way, ++effects->copies) < effects->copy_chance;
}

bool draws_corruption(struct passes *passes, int way) {
    struct passes *effects = &passes[way];
    if (!effects->corruption_chance) return false;
    return word_of_stream(effects->seed, OF_CORRUPTION + (uint64_t)way, ++effects->corruptions) < effects->corruption_chance;
}

size_t flipped_bit(const struct passes *passes, int way, size_t bits) {
    return word_of_stream(passes[way].seed, OF_BITS + (uint64_t)way, passes[way].corruptions) % bits;
}
