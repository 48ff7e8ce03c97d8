/* Runs in which each growth of memory is refused in turn, for programs that are linked with tools/gate/refused_growths.c. */
#include <stdbool.h>
#include <stdio.h>
#include <string.h>

extern long growths, first_refused;

static uint64_t sum; /* of all answers */
static int refused, busy;

static void mix(const void *bytes, size_t count) {
    for (const uint8_t *at = bytes; count > 0; at++, count--) sum = (sum ^ *at) * 1099511628211u;
}

static uint32_t counted(uint32_t status) {
    refused += status == DN_MEMORY;
    busy += status == DN_BUSY;
    return status;
}

/* Makes a call, and once more where memory was refused. */
#define ASKED(call)                                        \
    do {                                                   \
        uint32_t status_ = counted(call);                  \
        if (status_ == DN_MEMORY) status_ = counted(call); \
        mix(&status_, 4);                                  \
    } while (0)

static struct dn_packet drawn(uint64_t moment, uint32_t random) {
    return (struct dn_packet){.moment = moment, .src = random >> 8 & 7, .dst = 2, .word = random, .sport = 3, .dport = random >> 16 & 3,
                              .length = 500, .number = (uint16_t)(1 + (random >> 21) % 3), .kind = random >> 20 & 1, .proto = 17};
}

static void begin_run(void) {
    sum = 14695981039346656037u;
    refused = 0;
    growths = 0;
}

/* Makes a run, and one for each of its growths, in which this one is refused: it has to be right, and to have the same answers. */
static int refuse_each(void (*run)(void), bool (*is_right)(void)) {
    run();
    long all = growths;
    uint64_t want = sum;
    int told = 0, differing = 0;
    for (first_refused = 1; first_refused <= all; first_refused++) {
        run();
        told += refused > 0;
        if (sum == want && is_right()) continue;
        differing++;
        printf("growth %ld refused: %d calls refused, %s answers\n", first_refused, refused, sum == want ? "the same" : "other");
    }
    printf("%ld growths refused in turn, %d of them answered DN_MEMORY, %d with other answers, %d calls busy\n", all, told, differing, busy);
    return all == 0 || told == 0 || differing != 0;
}
