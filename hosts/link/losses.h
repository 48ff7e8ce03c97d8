/* The random words (31-bit numbers) of packets: a link loses a packet whose word is below its loss rate. A seed draws the words, or they are
   chosen so that Gilbert's and Elliott's two states, or faults, decide which packets are lost. */
#pragma once
#include <stdint.h>

struct passes;

/* The words with which any loss rate above 0 loses a packet, and no loss rate below 1. */
enum { WORD_OF_A_LOSS = 0, WORD_OF_NONE = 0x7fffffff };

/* Returns the losses of `ways` ways, an array by their numbers. A way is one direction of a link. */
struct losses *new_losses(int ways);

/* Sets the seed of a way's words. */
void set_seed(struct losses *losses, int way, uint64_t seed);

/* Has two states decide a way's losses, with four chances of 2^31: to turn bad, to turn good, to lose a packet in the good state, and in
   the bad one. */
void set_gilbert(struct losses *losses, int way, const uint32_t chances[4]);

/* Has a way lose only the packets of the fault IS_LOST (passes.h). */
void set_chosen(struct losses *losses, int way);

/* Counts the next packet of a way, and returns its word. */
uint32_t next_word(struct losses *losses, struct passes *passes, int way);

/* Returns a stream's random word with a number, which begins at 1. A way's stream has the way's number. */
uint32_t word_of_stream(uint64_t seed, uint64_t stream, uint64_t number);
