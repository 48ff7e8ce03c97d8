/* Effects that a link of dummynet lacks, made of calls that it has. A duplicate is a second submit of a packet, and jitter is a second pass
   through one of several pipes that have a delay and nothing else. The audit judges these calls as all others. A fault chooses a packet by
   its number, counted from 1, among the packets of a way (one direction of a link): it is lost, or comes twice, or is late, by the delay of
   its second pass. A packet that leaves its last pipe may have a flipped bit, which no call reports, but a remark. */
#pragma once
#include <stdbool.h>
#include <stddef.h>
#include <stdint.h>

enum fault { IS_LOST, IS_TWICE, IS_LATE, FAULTS };

/* Returns the passes of `ways` ways, an array by their numbers, without any effect. */
struct passes *new_passes(int ways);

/* Gives a way `count` pipes of a second pass, from the number `first` on. The seed draws a pipe for each packet. */
void set_jitter(struct passes *passes, int way, int first, int count, uint64_t seed);

/* Sets the chance, of 2^31, that a packet of a way enters it twice. */
void set_copies(struct passes *passes, int way, uint32_t chance, uint64_t seed);

/* Sets the chance, of 2^31, that a packet leaves a way with a flipped bit. */
void set_corruption(struct passes *passes, int way, uint32_t chance, uint64_t seed);

/* Adds a fault of a packet, whose number is above the numbers before. The value is above 0: for IS_LATE the pipe of the second pass. */
void add_fault(struct passes *passes, int way, enum fault fault, uint64_t packet, int value);

/* Counts a packet that comes on a way. */
void count_packet(struct passes *passes, int way);

/* Returns the value of a fault of the packet that came last on a way, or 0 without such a fault. */
int fault_of(struct passes *passes, int way, enum fault fault);

/* Draws the pipe of the second pass of a way's next packet; 0 if the way has no such pipes. */
int draw_second_pipe(struct passes *passes, int way);

/* Draws whether a way's next packet enters it twice. */
bool draws_copy(struct passes *passes, int way);

/* Draws whether the next packet that leaves a way has a flipped bit. */
bool draws_corruption(struct passes *passes, int way);

/* Returns which of `bits` bits is flipped in the packet that left a way last. */
size_t flipped_bit(const struct passes *passes, int way, size_t bits);
