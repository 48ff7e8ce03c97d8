/* The rows of a packet file from the IP packets of a capture. */
#ifndef ROWS_H
#define ROWS_H
#include "frames.h"

/* What the command line says: descriptors of the packet file and of the index of frames, below 0 for none; the most bytes of a packet
   that a card cuts of a segment, 0 where none is cut, and the card's rate in bit/s, 0 where it sends them at once; the bytes that the
   link adds; and the seed of the random words. */
struct plan {
    int out, index;
    uint32_t mtu, link_bytes;
    uint64_t rate, seed;
};

/* The targets of flows, or of the frames where one flow may have several: the number of a pipe, one of a queue with QUEUES added, or 0
   for none. */
enum { QUEUES = 1 << 16, DIRECTIONS = 2 * QUEUES };
struct targets {
    const uint32_t *items;
    bool of_frames;
};

/* What became of the packets. */
struct counts {
    uint64_t rows, bytes, split, cut, unmapped, stand_ins, meetings;
};

/* Writes the rows, and the addresses of IPv6 for which others stand, in their order, as numbers in the table of addresses. */
struct counts write_rows(const struct frames *frames, const struct plan *plan, struct targets targets, uint32_t *replaced);

/* Writes so many bytes to a descriptor. */
void write_all(int descriptor, const void *bytes, size_t size);
#endif
