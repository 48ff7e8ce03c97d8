/* The IP packets of a capture, in order of time, those of one time in the order of the capture. */
#ifndef FRAMES_H
#define FRAMES_H
#include "capture.h"
#include "table.h"

/* An IP packet: when it came, in ns since 1970, the number of its frame, the bytes of its headers, its flow and its length. */
struct frame {
    nanoseconds time;
    uint64_t number : 48, headers : 16;
    uint32_t flow, length;
};

/* What packets share by which a rule may tell their target; the addresses are numbers in the table of those. */
struct flow {
    uint32_t src, dst;
    uint16_t sport, dport;
    uint8_t proto, dscp, unused[2];
};

struct frames {
    struct frame *items;
    size_t count, room;
    uint64_t captured, long_ones; /* frames of the capture, and packets that are longer than on most links */
    struct table addresses, flows;
};

/* Reads all frames of a capture. */
void read_frames(struct capture *capture, struct frames *frames);
#endif
