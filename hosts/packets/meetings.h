/* Pairs of hosts whose packets wait for each other, since both of their directions go to one pipe or queue. */
#ifndef MEETINGS_H
#define MEETINGS_H
#include "frames.h"

/* A target, and two hosts that meet there, as numbers of addresses: the one that sends first, and the other. */
struct meeting {
    uint32_t target, first, second;
};

/* Finds the meetings of flows with these targets, by the other host's first flow. Each flow has room for one. */
size_t find_meetings(const struct frames *frames, const uint32_t *targets, struct meeting *meetings);
#endif
