/* Switches of Ethernet frames. A way (one direction of a link) that ends at a switch has no interface there. A frame that leaves it enters
   the way to the port at which its destination was last heard, otherwise each other way from the switch. A switch learns addresses, ignores
   tags, and sends a group's frames to all. */
#pragma once
#include <stdbool.h>
#include <stdint.h>

/* Returns a list for the switches of `ways` ways, without a switch. */
struct switches *new_switches(int ways);

/* Adds a switch at which `count` ways end. Returns false if a way already ends at a switch, or if both ways of a link would end at this
   one. */
bool add_switch(struct switches *switches, const int *ways, int count);

/* Whether a way ends at a switch. */
bool ends_at_switch(const struct switches *switches, int way);

/* Whether a way ends or begins at a switch. */
bool carries_frames(const struct switches *switches, int way);

/* Learns the sender of a frame that has left a way at a switch. Returns the way that the frame enters, TO_ALL for each other one, or
   TO_NONE. */
enum { TO_ALL = -2, TO_NONE = -3 };
int next_way(const struct switches *switches, int way, const unsigned char *frame, uint64_t moment);

/* Returns the next of the ways that a frame to all enters: behind the way `before`, or the first if this is NO_WAY. Returns NO_WAY behind
   the last. */
enum { NO_WAY = -1 };
int other_way(const struct switches *switches, int way, int before);
