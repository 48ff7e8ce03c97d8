/* How long a packet can have lain unread. It came behind the last moment at which its interface is known to have been empty. It also came
   behind the moment at which the packet QUEUE places before it was taken, since the system keeps no more packets for this program. */
#pragma once
#include <stdbool.h>
#include <stdint.h>

#include "basics.h"
#include "waits.h"

enum { QUEUE = 10000 }; /* packets that the system keeps, as rooms.py asks for */

/* Begins to measure at `ways` ways (a way is one direction of a link). */
struct unread *begin_unread(int ways, struct clock *clock);

/* Notes that a packet, as the system kept it, was taken from a way's interface at a moment. */
void note_taken(struct unread *unread, int way, uint64_t moment);

/* Returns the ns for which the packet that was taken last can have lain. */
uint64_t has_lain(const struct unread *unread, int way);

/* Notes that a way's interface was empty at a moment: when it was found empty, or earlier, but behind the last packet taken from it. */
void note_empty(struct unread *unread, int way, uint64_t moment);

/* Notes that packets are being taken from a way's interface, and that some may remain there. */
void note_unemptied(struct unread *unread, int way);

/* Notes the end of a wait at a moment. The interfaces of its ready ways then had packets, and all others were empty. If the program slept,
   these packets came when it was put into the queue for a processor, not before. If it was paused meanwhile, they can have come at any
   moment of the sleep. */
void note_wait(struct unread *unread, uint64_t moment, const struct wait *wait);
