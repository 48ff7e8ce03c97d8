/* Joins: successive TCP packets that leave at the same moment go to the system as one packet, with a note like a card's. This undoes the
   cuts of segments.h. UDP packets of one length from one socket to another are joined likewise. */
#pragma once
#include "carrier.h"

enum { MOST_JOINED = 64 };

/* Whether a packet can be joined to `count` joined packets. */
bool joins(const struct bytes *packets, int count, const struct bytes *next);

/* Whether a TCP packet can be joined to these packets. Before Linux 6.2 the system accepts no joined UDP packets. */
bool joins_tcp(const struct bytes *packets, int count, const struct bytes *next);

/* Adapts the note and the headers of the first packet to all packets, and returns the bytes of the headers, without which the others are
   sent. A single packet stays as it is. */
size_t join(const struct bytes *packets, int count);
