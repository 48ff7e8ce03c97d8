/* Pipes whose packets leave at the moments of a trace, and pipes with outages. A packet keeps the rate at which its transmission began, so
   such a pipe's rate is set before each packet, for this packet's length. The pipe is a single queue, without masks. */
#pragma once
#include <hingetulip.h>
#include <stdbool.h>
#include <stddef.h>
#include <stdint.h>

enum { SLOT = 1500 }; /* bytes that may leave at each moment of a trace; bytes that no packet uses are lost */

struct links;

/* Returns a pacing of the links' pipes up to the number `most`, which paces none of them yet. */
struct pacing *new_pacing(struct links *links, int most);

/* Gives a pipe the moments of a trace, in ascending ms. The last is the trace's period, after which the trace starts over. */
void add_slots(struct pacing *pacing, int pipe, const uint32_t *moments, size_t count);

/* Paces a pipe from now on, since it gets its outages later. */
void pace(struct pacing *pacing, int pipe);

/* Adds an outage to a pipe: a packet that would begin between these moments leaves at the second. */
void add_hold(struct pacing *pacing, int pipe, uint64_t from, uint64_t to);

/* Notes that the links have obeyed a configuration line. */
void note_configured(struct pacing *pacing, const char *line);

/* Begins all transmissions that are due up to a moment, each at its packet's rate. Call it before the links get a call of this moment. */
void catch_up(struct pacing *pacing, uint64_t moment);

/* Submits a packet to the links, behind catch_up() to its moment. */
void submit_paced(struct pacing *pacing, const struct dn_packet *packet, struct dn_fate *fate);
