/* The emulated links: a shaper of libhingetulip, whose calls the transcript keeps with their replies. */
#pragma once
#include <hingetulip.h>
#include <stdbool.h>

#include "transcript.h"

struct links *open_links(struct transcript *transcript);

/* Tries a configuration line on a second shaper, which has all lines that were tried before. Returns what is wrong with the line, or NULL. */
const char *wrong_with(struct links *links, const char *line);

/* Returns the library's spelling of a configuration line, which the next call overwrites; another line as it is. */
const char *canonical_line(struct links *links, const char *line);

/* Obeys a configuration line at the moment of the last call, and returns NULL, or why the line is refused. */
const char *obey(struct links *links, const char *line);

void advance(struct links *links, uint64_t moment);
void submit(struct links *links, const struct dn_packet *packet, struct dn_fate *fate);

/* Collects the packets that are due at a moment, and returns their number. The next call overwrites the list. */
uint64_t collect(struct links *links, uint64_t moment, const struct dn_delivery **list);

/* Collects at the end all packets that are in the links, and returns their number. The transcript doesn't keep this call. */
uint64_t collect_rest(struct links *links, const struct dn_delivery **list);

/* Returns the first moment at which a packet is due or its transmission begins, or DN_NEVER. */
uint64_t wake(struct links *links);

/* Whether a packet waits for a pipe. */
bool has_waiting(struct links *links, int pipe);

/* Begins another part of the transcript with new links, which get the configuration lines that hold. Call this if no packet is in the
   links, so that wake() returns DN_NEVER. */
void begin_next_part(struct links *links);
