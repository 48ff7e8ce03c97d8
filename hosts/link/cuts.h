/* Cuts: as long as any cut of its pipe lasts, a way (one direction of a link) loses its packets. A number identifies each cut, from its
   beginning to its end. The links obey a cut pipe's configuration line with the loss of all packets, and the line as it is once the last
   cut has ended. Until then the way's packets all go to this pipe, even if a rule sends them to a queue or another pipe, which have losses
   of their own. A cut may concern a single port: this port's packets get the random word that any loss rate loses, and a pipe without a
   loss rate gets the least loss rate. */
#pragma once
#include <stdbool.h>

#include "links.h"
#include "pacing.h"
#include "transcript.h"

/* Returns the cuts of the pipes up to the number `most`, which have none yet. */
struct cuts *new_cuts(struct links *links, struct pacing *pacing, struct transcript *transcript, int most);

/* Whether the cuts of a way's pipe concern a packet: none, one of its port, or one of all packets. The pipe's number is the way's plus 1. */
enum extent { CUTS_NOTHING, CUTS_PORT, CUTS_ALL };
enum extent extent_of_cut(const struct cuts *cuts, int way, const struct dn_packet *packet);

/* Returns what is wrong with a line that follow() can follow, or NULL. Nothing changes. */
const char *wrong_with_line(struct cuts *cuts, const char *line);

/* Follows a line at the moment of the links' last call, and returns NULL, or why the line is refused. A line is for the links unless it is
   one of these:

     cut PIPE N [PROTO PORT]    the cut N begins, of all packets or of the packets to and from a port
     open PIPE N [PROTO PORT]   the cut N ends; if it doesn't last, nothing happens
     heal PIPE [PROTO PORT]     all cuts of the pipe end, or those of a port
     remark WORDS               the transcript gets a remark */
const char *follow(struct cuts *cuts, const char *line);

/* Returns the configuration line that the links have obeyed for the last line. If they already had the pipe's line, returns this one.
   Returns NULL for a remark, for a heal without a cut to end, and for a pipe that isn't configured. */
const char *followed_line(const struct cuts *cuts);

/* Returns the configuration line that a pipe has after its last cut, for a line `open PIPE N`; NULL for other lines. */
const char *line_behind_cut(struct cuts *cuts, const char *line);
