/* The transcript: a file with the calls that the links get and their replies, for `dummynet audit`. Without an open transcript these
   functions do nothing. */
#pragma once
#include <hingetulip.h>
#include <stdbool.h>

#include "page.h"

/* Returns a transcript that isn't open yet, whose parts the page counts. */
struct transcript *new_transcript(struct page *page);

/* Opens a transcript's file. A part (a file of its own) becomes not much longer than `most` bytes, if the links are idle at times. */
void open_transcript(struct transcript *transcript, const char *path, uint64_t most);

/* Gives the process that writes the transcript a priority of the scheduler's first-in-first-out class, before other processes. */
void prefer_writer(struct transcript *transcript, int priority);

/* Hands kept records to the process that writes them, if there are many. Call this between turns, since this program may have to wait. */
void hand_on_transcript(struct transcript *transcript);

/* Whether the present part has a packet and is longer than a part should be. */
bool transcript_is_long(const struct transcript *transcript);

/* Ends the present part and begins another one, in a file with a number behind the name. */
void next_part(struct transcript *transcript);

/* Ends the transcript. Returns false if it couldn't be written, which a message has said. */
bool close_transcript(struct transcript *transcript);

/* Keep a call of the library with its reply. The status is dn_configure's, except DN_LINE. */
void keep_submit(struct transcript *transcript, const struct dn_packet *packet, const struct dn_fate *fate);
void keep_collect(struct transcript *transcript, uint64_t moment, const struct dn_delivery *list, uint64_t count);
void keep_advance(struct transcript *transcript, uint64_t moment, uint64_t at);
void keep_configure(struct transcript *transcript, const char *line, uint32_t status);

/* Keeps a remark: lines that begin with `#,`, or a part of one. */
__attribute__((format(printf, 2, 3))) void remark(struct transcript *transcript, const char *format, ...);

/* Keeps a remark on the packet of the next submit: the number of its content, by which audits recognize the packet on its next link. */
void remark_content(struct transcript *transcript, uint64_t content);
