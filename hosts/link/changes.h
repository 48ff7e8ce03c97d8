/* Changes of the links while packets pass: lines at moments, and the beginnings of outages. */
#pragma once
#include <stdint.h>

struct host;

struct changes *new_changes(void);

/* Adds a line that is followed at a moment, behind the changes of this moment that were added before. */
void insert_line(struct changes *changes, uint64_t moment, const char *line);

/* Adds the beginning of an outage of a way's pipe, whose rate a line has lowered before. `length` is the length of the longest packet. */
void insert_outage(struct changes *changes, uint64_t moment, int pipe, uint16_t length);

/* Returns the moment of the next change, or DN_NEVER. */
uint64_t next_change(const struct changes *changes);

/* Makes the changes that are due at a moment. Call this before each call of the links with a moment: time passes while packets are received
   and sent, and behind a later moment a change would come too late. */
void make_changes(struct host *host, uint64_t moment);
