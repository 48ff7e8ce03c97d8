/* Lateness: by how much packets left a way (one direction of a link) late, and how long they lay unread. The page counts packets and time,
   and the transcript gets a remark with the greatest lateness of each second in which packets passed, so that a stall of this program shows
   in it. */
#pragma once
#include <stdbool.h>
#include <stdint.h>

enum lateness { LATE, UNREAD, LATENESSES };

struct host;

/* Returns the state of the remarks for `ways` ways. */
struct late_remarks *new_late_remarks(int ways);

/* Notes that a way's packet was late, or can have lain unread, for `ns` until a moment. */
void note_lateness(struct host *host, int way, enum lateness kind, uint64_t ns, uint64_t until);

/* Writes the remark if a second has passed since the first packet that it is about, or at the end. */
void remark_lateness(struct host *host, uint64_t moment, bool is_last);
