/* Changes at moments: lines of cuts.h and of the links, and acts on hosts of a net. The files of a host's cgroup stay open, so that an act
   is a write of some bytes at its moment, in one order with the changes of the links:

     act stop HOST N       freezes all processes of the host; N is the number of this stop
     act cont HOST N       ends the stop N, or all stops if N is 0; the processes continue unless another stop lasts
     act kill HOST N       kills all processes of the host

   Behind the write, the transcript gets the remarks `#,late-act,NS` and `#,act,WORD HOST`. */
#pragma once
#include <stdbool.h>
#include <stdint.h>

struct host;

struct acts *new_acts(void);

/* Adds a host of the net, `NAME FREEZE KILL EVENTS`: the descriptors are of cgroup.freeze, cgroup.kill and cgroup.events. Returns false if
   a word is wrong. */
bool add_host(struct acts *acts, const char *rest);

/* Returns what is wrong with a line that make_change() can follow, or NULL. Nothing changes. */
const char *wrong_with_change(struct host *host, const char *line);

/* Follows a line that is due at a moment, and returns NULL, or why the line is refused. */
const char *make_change(struct host *host, const char *line, uint64_t due);

/* An act that was done. */
struct done {
    uint64_t moment;  /* the moment behind the write */
    bool met_nothing; /* whether a stop or a kill met no process */
};

/* Returns a host's first act that this function hasn't returned yet, otherwise the last act, or NULL if there was no act. */
const struct done *next_done(struct acts *acts, const char *name);
