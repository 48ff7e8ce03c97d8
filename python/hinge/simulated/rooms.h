/* What the runs in rooms share: of a link between two hosts, and of a net. */
#pragma once
#include "init.h"

enum { MS = SECOND / 1000, LISTEN_POLL = 10 * MS };
enum { STARTING, HEAD = 7, COUNTS = 16, BINS = 480, WAY = COUNTS + 4 * BINS, CAME = 0, SENT = 2, HELD = 11 }; /* as hosts/link/page.h has them */

struct child {
    pid_t process;
    bool is_over;
    int status;
    uint64_t at; /* when it was seen to end */
};

struct files {
    int *files;
    size_t count;
};

struct run {
    const struct user *user;
    struct files networks, interfaces; /* network 0 is that of the first process */
    char *ends, *link_program, *plan;
    size_t page_size;
    int page_file, control; /* control: a line to the links */
    const volatile uint64_t *page;
    struct child link, **children; /* all but the link, up to NULL */
    uint64_t begun;
    int came; /* the signal that asks for the end */
};

/* rooms.c */
void make_rooms(struct run *run, struct job *job);
void enter(const struct run *run, size_t network);
void start_link(struct run *run);
uint64_t ask_link(const struct run *run, const char *text); /* the moment of its answer */
void end_rooms(struct run *run, const char *text);

/* children.c */
pid_t started(void); /* as fork(2), with no signal blocked in the child */
void reap(struct run *run);
/* Sleeps until a child ends, a signal asks for the end, or so many ns are over. */
void nap(struct run *run, uint64_t ns);
void wait_for_child(struct run *run, const struct child *child, uint64_t ns);
bool something_listens(unsigned port); /* in the present room; at any port by 0 */
/* Ends one that goes on, with its group where it has one. */
void end(struct run *run, struct child *child, uint64_t patience);
bool is_there(struct run *run, const struct child *child); /* or one of its group */
void signal_all(pid_t process, int number);
int status_of(const struct child *child);

/* two_rooms.c, net.c: these are whole runs; the status of the process */
int run_link(struct job *job, const struct user *user);
int run_net(struct job *job, const struct user *user);
