/* A net's hosts, and what happens to them. */
#pragma once
#include "rooms.h"

struct host {
    char *name, *command, *clock, *log; /* clock: its number for the kernel */
    size_t network;
    const char *by;            /* how it ended */
    bool has_begun, has_ended; /* has_ended: by itself, before the last kill */
    struct child child;
};

struct wait {
    size_t host;
    unsigned port;
    uint64_t patience; /* ns */
    bool is_optional, is_silent;
    int status; /* of the host's command, or -1 */
};

struct act {
    bool of_main;
    uint64_t ns;               /* from the links' beginning, or from the main command's */
    const char *word, *ending; /* the word that ends it, or nothing */
    size_t host;
    uint64_t fault; /* the number of a fault, which its end has too */
    const char *more;
    bool is_pending, lasts;
    uint64_t due;
};

struct done {
    size_t act;
    uint64_t moment;  /* of the links */
    bool met_nothing; /* a fault, when nothing ran there */
};

struct net {
    struct run run;
    struct host *hosts;
    struct wait *waits;
    struct act *acts;
    struct done *done;
    size_t host_count, wait_count, act_count, done_count;
    bool has_main;
    char *folder;
    uint64_t patience;
    long long main_moment;
};

/* net.c: starts a host's command. */
void begin(struct net *net, struct host *host);

/* acts.c */
void begin_acts(struct net *net, bool of_main, uint64_t moment);               /* the moment from which those of a base count is now */
uint64_t left(const struct net *net);                                          /* ns up to the next act */
void tick(struct net *net);                                                    /* does those that are due */
bool goes_on(const struct net *net, const struct host *host, const char *end); /* a fault that this word ends */
bool is_awaited(const struct net *net, const struct host *host);               /* whether its command will begin again */
void cont_all(struct net *net);                                                /* lets what is stopped go on, at the end */
