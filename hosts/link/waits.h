/* The wait for packets, for the signal that ends the program, and for a moment. */
#pragma once
#include <stdbool.h>
#include <stdint.h>

#include "basics.h"

/* How a wait ended, and what came. */
struct wait {
    enum { PACKETS_OR_MOMENT, SIGNAL, INTERFACE_GONE } end;
    bool slept;       /* whether nothing had come at first, so that the program slept; if time stands (basics.h), whether it may have slept */
    bool punctual;    /* whether the moment alone has come, to which the clock has been set without a reading */
    bool paused;      /* whether this program was stopped during its sleep, as by SIGSTOP, a freezer or a debugger */
    uint64_t nothing; /* the last moment before the sleep, at which nothing had come */
    uint64_t timer;   /* the moment of the first timer behind `nothing`, which would have ended the sleep */
    const int *ready; /* the ways (a way is one direction of a link) that have packets; the next wait overwrites the list */
    int count;        /* the number of ways in `ready` */
    bool control;     /* whether messages have come from the control descriptor, or its end */
};

/* Prepares waits for `ways` ways: `polled` has a descriptor for each, or -1. The descriptor `signal` can be read once the signal has come,
   and `control` (-1 for none) has the messages to this program. If it `spins`, it polls for a short time before a moment instead of
   sleeping. */
struct waits *new_waits(struct clock *clock, const int *polled, int ways, int signal, int control, bool spins);

/* Waits until a moment, until packets or messages have come, or until the signal. Returns at once if the moment isn't behind the last
   reading of the clock. */
struct wait wait_until(struct waits *waits, uint64_t moment);
