/* The plan: text on standard input, in which `hinge run` says what to emulate. Each line has one of the forms in plan.c. */
#pragma once
#include <stddef.h>
#include <stdint.h>

struct host;

struct plan {
    uint64_t base;      /* the moment from which the moments in lines count: 0, or the main command's beginning */
    char **behind_main; /* lines that wait for the main command, without their word `main` */
    size_t count;       /* the number of these lines */
};

/* Reads the whole plan, and follows the lines without a later moment. A wrong line ends the program with status 3. */
void read_plan(struct host *host);

/* Notes that the main command begins at this moment, and reads the lines that waited for it. */
void begin_main(struct host *host, uint64_t moment);
