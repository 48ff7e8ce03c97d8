/* Functions for all parts of hinge-link: the end by a fault, numbers in texts, memory, and the clock. */
#pragma once
#include <stdbool.h>
#include <stddef.h>
#include <stdint.h>
#include <time.h>

#define SECOND UINT64_C(1000000000) /* ns */
#define MEGABYTE (UINT64_C(1) << 20)

/* The program's statuses after a wrong line and after another fault, which `hinge run` passes on. */
enum { BAD_LINE = 3, REFUSED = 6 };

/* Ends the program with a message and the status REFUSED. */
_Noreturn void fail(const char *what, const char *why);

/* Take a number from the front of a text, with the space behind it. False if the text doesn't begin with a number in the range. */
bool take_int(const char **text, int least, int most, int *number);
bool take_number(const char **text, uint64_t *number);

/* Returns the number that a word of the command line is. Ends the program if the word is no number. */
int number_of(const char *word);

/* Returns memory of this size with the contents of `old`, which may be NULL. Ends the program if there is no memory. */
void *reallocate(void *old, size_t bytes);

/* Returns memory of this size with zeros, which occupies no memory of the system before its use. */
void *allocate_zeros(size_t bytes);

/* The clock of moments, which are ns since the epoch. */
struct clock {
    uint64_t epoch; /* a time of the system's monotonic clock, or 0 until the first reading */
    uint64_t last;  /* the moment of the last reading */
    bool stands;    /* whether time stands while this program doesn't wait, as in simulated time */
};

/* Reads the clock, perhaps by an expensive call of the system, and returns the moment, or 0 before the epoch. */
uint64_t now(struct clock *clock);

/* Returns the moment within a turn: the moment of the last reading if time stands, otherwise of a new one. */
uint64_t present(struct clock *clock);

/* Returns the system's time of a moment. */
struct timespec time_of(const struct clock *clock, uint64_t moment);
