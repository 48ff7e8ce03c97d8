#define _GNU_SOURCE
#include "basics.h"

#include <ctype.h>
#include <errno.h>
#include <limits.h>
#include <stdio.h>
#include <stdlib.h>
#include <time.h>

_Noreturn void fail(const char *what, const char *why) {
    fprintf(stderr, "hinge: %s: %s\n", what, why);
    exit(REFUSED);
}

bool take_number(const char **text, uint64_t *number) {
    char *end;
    errno = 0;
    *number = strtoull(*text, &end, 10);
    if (errno || !isdigit((unsigned char)**text) || (*end && *end != ' ')) return false;
    *text = *end == ' ' ? end + 1 : end;
    return true;
}

bool take_int(const char **text, int least, int most, int *number) {
    bool is_negative = **text == '-';
    const char *digits = is_negative ? *text + 1 : *text;
    uint64_t size;
    *number = 0;
    if (!take_number(&digits, &size) || size > INT_MAX) return false;
    *number = is_negative ? -(int)size : (int)size;
    *text = digits;
    return *number >= least && *number <= most;
}

int number_of(const char *word) {
    int number;
    const char *rest = word;
    if (!take_int(&rest, INT_MIN, INT_MAX, &number) || *rest) fail(word, "no number");
    return number;
}

void *reallocate(void *old, size_t bytes) {
    void *memory = realloc(old, bytes);
    if (!memory) fail("the link", "out of memory");
    return memory;
}

void *allocate_zeros(size_t bytes) {
    void *memory = calloc(1, bytes);
    if (!memory) fail("the link", "out of memory");
    return memory;
}

uint64_t now(struct clock *clock) {
    struct timespec time;
    clock_gettime(CLOCK_MONOTONIC, &time);
    uint64_t ns = (uint64_t)time.tv_sec * SECOND + (uint64_t)time.tv_nsec;
    if (!clock->epoch) clock->epoch = ns;
    clock->last = ns > clock->epoch ? ns - clock->epoch : 0;
    return clock->last;
}

uint64_t present(struct clock *clock) { return clock->stands ? clock->last : now(clock); }

struct timespec time_of(const struct clock *clock, uint64_t moment) {
    uint64_t ns = clock->epoch + moment;
    return (struct timespec){(time_t)(ns / SECOND), (long)(ns % SECOND)};
}
