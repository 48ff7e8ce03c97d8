/* How long a dependent read at a random place takes, by the size of the memory that it goes through: what the second and the third
   level of cache and the memory answer in, at this moment. On a virtual machine other users change it from one minute to the next,
   and with it the cost of a packet at many links, so take it beside each series.

   cc -O2 bench/reads.c -o reads && taskset -c 0 ./reads */
#include <stdio.h>
#include <stdlib.h>
#include <time.h>

enum { LINE = 64, READS = 400000, ROUNDS = 8, MOST = 16 << 20 };

static double now(void) {
    struct timespec time;
    clock_gettime(CLOCK_MONOTONIC, &time);
    return time.tv_sec * 1e9 + time.tv_nsec;
}

/* Makes the lines one ring in random order, each with the place of the next. */
static void link_up(char *memory, size_t lines) {
    size_t *order = malloc(lines * sizeof *order);
    if (order == NULL)
        abort();
    for (size_t i = 0; i < lines; i++)
        order[i] = i;
    for (size_t i = lines - 1; i > 0; i--) {
        size_t other = (size_t)rand() % (i + 1), kept = order[i];
        order[i] = order[other];
        order[other] = kept;
    }
    for (size_t i = 0; i < lines; i++)
        *(size_t *)(memory + LINE * order[i]) = LINE * order[(i + 1) % lines];
    free(order);
}

/* The least time of a read in some rounds, in nanoseconds. */
static double read_time(const char *memory) {
    double least = 1e9;
    size_t place = 0;
    for (int round = 0; round < ROUNDS; round++) {
        double start = now();
        for (int i = 0; i < READS; i++)
            place = *(const volatile size_t *)(memory + place);
        double each = (now() - start) / READS;
        least = each < least ? each : least;
    }
    return least;
}

int main(void) {
    char *memory = malloc(MOST);
    if (memory == NULL)
        abort();
    for (size_t size = 512 << 10; size <= MOST; size *= 2) {
        link_up(memory, size / LINE);
        printf("%5zu KiB: %.1f ns a read\n", size >> 10, read_time(memory));
    }
    free(memory);
}
