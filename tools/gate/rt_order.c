/* The order of plain calls in real time, for order.py: threads submit packets with words of their own, with a clock before and after
   each call, and yield within each few calls, so that they interleave. Prints a line for each call in the history's order:
   CALLER BEGUN ENDED, in nanoseconds.

       rt_order THREADS CALLS */
#define _GNU_SOURCE
#include <hingetulip_service.h>
#include <pthread.h>
#include <sched.h>
#include <stdint.h>
#include <stdio.h>
#include <stdlib.h>
#include <string.h>
#include <time.h>

enum { MOST_THREADS = 15, MOST_CALLS = 20000, ROOM = 1 << 16 };

struct moments {
    uint64_t begun, ended;
};

static struct dn_caller callers[MOST_THREADS];
static struct moments moments[MOST_THREADS][MOST_CALLS];
static unsigned threads, calls;
static pthread_barrier_t all_ready;

static uint64_t now(void)
{
    struct timespec time;
    clock_gettime(CLOCK_MONOTONIC, &time);
    return (uint64_t)time.tv_sec * 1000000000U + (uint64_t)time.tv_nsec;
}

static void *submits(void *number)
{
    unsigned caller = (unsigned)(uintptr_t)number;
    unsigned state = caller * 2654435761U + 1;
    pthread_barrier_wait(&all_ready);
    for (unsigned call = 0; call < calls; call++) {
        struct dn_packet packet = {.length = 100, .number = 1, .kind = DN_PIPE, .src = caller, .word = call};
        struct dn_fate fate;
        state = state * 1103515245U + 12345U;
        if ((state >> 16) % 4 == 0)
            sched_yield();
        moments[caller][call].begun = now();
        if (dn_caller_submit_wait(&callers[caller], &packet, &fate) != DN_OK)
            return "a call was refused";
        moments[caller][call].ended = now();
    }
    return NULL;
}

int main(int count, char **words)
{
    static struct dn_service service;
    static uint8_t text[ROOM];
    static const char line[] = "pipe 1 config queue 10000";
    struct dn_fault fault;
    pthread_t running[MOST_THREADS];
    unsigned next[MOST_THREADS] = {0};
    uint64_t length, told, of;
    if (count != 3)
        return 2;
    threads = (unsigned)atoi(words[1]);
    calls = (unsigned)atoi(words[2]);
    if (threads < 1 || threads > MOST_THREADS || calls < 1 || calls > MOST_CALLS)
        return 2;
    if (dn_service_open(&service, callers, threads) != DN_OK)
        return 3;
    if (dn_caller_configure_wait(&callers[0], (const uint8_t *)line, sizeof line - 1, &fault) != DN_OK)
        return 3;
    pthread_barrier_init(&all_ready, NULL, threads);
    for (unsigned thread = 0; thread < threads; thread++)
        if (pthread_create(&running[thread], NULL, submits, (void *)(uintptr_t)thread))
            return 3;
    for (unsigned thread = 0; thread < threads; thread++) {
        void *bad;
        pthread_join(running[thread], &bad);
        if (bad)
            return 3;
    }
    if (dn_service_take_wait(&service, &told, &of) != DN_OK)
        return 3;
    while (dn_service_text(&service, text, sizeof text, &length) == DN_OK) {
        unsigned caller;
        if (sscanf((const char *)text, "c,%u,submit", &caller) != 1 || !memmem(text, length < 40 ? length : 40, "submit", 6))
            continue;
        if (caller >= threads || next[caller] >= calls)
            return 4;
        printf("%u %llu %llu\n", caller, (unsigned long long)moments[caller][next[caller]].begun,
               (unsigned long long)moments[caller][next[caller]].ended);
        next[caller]++;
    }
    return 0;
}
