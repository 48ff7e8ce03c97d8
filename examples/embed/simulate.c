/* A discrete-event loop over the library: a client repeats each question until its answer comes, over a link that loses a fifth each way.
 *
 *     cc simulate.c $(pkg-config --cflags --libs hingetulip) -o simulate
 */
#include <hingetulip.h>
#include <inttypes.h>
#include <stdio.h>
#include <string.h>

#define MS UINT64_C(1000000) /* in ns */
#define QUESTIONS 5
#define UNDER_WAY 64 /* packets at most */

enum { QUESTION = 1, ANSWER = 2 }; /* the numbers of the pipes */

static struct dn_handle links;
static uint64_t now, timer = DN_NEVER, state = 1; /* ns, ns, the last random number */
static struct { int pipe, question; } held[UNDER_WAY]; /* by the packet's number */
static int question, tries;

static bool configure(const char *line)
{
    struct dn_fault fault;
    return dn_configure(&links, (const uint8_t *)line, strlen(line), &fault) == DN_OK;
}

static uint32_t drawn(void) /* splitmix64: the same numbers in every run */
{
    uint64_t z = state += UINT64_C(0x9e3779b97f4a7c15);
    z = (z ^ z >> 30) * UINT64_C(0xbf58476d1ce4e5b9);
    z = (z ^ z >> 27) * UINT64_C(0x94d049bb133111eb);
    return (uint32_t)(z ^ z >> 31);
}

static void send(int pipe, int number)
{
    struct dn_packet packet = {.moment = now, .length = 100, .number = (uint16_t)pipe, .kind = DN_PIPE, .word = drawn()};
    struct dn_fate fate;
    if (dn_submit(&links, &packet, &fate) == DN_OK && fate.outcome == DN_QUEUED) {
        held[fate.packet % UNDER_WAY].pipe = pipe;
        held[fate.packet % UNDER_WAY].question = number;
    }
}

static void ask(void)
{
    tries++;
    send(QUESTION, question);
    timer = now + 100 * MS;
}

static void came(int pipe, int number)
{
    if (pipe == QUESTION) {
        send(ANSWER, number);
    } else if (number == question) {
        printf("question %d: %d tries, answered at %" PRIu64 " us\n", number, tries, now / 1000);
        question++, tries = 0, timer = DN_NEVER;
        if (question < QUESTIONS)
            ask();
    }
}

/* The loop: the clock goes to the timer or to the links' next moment, whichever is sooner, until neither is left. */
static void run(void)
{
    struct dn_delivery list[UNDER_WAY];
    uint64_t wake, count;
    while (dn_wake(&links, &wake) == DN_OK && (wake != DN_NEVER || timer != DN_NEVER)) {
        now = wake < timer ? wake : timer;
        if (dn_collect(&links, now, list, UNDER_WAY, &count) != DN_OK)
            return;
        for (uint64_t i = 0; i < count; i++)
            came(held[list[i].packet % UNDER_WAY].pipe, held[list[i].packet % UNDER_WAY].question);
        if (timer <= now)
            ask();
    }
}

int main(void)
{
    if (dn_open(&links, DN_ORDERED) != DN_OK || !configure("pipe 1 config bw 1Mbit/s delay 20 plr 0.2") ||
        !configure("pipe 2 config bw 1Mbit/s delay 20 plr 0.2"))
        return 1;
    ask();
    run();
    dn_close(&links);
    return 0;
}
