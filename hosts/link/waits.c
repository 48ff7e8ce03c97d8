#define _GNU_SOURCE
#include "waits.h"

#include <errno.h>
#include <hingetulip.h>
#include <string.h>
#include <sys/epoll.h>
#include <sys/timerfd.h>
#include <unistd.h>

/* The time between two beats, which wake an idle program: a stop of this program is then counted from the last beat, not from the last
   packet. */
enum { BEAT = 100000000 }; /* ns */

/* Since a sleep may end late, the program polls for SPIN before a moment that is FAR away. It thus polls for a tenth of the time at most,
   as the system would stop a program that runs before all others and never sleeps. */
enum { SPIN = 50000, FAR = 10 * SPIN }; /* ns */

/* One epoll(7) reports all descriptors: those of ways under the numbers of the ways, and the others under the numbers behind. A descriptor
   that it doesn't report has nothing to read. */
struct waits {
    struct clock *clock;
    bool spins;                 /* whether the program polls for SPIN before a moment */
    int ways;                   /* the number of ways */
    int polling;                /* the descriptor of the epoll */
    int timer;                  /* the descriptor of the timer that ends a sleep */
    int beats;                  /* the descriptor of the timer of the beats */
    uint64_t first_beat;        /* the moment of the first beat, or DN_NEVER */
    uint64_t timer_moment;      /* the moment to which the timer is set, or DN_NEVER */
    uint64_t awaited;           /* the moment of the last wait */
    uint64_t early;             /* ns before this moment at which the sleep ends, since the program polls from then on */
    struct epoll_event *events; /* the last reports */
    int *ready;                 /* the ways among these */
};

/* The descriptors that aren't of ways, by their numbers behind the ways. */
enum other { OF_SIGNAL, OF_TIMER, OF_CONTROL, OF_BEATS, OTHERS };

/* Has the epoll report a descriptor under a number. */
static void watch(const struct waits *waits, int descriptor, int number) {
    struct epoll_event event = {.events = EPOLLIN, .data.u32 = (uint32_t)number};
    if (epoll_ctl(waits->polling, EPOLL_CTL_ADD, descriptor, &event) < 0) fail("epoll", strerror(errno));
}

static int new_timer(void) {
    int timer = timerfd_create(CLOCK_MONOTONIC, TFD_CLOEXEC);
    if (timer < 0) fail("timerfd", strerror(errno));
    return timer;
}

/* Begins the beats, unless time stands: then nothing stops this program, and a beat would wake it for no reason. */
static void begin_beats(struct waits *waits) {
    if (waits->clock->stands) return;
    waits->beats = new_timer();
    waits->first_beat = now(waits->clock) + BEAT;
    struct itimerspec at = {.it_value = time_of(waits->clock, waits->first_beat), .it_interval.tv_nsec = BEAT};
    if (timerfd_settime(waits->beats, TFD_TIMER_ABSTIME, &at, NULL) < 0) fail("timerfd", strerror(errno));
    watch(waits, waits->beats, waits->ways + OF_BEATS);
}

/* Returns the moment of the first beat behind another moment. */
static uint64_t next_beat(const struct waits *waits, uint64_t moment) {
    uint64_t first = waits->first_beat;
    if (moment < first) return first;
    return first + ((moment - first) / BEAT + 1) * BEAT;
}

struct waits *new_waits(struct clock *clock, const int *polled, int ways, int signal, int control, bool spins) {
    struct waits *waits = reallocate(NULL, sizeof *waits);
    *waits = (struct waits){.clock = clock, .spins = spins, .ways = ways, .first_beat = DN_NEVER, .timer_moment = DN_NEVER};
    waits->ready = reallocate(NULL, (size_t)ways * sizeof *waits->ready);
    waits->events = reallocate(NULL, (size_t)(ways + OTHERS) * sizeof *waits->events);
    waits->timer = new_timer();
    waits->polling = epoll_create1(EPOLL_CLOEXEC);
    if (waits->polling < 0) fail("epoll", strerror(errno));
    for (int way = 0; way < ways; way++)
        if (polled[way] >= 0) watch(waits, polled[way], way);
    watch(waits, signal, ways + OF_SIGNAL);
    watch(waits, waits->timer, ways + OF_TIMER);
    if (control >= 0) watch(waits, control, ways + OF_CONTROL);
    begin_beats(waits);
    return waits;
}

/* Sets the timer to a moment. The poll's own timeout would have a slack of a thousandth of the wait, despite PR_SET_TIMERSLACK. */
static void set_timer(struct waits *waits, uint64_t moment) {
    struct itimerspec at = {0};
    if (moment == waits->timer_moment) return;
    if (moment != DN_NEVER) at.it_value = time_of(waits->clock, moment);
    if (timerfd_settime(waits->timer, TFD_TIMER_ABSTIME, &at, NULL) < 0) fail("timerfd", strerror(errno));
    waits->timer_moment = moment;
}

/* Reads a beat, so that the epoll reports the next one. */
static void take_beat(const struct waits *waits) {
    uint64_t count;
    if (read(waits->beats, &count, sizeof count) < 0 && errno != EAGAIN) fail("timerfd", strerror(errno));
}

/* Returns the number of reports that there are or that come within `patience` ms (-1: without a limit), or -1 after an interruption. */
static int poll_events(const struct waits *waits, int patience) {
    int count = epoll_wait(waits->polling, waits->events, waits->ways + OTHERS, patience);
    if (count < 0 && errno != EINTR) fail("epoll", strerror(errno));
    return count;
}

/* Sleeps until a report, and returns the number of reports. Since all signals are blocked or ignored, only a stop of this program
   interrupts the sleep: what there is then can have come during the stop, and what comes later can't. */
static int sleep_until_event(const struct waits *waits, struct wait *wait, uint64_t timer_moment) {
    wait->nothing = waits->clock->last;
    wait->timer = next_beat(waits, wait->nothing);
    if (timer_moment < wait->timer) wait->timer = timer_moment;
    int count = poll_events(waits, -1);
    wait->paused = count < 0;
    return wait->paused ? poll_events(waits, 0) : count;
}

/* Chooses how early the sleep before a moment ends. The choice holds for all waits for the same moment. */
static void choose_early(struct waits *waits, uint64_t moment) {
    if (moment == waits->awaited) return;
    bool is_far = moment != DN_NEVER && moment > waits->clock->last + FAR;
    waits->early = waits->spins && is_far ? SPIN : 0;
    waits->awaited = moment;
}

/* Whether the timer alone ended a sleep while time stands, so that the timer's moment is now. */
static bool is_punctual(const struct waits *waits, const struct wait *wait, int count) {
    return waits->clock->stands && wait->slept && count == 1 && (int)waits->events->data.u32 == waits->ways + OF_TIMER;
}

/* Sets the clock to the timer's moment, without a reading. */
static void note_timer_moment(struct waits *waits) { waits->clock->last = waits->timer_moment; }

/* Notes the report of a way: its packets, or that its interface has gone. */
static void take_way(struct waits *waits, struct wait *wait, int way, uint32_t events) {
    if (events & (EPOLLERR | EPOLLHUP)) wait->end = INTERFACE_GONE;
    else waits->ready[wait->count++] = way;
}

/* Notes the report of another descriptor. A report of the timer says nothing more than the clock. */
static void take_other(const struct waits *waits, struct wait *wait, enum other other) {
    switch (other) {
    case OF_SIGNAL:
        if (wait->end != INTERFACE_GONE) wait->end = SIGNAL;
        break;
    case OF_CONTROL: wait->control = true; break;
    case OF_BEATS: take_beat(waits); break;
    default: break;
    }
}

struct wait wait_until(struct waits *waits, uint64_t moment) {
    struct wait wait = {.ready = waits->ready};
    bool may_sleep = moment > waits->clock->last;
    int count = 0;
    choose_early(waits, moment);
    if (may_sleep) set_timer(waits, moment - waits->early);
    /* Time that stands only passes in a sleep, so the sleep itself finds what has come, without a call before. */
    if (!may_sleep || !waits->clock->stands) count = poll_events(waits, 0);
    wait.slept = may_sleep && count == 0;
    if (wait.slept) count = sleep_until_event(waits, &wait, moment - waits->early);
    wait.punctual = is_punctual(waits, &wait, count);
    if (wait.punctual) note_timer_moment(waits);
    for (int i = 0; i < count; i++) {
        int number = (int)waits->events[i].data.u32;
        if (number < waits->ways) take_way(waits, &wait, number, waits->events[i].events);
        else take_other(waits, &wait, (enum other)(number - waits->ways));
    }
    return wait;
}
