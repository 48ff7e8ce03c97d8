/*
 * hingetulip_service.h: one link emulator that many threads call. Its statuses, packets, fates, deliveries and flows are those of
 * hingetulip.h, under the rule DN_ORDERED.
 *
 * A service is opened with its callers. One thread at a time uses a caller, and one thread at a time the service. A handle may
 * pass to another thread by a lock, by a thread's start or by its end. Handles are closed where they are {0}. An open handle isn't
 * copied, and its fields are the library's alone. A caller and a service are closed in any order. What hingetulip.h asks of
 * pointers is asked here too.
 *
 * The calls of all callers are one sequence, and each reply is that of a handle of hingetulip.h after the calls before it. The
 * service takes this sequence out as entries of a history file, which `dummynet audit` checks.
 *
 * No function of the library waits. DN_BUSY: another caller, *holder, was in a call, and nothing has changed. The functions with
 * `_wait` in their names are written here in C and are no part of what is proved: each makes a call until it isn't DN_BUSY, and
 * spins or sleeps between two tries.
 */
#ifndef HINGETULIP_SERVICE_H
#define HINGETULIP_SERVICE_H

#include <hingetulip.h>
#include <sys/select.h>

#ifdef __cplusplus
extern "C" {
#endif

/* The most callers of a service. */
#define DN_MOST_CALLERS 15

enum dn_service_status {
    DN_BUSY = 15,      /* *holder is the number of another caller, who was in a call: nothing has changed */
    DN_BAD_COUNT = 16, /* the number of callers isn't in 1 to DN_MOST_CALLERS */
    DN_UNWRITTEN = 17, /* an entry that was taken out waits to be written */
    DN_NO_ENTRY = 18   /* no entry waits to be written */
};

struct dn_service {
    void *at;
    bool open;
};

struct dn_caller {
    void *at;
    bool open;
};

/* Opens a service and its `count` callers, which are numbered from 0 in their places. The service has no pipe, no queue, no packet,
   and its clock is at 0. What the handles held is let go. DN_BAD_COUNT: the handles are as they were. DN_MEMORY: they are closed. */
uint32_t dn_service_open(struct dn_service *service, struct dn_caller *callers, size_t count);

/* The same with a secret of 128 bits, as for dn_open_with_key. */
uint32_t dn_service_open_with_key(struct dn_service *service, struct dn_caller *callers, size_t count, uint64_t high, uint64_t low);

/* Closes a handle, and lets go what it held. DN_CLOSED: it was closed. A service goes on until all of its handles are closed. */
uint32_t dn_service_close(struct dn_service *service);
uint32_t dn_caller_close(struct dn_caller *caller);

/* As dn_configure, dn_submit and dn_advance, by a caller. Only DN_BUSY writes *holder. */
uint32_t dn_caller_configure(struct dn_caller *caller, const uint8_t *line, size_t length, struct dn_fault *fault, uint64_t *holder);
uint32_t dn_caller_submit(struct dn_caller *caller, const struct dn_packet *packet, struct dn_fate *fate, uint64_t *holder);
uint32_t dn_caller_advance(struct dn_caller *caller, uint64_t moment, uint64_t *at, uint64_t *holder);

/* Moves the clock, and takes the packets that are due, in the order in which they are due. DN_OK: they are *count, and the caller
   keeps them until its next call that is answered. */
uint32_t dn_caller_collect(struct dn_caller *caller, uint64_t moment, uint64_t *count, uint64_t *holder);

/* Shows the state of all flows, in the order of their numbers. DN_OK: they are *count, and the caller keeps them until its next call
   that is answered. */
uint32_t dn_caller_show(struct dn_caller *caller, uint64_t *count, uint64_t *holder);

/* Writes the packets that the caller keeps, from the place `from` on. DN_OK: *count of them are in the first places of `list`, which
   has `room` places. They are all, if the list has room for them. It counts as no call. A caller keeps no packets after another call
   than a collect. */
uint32_t dn_caller_deliveries(struct dn_caller *caller, size_t from, struct dn_delivery *list, size_t room, uint64_t *count);

/* Writes the flows that the caller keeps in the same way. A caller keeps none after another call than a show. */
uint32_t dn_caller_flows(struct dn_caller *caller, size_t from, struct dn_flow *list, size_t room, uint64_t *count);

/* When to ask next. DN_OK: *moment is that of dn_wake, after all calls so far, and DN_NEVER if no packet waits or is under way. The
   caller's next call comes after all these calls. Another caller's call can come before it. It counts as no call, and the caller keeps
   what it keeps. It needs no memory. */
uint32_t dn_caller_wake(struct dn_caller *caller, uint64_t *moment, uint64_t *holder);

/* Takes out all entries so far. DN_OK: *count of them wait to be written, and *start were taken out before. DN_UNWRITTEN: an
   entry that was taken out before still waits. */
uint32_t dn_service_take(struct dn_service *service, uint64_t *start, uint64_t *count, uint64_t *holder);

/* Writes the first entry that waits, as lines of a history file, into `text`, which has `room` bytes. DN_OK: they are *length bytes,
   and the entry waits no more. DN_ROOM: the entry has *length bytes, and still waits. DN_NO_ENTRY: none waits. */
uint32_t dn_service_text(struct dn_service *service, uint8_t *text, size_t room, uint64_t *length);

/* Writes the first entries that wait in the same way, as many as have room. DN_OK: they are *count entries of *length bytes in all, and
   wait no more. The next entry has no room, or none is left. DN_ROOM: the first entry has *length bytes, and all still wait.
   DN_NO_ENTRY: none waits. */
uint32_t dn_service_texts(struct dn_service *service, uint8_t *text, size_t room, uint64_t *length, uint64_t *count);

/* Passes the time between two tries of a call, of which *tries is 0 at first. After the first four it spins, twice as long each time, and
   after the fifth it sleeps for 20 us and begins anew. A lock that is tried without a pause changes hands slowly. */
static inline void dn_service_patience(unsigned *tries)
{
    struct timeval rest = {0, 20};
    if (*tries == 4) {
        select(0, NULL, NULL, NULL, &rest);
        *tries = 0;
        return;
    }
    for (unsigned turn = 0; turn < 256u << *tries; turn++) {
#if defined(__x86_64__) || defined(__i386__)
        __builtin_ia32_pause();
#else
        __asm__ volatile("");
#endif
    }
    ++*tries;
}

static inline uint32_t dn_caller_configure_wait(struct dn_caller *caller, const uint8_t *line, size_t length, struct dn_fault *fault)
{
    uint64_t holder;
    uint32_t status;
    unsigned tries = 0;
    while ((status = dn_caller_configure(caller, line, length, fault, &holder)) == DN_BUSY)
        dn_service_patience(&tries);
    return status;
}

static inline uint32_t dn_caller_submit_wait(struct dn_caller *caller, const struct dn_packet *packet, struct dn_fate *fate)
{
    uint64_t holder;
    uint32_t status;
    unsigned tries = 0;
    while ((status = dn_caller_submit(caller, packet, fate, &holder)) == DN_BUSY)
        dn_service_patience(&tries);
    return status;
}

static inline uint32_t dn_caller_advance_wait(struct dn_caller *caller, uint64_t moment, uint64_t *at)
{
    uint64_t holder;
    uint32_t status;
    unsigned tries = 0;
    while ((status = dn_caller_advance(caller, moment, at, &holder)) == DN_BUSY)
        dn_service_patience(&tries);
    return status;
}

static inline uint32_t dn_caller_collect_wait(struct dn_caller *caller, uint64_t moment, uint64_t *count)
{
    uint64_t holder;
    uint32_t status;
    unsigned tries = 0;
    while ((status = dn_caller_collect(caller, moment, count, &holder)) == DN_BUSY)
        dn_service_patience(&tries);
    return status;
}

static inline uint32_t dn_caller_show_wait(struct dn_caller *caller, uint64_t *count)
{
    uint64_t holder;
    uint32_t status;
    unsigned tries = 0;
    while ((status = dn_caller_show(caller, count, &holder)) == DN_BUSY)
        dn_service_patience(&tries);
    return status;
}

static inline uint32_t dn_caller_wake_wait(struct dn_caller *caller, uint64_t *moment)
{
    uint64_t holder;
    uint32_t status;
    unsigned tries = 0;
    while ((status = dn_caller_wake(caller, moment, &holder)) == DN_BUSY)
        dn_service_patience(&tries);
    return status;
}

static inline uint32_t dn_service_take_wait(struct dn_service *service, uint64_t *start, uint64_t *count)
{
    uint64_t holder;
    uint32_t status;
    unsigned tries = 0;
    while ((status = dn_service_take(service, start, count, &holder)) == DN_BUSY)
        dn_service_patience(&tries);
    return status;
}

#ifdef __cplusplus
}
#endif

#endif
