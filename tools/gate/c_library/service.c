/* Threads make the calls that files list through hingetulip_service.h, and their history goes to a file as they go.

       ./service HISTORY CALLS...

   Each file of calls is made by a thread of its own through a caller of its own, in its order. tools/gate/c_service.py writes the lines.
   For each caller a line tells what it was told. */
#include "hingetulip_service.h"
#include <inttypes.h>
#include <pthread.h>
#include <stdio.h>
#include <stdlib.h>
#include <string.h>

enum { LONGEST_LINE = 1 << 16, AT_ONCE = 3 };

struct work {
    struct dn_caller *caller;
    const char *calls, *fault;
    uint64_t made, outcomes[4], delivered, refused, shown;
};

static pthread_mutex_t going_lock = PTHREAD_MUTEX_INITIALIZER;
static int going; /* threads that haven't ended */

static void want(struct work *work, const char *what, bool so) {
    if (!so) work->fault = what;
}

/* The numbers of a line behind its first letter. */
static void numbers(const char *text, uint64_t *into, int count) {
    char *at = (char *)text + 1;
    for (int i = 0; i < count; i++) into[i] = strtoull(at, &at, 10);
}

/* f TEXT: the text of a fault makes no call. */
static void configure(struct work *work, const char *text) {
    const char *line = text + 2;
    struct dn_fault fault = {77, 77, 77};
    uint32_t status = dn_caller_configure_wait(work->caller, (const uint8_t *)line, strlen(line), &fault);
    want(work, "the status of a line", status <= DN_NO_SUCH_QUEUE || status == DN_LINE);
    want(work, "a fault is written", (status == DN_LINE) == (fault.word != 77));
    if (status == DN_LINE) return;
    work->made++;
    work->refused += status != DN_OK;
}

/* p MOMENT KIND NUMBER SRC DST PROTO SPORT DPORT LENGTH WORD */
static void submit(struct work *work, const char *text) {
    uint64_t n[10];
    numbers(text, n, 10);
    struct dn_packet packet = {.moment = n[0], .kind = (uint8_t)n[1], .number = (uint16_t)n[2], .src = (uint32_t)n[3], .dst = (uint32_t)n[4],
                               .proto = (uint8_t)n[5], .sport = (uint16_t)n[6], .dport = (uint16_t)n[7], .length = (uint16_t)n[8], .word = (uint32_t)n[9]};
    struct dn_fate fate = {77, 77, 77, 77, 77};
    want(work, "the status of a packet", dn_caller_submit_wait(work->caller, &packet, &fate) == DN_OK);
    want(work, "a fate", fate.outcome <= DN_NO_TARGET && fate.at >= packet.moment && fate.reserved == 0);
    work->made++;
    work->outcomes[fate.outcome & 3]++;
}

static void advance(struct work *work, const char *text) {
    uint64_t moment, at = 0;
    numbers(text, &moment, 1);
    want(work, "the status of an advance", dn_caller_advance_wait(work->caller, moment, &at) == DN_OK);
    want(work, "the clock", at >= moment);
    work->made++;
}

/* The packets are read some at a time, and the same ones come again. */
static void collect(struct work *work, const char *text) {
    uint64_t moment, all = 77, count = 77, last = 0;
    struct dn_delivery list[AT_ONCE + 1];
    numbers(text, &moment, 1);
    want(work, "the status of a collect", dn_caller_collect_wait(work->caller, moment, &all) == DN_OK);
    for (uint64_t from = 0; from < all; from += count) {
        memset(list, 77, sizeof list);
        want(work, "the status of deliveries", dn_caller_deliveries(work->caller, from, list, AT_ONCE, &count) == DN_OK);
        want(work, "how many deliveries", count == (all - from < AT_ONCE ? all - from : AT_ONCE));
        for (uint64_t i = 0; i <= AT_ONCE; i++) {
            if (i < count) want(work, "the order of deliveries", list[i].due >= last && list[i].reserved == 0);
            else want(work, "a place behind the deliveries", list[i].due == UINT64_C(0x4d4d4d4d4d4d4d4d));
            if (i < count) last = list[i].due;
        }
        if (work->fault) return;
    }
    want(work, "no delivery behind the last", dn_caller_deliveries(work->caller, all, list, AT_ONCE, &count) == DN_OK && count == 0);
    work->made++;
    work->delivered += all;
}

/* The flows are read some at a time. Between two reads the caller asks when to collect, which is no call and leaves what it keeps. */
static void show(struct work *work) {
    uint64_t all = 77, count = 77, moment = 77;
    struct dn_flow list[AT_ONCE + 1];
    want(work, "the status of a show", dn_caller_show_wait(work->caller, &all) == DN_OK);
    for (uint64_t from = 0; from < all; from += count) {
        memset(list, 77, sizeof list);
        want(work, "the status of a wake", dn_caller_wake_wait(work->caller, &moment) == DN_OK && moment != 77);
        want(work, "the status of flows", dn_caller_flows(work->caller, from, list, AT_ONCE, &count) == DN_OK);
        want(work, "how many flows", count == (all - from < AT_ONCE ? all - from : AT_ONCE));
        for (uint64_t i = 0; i <= AT_ONCE; i++) {
            if (i < count) want(work, "a flow", list[i].flow == from + i && list[i].kind <= DN_QUEUE && list[i].reserved == 0 && list[i].reserved2 == 0);
            else want(work, "a place behind the flows", list[i].flow == UINT64_C(0x4d4d4d4d4d4d4d4d));
            if (i < count) want(work, "what waits in a flow", (list[i].queued == 0) == (list[i].bytes == 0));
        }
        if (work->fault) return;
    }
    struct dn_delivery none[1];
    want(work, "no flow behind the last", dn_caller_flows(work->caller, all, list, AT_ONCE, &count) == DN_OK && count == 0);
    want(work, "a show gives no packet", dn_caller_deliveries(work->caller, 0, none, 1, &count) == DN_OK && count == 0);
    work->made++;
    work->shown += all;
}

static void *make(void *given) {
    struct work *work = given;
    char *text = malloc(LONGEST_LINE);
    FILE *calls = fopen(work->calls, "r");
    while (text && calls && !work->fault && fgets(text, LONGEST_LINE, calls)) {
        text[strcspn(text, "\n")] = 0;
        switch (text[0]) {
        case 'f': configure(work, text); break;
        case 'p': submit(work, text); break;
        case 'a': advance(work, text); break;
        case 'c': collect(work, text); break;
        case 's': show(work); break;
        }
    }
    want(work, "the file of calls", text && calls);
    if (calls) fclose(calls);
    free(text);
    pthread_mutex_lock(&going_lock);
    going--;
    pthread_mutex_unlock(&going_lock);
    return NULL;
}

/* Writes the entries that wait, by both calls in turn. The first room is too short for each. */
static uint64_t write_waiting(struct dn_service *service, FILE *history, struct work *work) {
    uint64_t wrote = 0, length = 0, turns = 0, some;
    size_t room = 1;
    uint8_t *text = malloc(room);
    while (text) {
        some = 1;
        uint32_t status = turns++ & 1 ? dn_service_texts(service, text, room, &length, &some) : dn_service_text(service, text, room, &length);
        if (status == DN_NO_ENTRY) break;
        if (status == DN_ROOM) {
            want(work, "the length of an entry", length > room);
            free(text);
            text = malloc(room = length);
            continue;
        }
        want(work, "the status of a text", status == DN_OK && some > 0 && length <= room && fwrite(text, 1, length, history) == length);
        if (work->fault) break;
        wrote += some;
    }
    free(text);
    return wrote;
}

/* Takes what there is out, and tells how many entries these are. */
static uint64_t take(struct dn_service *service, FILE *history, uint64_t before, struct work *work) {
    uint64_t start = 77, count = 77;
    want(work, "the status of a take", dn_service_take_wait(service, &start, &count) == DN_OK);
    want(work, "the start of a take", start == before);
    uint64_t holder = 77, other = 77;
    if (count) want(work, "entries wait", dn_service_take(service, &other, &other, &holder) == DN_UNWRITTEN && other == 77 && holder == 77);
    want(work, "how many entries", write_waiting(service, history, work) == count);
    return count;
}

static bool some_go(void) {
    pthread_mutex_lock(&going_lock);
    bool some = going > 0;
    pthread_mutex_unlock(&going_lock);
    return some;
}

int main(int words, char **word) {
    int count = words - 2;
    if (count < 1 || count > DN_MOST_CALLERS) return 2;
    struct dn_service service = {0};
    struct dn_caller callers[DN_MOST_CALLERS] = {{0}};
    static struct work works[DN_MOST_CALLERS], own;
    pthread_t threads[DN_MOST_CALLERS];
    FILE *history = fopen(word[1], "w");
    if (!history || dn_service_open(&service, callers, (size_t)count) != DN_OK) return 2;
    going = count;
    fputs(DN_HISTORY_FRONT, history);
    for (int i = 0; i < count; i++) {
        works[i] = (struct work){.caller = &callers[i], .calls = word[i + 2]};
        if (pthread_create(&threads[i], NULL, make, &works[i])) return 2;
    }
    uint64_t taken = 0;
    while (some_go() && !own.fault) taken += take(&service, history, taken, &own);
    for (int i = 0; i < count; i++) pthread_join(threads[i], NULL);
    taken += take(&service, history, taken, &own);
    fprintf(history, DN_HISTORY_END, (unsigned long long)taken);
    bool failed = own.fault || fclose(history) != 0;
    if (own.fault) printf("the service: %s\n", own.fault);
    for (int i = 0; i < count; i++) {
        struct work *w = &works[i];
        if (w->fault) printf("caller %d: %s\n", i, w->fault);
        failed |= w->fault != NULL || dn_caller_close(w->caller) != DN_OK || dn_caller_close(w->caller) != DN_CLOSED;
        printf("caller %d: %" PRIu64 " calls, %" PRIu64 " queued, %" PRIu64 " lost, %" PRIu64 " full, %" PRIu64 " without target, %" PRIu64
               " delivered, %" PRIu64 " refused, %" PRIu64 " shown\n", i, w->made, w->outcomes[0], w->outcomes[1], w->outcomes[2], w->outcomes[3],
               w->delivered, w->refused, w->shown);
    }
    return failed || dn_service_close(&service) != DN_OK;
}
