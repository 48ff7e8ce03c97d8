/* Refuses each growth of a run by two callers in turn: the call is answered DN_MEMORY and made again, and then no answer and no byte of
   the history differ from those of the run in which none was refused. It is linked with tools/gate/refused_growths.c, which refuses. */
#include "hingetulip_service.h"
#include "refusals.h"

enum { CALLERS = 2, CALLS = 150 };

static const char *const LINES[] = {"pipe 1 config bw 8Mbit/s delay 2 queue 20", "pipe 2 config bw 1Mbit/s delay 5",
                                    "queue 1 config pipe 2 weight 3 mask dst-port 3", "pipe 3 config plr 0.2 mask src-ip 0xff"};

static void write_history(struct dn_service *service) {
    static uint8_t text[1 << 16];
    uint64_t start = 0, count = 0, length = 0, holder = 0, some;
    ASKED(dn_service_take(service, &start, &count, &holder));
    mix(&start, sizeof start);
    for (; count > 0; count -= some) {
        some = 1;
        if (count & 1) ASKED(dn_service_text(service, text, sizeof text, &length));
        else ASKED(dn_service_texts(service, text, 1000, &length, &some));
        mix(text, length);
    }
    ASKED(dn_service_text(service, text, sizeof text, &length));
    ASKED(dn_service_texts(service, text, sizeof text, &length, &some));
}

static void calls(struct dn_service *service, struct dn_caller *callers) {
    static struct dn_delivery list[512];
    static struct dn_flow flows[64];
    uint32_t random = 1;
    uint64_t moment = 0, count = 0, next = 0, holder = 0;
    for (int i = 0; i < CALLS; i++) {
        struct dn_caller *caller = &callers[i % CALLERS];
        random = random * 1664525 + 1013904223;
        moment += random % 400000;
        struct dn_packet packet = drawn(moment, random);
        struct dn_fate fate = {9, 9, 9, 9, 9};
        ASKED(dn_caller_submit(caller, &packet, &fate, &holder));
        mix(&fate, sizeof fate);
        if (i % 3 == 0) {
            ASKED(dn_caller_collect(caller, moment, &count, &holder));
            ASKED(dn_caller_deliveries(caller, 0, list, 512, &count));
            mix(list, count * sizeof *list);
        }
        if (i % 7 == 0) {
            ASKED(dn_caller_show(caller, &count, &holder));
            ASKED(dn_caller_flows(caller, 0, flows, 64, &count));
            mix(flows, count * sizeof *flows);
        }
        ASKED(dn_caller_wake(caller, &next, &holder));
        mix(&next, sizeof next);
        if (i % 40 == 0) write_history(service);
    }
}

static void run(void) {
    struct dn_service service = {0};
    struct dn_caller callers[CALLERS] = {{0}};
    struct dn_fault fault = {0, 0, 0};
    uint64_t holder = 0;
    begin_run();
    ASKED(dn_service_open_with_key(&service, callers, CALLERS, 1, 2));
    for (size_t i = 0; i < sizeof LINES / sizeof *LINES; i++)
        ASKED(dn_caller_configure(&callers[i % CALLERS], (const uint8_t *)LINES[i], strlen(LINES[i]), &fault, &holder));
    calls(&service, callers);
    write_history(&service);
    for (int i = 0; i < CALLERS; i++) ASKED(dn_caller_close(&callers[i]));
    ASKED(dn_service_close(&service));
}

static bool is_right(void) { return refused <= 1; }

int main(void) { return refuse_each(run, is_right) || busy != 0; }
