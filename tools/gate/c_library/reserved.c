/* A sender in real time: room is made for each packet before it comes, and then its dn_submit takes no memory. The packets' flows are
   known, on pipes of their own and on one that queues share. It is linked with tools/gate/refused_growths.c, which counts growths. */
#include "hingetulip.h"
#include "holds.h"

enum { FLOWS = 64, PACKETS = 1000000, START = 20000, LIST = 4096 };

extern long growths;

static const char *const LINES[] = {"pipe 1 config bw 8Mbit/s delay 2 queue 20 mask dst-port 7", "pipe 2 config bw 8Mbit/s delay 5",
                                    "queue 1 config pipe 2 weight 3 queue 15 mask dst-port 15", "queue 2 config pipe 2 queue 15 mask src-ip 31"};

static uint32_t drawn(void) {
    static uint32_t random = 1;
    random = random * 1664525 + 1013904223;
    return random >> 8;
}

/* One of the FLOWS flows: 8 of the pipe, and 16 and 32 of the queues. Some addresses share a flow. */
static struct dn_packet of_flow(unsigned flow, uint64_t moment) {
    static const uint8_t KINDS[] = {DN_PIPE, DN_QUEUE, DN_QUEUE};
    static const uint16_t NUMBERS[] = {1, 1, 2};
    struct dn_packet packet = {.moment = moment, .src = flow, .dst = 2, .word = drawn(), .dport = (uint16_t)flow,
                               .length = (uint16_t)(1 + drawn() % 1500), .number = NUMBERS[flow % 3], .kind = KINDS[flow % 3], .proto = 17};
    return packet;
}

/* The growths of each kind of call, over some packets. */
struct counts {
    long reserve, submit, others;
};

static void open_and_make_flows_known(struct dn_handle *handle) {
    struct dn_fault fault;
    struct dn_fate fate;
    HOLDS(dn_open_with_key(handle, DN_ORDERED, 1, 2) == DN_OK);
    for (size_t i = 0; i < sizeof LINES / sizeof *LINES; i++)
        HOLDS(dn_configure(handle, (const uint8_t *)LINES[i], strlen(LINES[i]), &fault) == DN_OK);
    for (unsigned flow = 0; flow < FLOWS; flow++) {
        struct dn_packet packet = of_flow(flow, 0), elsewhere = packet;
        elsewhere.number = 9;
        uint32_t status = dn_reserve(handle, &packet);
        HOLDS(status == DN_NEW_FLOW || status == DN_OK); /* DN_OK: an address that shares the flow of an earlier one */
        HOLDS(dn_submit(handle, &packet, &fate) == DN_OK);
        HOLDS(dn_reserve(handle, &packet) == DN_OK && dn_reserve(handle, &elsewhere) == DN_OK); /* one without a target needs no room */
    }
}

/* Packets in bursts, or with `still` all at one moment, so that each queue is full. With `reserving` room is made before each. */
static void send(struct dn_handle *handle, int packets, bool still, bool reserving, uint64_t *moment, struct counts *own) {
    static struct dn_delivery list[LIST];
    struct dn_fate fate;
    uint64_t count, at;
    for (int i = 0; i < packets; i++) {
        *moment += !still && drawn() % 8 == 0 ? drawn() % 12000000 : 0;
        unsigned flow = drawn() % FLOWS;
        struct dn_packet packet = of_flow(flow, *moment), other = of_flow(flow, 0);
        long before = growths;
        if (reserving) HOLDS(dn_reserve(handle, &other) == DN_OK);
        own->reserve += growths - before;
        before = growths;
        if (i % 3 == 0) HOLDS(dn_advance(handle, *moment, &at) == DN_OK);
        if (i % 5 == 0) HOLDS(dn_collect(handle, *moment, list, LIST, &count) == DN_OK);
        HOLDS(dn_wake(handle, &at) == DN_OK);
        own->others += growths - before;
        before = growths;
        HOLDS(dn_submit(handle, &packet, &fate) == DN_OK);
        own->submit += growths - before;
    }
}

int main(void) {
    struct dn_handle handle = {0}, unreserved = {0};
    struct counts start = {0, 0, 0}, later = {0, 0, 0}, without = {0, 0, 0};
    uint64_t moment = 0, other = 0;
    open_and_make_flows_known(&handle);
    send(&handle, START, true, true, &moment, &start);
    send(&handle, PACKETS, false, true, &moment, &later);
    open_and_make_flows_known(&unreserved);
    send(&unreserved, START, true, false, &other, &without);
    HOLDS(start.submit == 0 && later.submit == 0);
    HOLDS(later.reserve == 0 && later.others == 0);
    HOLDS(start.reserve > 0 && without.submit > 0); /* else nothing is shown */
    HOLDS(dn_close(&handle) == DN_OK && dn_close(&unreserved) == DN_OK);
    int status = told();
    printf("%d packets in reserved room: %ld growths in dn_submit, %ld in all calls. At the start dn_reserve had %ld, and without it "
           "dn_submit %ld\n", PACKETS, later.submit, later.reserve + later.submit + later.others, start.reserve, without.submit);
    return status;
}
