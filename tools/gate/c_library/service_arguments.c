/* Every refusal of hingetulip_service.h: its status, and that nothing else changed; and each call once, with the values worked out by hand. */
#include "hingetulip_service.h"
#include "wrong_packets.h"

static uint64_t number = 77, other = 77, holder = 77;
static struct dn_fate fate;
static struct dn_fault fault;
static struct dn_delivery list[4];
static struct dn_flow flows[4];
static uint8_t text[200];

static void fill(void) {
    number = other = holder = 77;
    memset(&fate, 77, sizeof fate);
    memset(&fault, 77, sizeof fault);
    memset(list, 77, sizeof list);
    memset(flows, 77, sizeof flows);
    memset(text, 77, sizeof text);
}

static bool untouched(void) {
    return number == 77 && other == 77 && holder == 77 && are_77(&fate, sizeof fate) && are_77(&fault, sizeof fault) &&
           are_77(list, sizeof list) && are_77(flows, sizeof flows) && are_77(text, sizeof text);
}

static uint32_t configured(struct dn_caller *caller, const char *line) {
    return dn_caller_configure(caller, (const uint8_t *)line, strlen(line), &fault, &holder);
}

static void every_call_of_closed_handles(void) {
    struct dn_service service = {0};
    struct dn_caller caller = {0};
    struct dn_packet packet = good(0);
    fill();
    HOLDS(dn_service_close(&service) == DN_CLOSED && dn_caller_close(&caller) == DN_CLOSED);
    HOLDS(configured(&caller, "pipe 1 config") == DN_CLOSED);
    HOLDS(configured(&caller, " ") == DN_OK);
    HOLDS(dn_caller_submit(&caller, &packet, &fate, &holder) == DN_CLOSED);
    HOLDS(dn_caller_advance(&caller, 0, &number, &holder) == DN_CLOSED);
    HOLDS(dn_caller_collect(&caller, 0, &number, &holder) == DN_CLOSED);
    HOLDS(dn_caller_deliveries(&caller, 0, list, 4, &number) == DN_CLOSED);
    HOLDS(dn_caller_show(&caller, &number, &holder) == DN_CLOSED);
    HOLDS(dn_caller_flows(&caller, 0, flows, 4, &number) == DN_CLOSED);
    HOLDS(dn_caller_wake(&caller, &number, &holder) == DN_CLOSED);
    HOLDS(dn_service_take(&service, &number, &other, &holder) == DN_CLOSED);
    HOLDS(dn_service_text(&service, text, sizeof text, &number) == DN_CLOSED);
    HOLDS(dn_service_texts(&service, text, sizeof text, &number, &other) == DN_CLOSED);
    HOLDS(untouched() && service.at == NULL && !service.open && caller.at == NULL && !caller.open);
}

static void counts_of_callers(void) {
    struct dn_service service = {0};
    struct dn_caller callers[DN_MOST_CALLERS + 1] = {{0}};
    HOLDS(dn_service_open(&service, callers, 0) == DN_BAD_COUNT && !service.open);
    HOLDS(dn_service_open(&service, callers, DN_MOST_CALLERS + 1) == DN_BAD_COUNT && !service.open && !callers[0].open);
    for (size_t count = 1; count <= DN_MOST_CALLERS; count++) {
        HOLDS(dn_service_open(&service, callers, count) == DN_OK && service.open && callers[count - 1].open && !callers[count].open);
        HOLDS(dn_service_open_with_key(&service, callers, 0, 1, 2) == DN_BAD_COUNT && service.open && callers[0].open);
    }
    for (size_t i = 0; i < DN_MOST_CALLERS; i++) {
        fill();
        HOLDS(dn_caller_advance(&callers[i], i, &number, &holder) == DN_OK && number == i && holder == 77);
    }
    HOLDS(dn_service_close(&service) == DN_OK && dn_service_close(&service) == DN_CLOSED && !service.open);
    HOLDS(dn_caller_advance(&callers[0], 99, &number, &holder) == DN_OK && number == 99);
    for (size_t i = 0; i < DN_MOST_CALLERS; i++) HOLDS(dn_caller_close(&callers[i]) == DN_OK && dn_caller_close(&callers[i]) == DN_CLOSED);
}

static void refusals(struct dn_caller *caller) {
    fill();
#define SUBMITTED(packet) dn_caller_submit(caller, &(packet), &fate, &holder)
    REFUSED_PACKETS(SUBMITTED);
    HOLDS(dn_caller_advance(caller, DN_LAST_MOMENT + 1, &number, &holder) == DN_BAD_MOMENT);
    HOLDS(dn_caller_collect(caller, DN_LAST_MOMENT + 1, &number, &holder) == DN_BAD_MOMENT);
    HOLDS(untouched());
    HOLDS(configured(caller, "pipe 1 config bw 8Mbps") == DN_LINE && fault.word == 5 && fault.kind == DN_NOT_A_NUMBER && fault.reserved == 0);
    HOLDS(configured(caller, "\xff") == DN_LINE && fault.word == 0 && fault.kind == DN_NOT_UTF8 && holder == 77);
    fill();
    HOLDS(configured(caller, "") == DN_OK && configured(caller, "queue 1 config pipe 9") == DN_NO_SUCH_PIPE);
    HOLDS(configured(caller, "pipe 9 delete") == DN_NO_SUCH_PIPE && configured(caller, "queue 9 delete") == DN_NO_SUCH_QUEUE);
    HOLDS(untouched());
}

static void fates_and_deliveries(struct dn_caller *one, struct dn_caller *two) {
    struct dn_packet packet = good(5);
    fill();
    HOLDS(configured(one, "pipe 1 config bw 8Mbit/s delay 20 queue 2") == DN_OK);
    HOLDS(dn_caller_submit(one, &packet, &fate, &holder) == DN_OK && fate.outcome == DN_QUEUED && fate.at == 5 && fate.flow == 0 && fate.packet == 0);
    HOLDS(dn_caller_submit(two, &packet, &fate, &holder) == DN_OK && fate.outcome == DN_QUEUED && fate.packet == 1 && fate.reserved == 0);
    HOLDS(dn_caller_submit(one, &packet, &fate, &holder) == DN_OK && fate.outcome == DN_QUEUED && fate.packet == 2);
    HOLDS(dn_caller_submit(one, &packet, &fate, &holder) == DN_OK && fate.outcome == DN_FULL && fate.packet == 0);
    HOLDS(dn_caller_deliveries(one, 0, list, 4, &number) == DN_OK && number == 0 && are_77(list, sizeof list));
    HOLDS(dn_caller_collect(two, 100000000, &number, &holder) == DN_OK && number == 3);
    HOLDS(dn_caller_deliveries(two, 1, list, 4, &number) == DN_OK && number == 2 && are_77(list + 2, 2 * sizeof *list));
    HOLDS(list[0].due == 22000005 && list[0].packet == 1 && list[0].flow == 0 && list[0].start == 1000005 && list[0].reserved == 0);
    HOLDS(list[1].due == 23000005 && list[1].packet == 2);
    HOLDS(dn_caller_deliveries(two, 0, list, 1, &number) == DN_OK && number == 1 && list[0].due == 21000005 && list[1].due == 23000005);
    HOLDS(dn_caller_deliveries(two, 3, list, 4, &number) == DN_OK && number == 0);
    HOLDS(dn_caller_deliveries(two, SIZE_MAX, list, 4, &number) == DN_OK && number == 0);
    HOLDS(dn_caller_collect(two, 100000000, &number, &holder) == DN_OK && number == 0 && holder == 77);
}

/* Two packets wait for a third to be sent, which takes 1 ms. A queue of the pipe has a flow for each source. */
static void flows_and_wakes(struct dn_caller *one, struct dn_caller *two) {
    struct dn_packet packet = good(0);
    fill();
    HOLDS(dn_caller_show(one, &number, &holder) == DN_OK && number == 0 && holder == 77);
    HOLDS(dn_caller_flows(one, 0, flows, 4, &number) == DN_OK && number == 0 && are_77(flows, sizeof flows));
    HOLDS(dn_caller_wake(one, &number, &holder) == DN_OK && number == DN_NEVER && holder == 77);
    HOLDS(configured(one, "pipe 1 config bw 8Mbit/s delay 20") == DN_OK && configured(two, "queue 1 config pipe 1 mask src-ip 0xff") == DN_OK);
    packet.kind = DN_QUEUE;
    for (packet.src = 7; packet.src < 9; packet.src++)
        HOLDS(dn_caller_submit(one, &packet, &fate, &holder) == DN_OK && fate.outcome == DN_QUEUED && fate.flow == packet.src - 7);
    HOLDS(dn_caller_submit(two, &packet, &fate, &holder) == DN_OK && fate.outcome == DN_QUEUED && fate.flow == 2);
    HOLDS(dn_caller_wake(two, &number, &holder) == DN_OK && number == 1000000 && dn_caller_wake(one, &number, &holder) == DN_OK && number == 1000000);
    fill();
    HOLDS(dn_caller_show(two, &number, &holder) == DN_OK && number == 3 && holder == 77);
    HOLDS(dn_caller_flows(one, 0, flows, 4, &number) == DN_OK && number == 0 && are_77(flows, sizeof flows));
    HOLDS(dn_caller_flows(two, 1, flows, 4, &number) == DN_OK && number == 2 && are_77(flows + 2, 2 * sizeof *flows));
    HOLDS(flows[0].flow == 1 && flows[0].queued == 1 && flows[0].bytes == 1000 && flows[0].started == 0 && flows[0].src == 8 && flows[0].dst == 0);
    HOLDS(flows[0].kind == DN_QUEUE && flows[0].number == 1 && flows[0].pipe == 1 && flows[0].reserved == 0 && flows[0].reserved2 == 0 && flows[1].src == 9);
    HOLDS(dn_caller_wake(two, &number, &holder) == DN_OK && dn_caller_flows(two, 0, flows, 1, &number) == DN_OK && number == 1);
    HOLDS(flows[0].flow == 0 && flows[0].queued == 0 && flows[0].started == 1 && flows[1].src == 9);
    HOLDS(dn_caller_flows(two, 3, flows, 4, &number) == DN_OK && number == 0 && dn_caller_flows(two, SIZE_MAX, flows, 4, &number) == DN_OK && number == 0);
    HOLDS(dn_caller_deliveries(two, 0, list, 4, &number) == DN_OK && number == 0 && are_77(list, sizeof list));
    HOLDS(dn_caller_collect(two, 1000000, &number, &holder) == DN_OK && number == 0);
    HOLDS(dn_caller_flows(two, 0, flows, 4, &number) == DN_OK && number == 0);
    HOLDS(dn_caller_wake(one, &number, &holder) == DN_OK && number == 2000000);
    HOLDS(dn_caller_collect(one, 22000000, &number, &holder) == DN_OK && number == 2 && dn_caller_wake(two, &number, &holder) == DN_OK && number == 23000000);
    HOLDS(dn_caller_deliveries(one, 1, list, 4, &number) == DN_OK && number == 1 && list[0].due == 22000000 && list[0].flow == 1);
    HOLDS(dn_caller_collect(one, 23000000, &number, &holder) == DN_OK && number == 1 && dn_caller_wake(two, &number, &holder) == DN_OK && number == DN_NEVER);
    HOLDS(holder == 77);
}

/* The entries of a new service by two callers, one after the other. */
static void entries(void) {
    static const char first[] = "c,0,advance,7\nr,advanced,7\n", second[] = "c,1,collect,3\nr,delivered,7,0\n";
    struct dn_service service = {0};
    struct dn_caller callers[2] = {{0}};
    HOLDS(dn_service_open_with_key(&service, callers, 2, 3, 4) == DN_OK);
    fill();
    HOLDS(dn_service_text(&service, text, sizeof text, &number) == DN_NO_ENTRY && untouched());
    HOLDS(dn_service_take(&service, &number, &other, &holder) == DN_OK && number == 0 && other == 0);
    HOLDS(dn_caller_advance(&callers[0], 7, &number, &holder) == DN_OK && dn_caller_collect(&callers[1], 3, &number, &holder) == DN_OK);
    HOLDS(dn_service_take(&service, &number, &other, &holder) == DN_OK && number == 0 && other == 2);
    HOLDS(dn_caller_close(&callers[0]) == DN_OK && dn_caller_advance(&callers[1], 8, &number, &holder) == DN_OK);
    fill();
    HOLDS(dn_service_take(&service, &number, &other, &holder) == DN_UNWRITTEN && untouched());
    HOLDS(dn_service_text(&service, text, sizeof first - 2, &number) == DN_ROOM && number == sizeof first - 1 && are_77(text, sizeof text));
    HOLDS(dn_service_text(&service, text, sizeof first - 1, &number) == DN_OK && number == sizeof first - 1);
    HOLDS(memcmp(text, first, sizeof first - 1) == 0 && are_77(text + sizeof first - 1, sizeof text - sizeof first + 1));
    HOLDS(dn_service_take(&service, &number, &other, &holder) == DN_UNWRITTEN);
    HOLDS(dn_service_text(&service, text, sizeof text, &number) == DN_OK && number == sizeof second - 1 && memcmp(text, second, sizeof second - 1) == 0);
    HOLDS(dn_service_text(&service, text, sizeof text, &number) == DN_NO_ENTRY && number == sizeof second - 1);
    HOLDS(dn_service_take(&service, &number, &other, &holder) == DN_OK && number == 2 && other == 1 && holder == 77);
    HOLDS(dn_service_close(&service) == DN_OK && dn_caller_close(&callers[1]) == DN_OK);
}

/* Three entries of 27, 32 and 22 bytes, as many at once as have room. */
static void many_entries(void) {
    static const char first[] = "c,0,advance,7\nr,advanced,7\n", second[] = "c,0,collect,9\nr,delivered,9,0\n", third[] = "c,0,show\nr,status,0\n";
    static const char front[] = "c,0,advance,7\nr,advanced,7\nc,0,collect,9\nr,delivered,9,0\n";
    struct dn_service service = {0};
    struct dn_caller caller = {0};
    HOLDS(dn_service_open(&service, &caller, 1) == DN_OK);
    fill();
    HOLDS(dn_service_texts(&service, text, sizeof text, &number, &other) == DN_NO_ENTRY && untouched());
    HOLDS(dn_caller_advance(&caller, 7, &number, &holder) == DN_OK && dn_caller_collect(&caller, 9, &number, &holder) == DN_OK);
    HOLDS(dn_caller_show(&caller, &number, &holder) == DN_OK && dn_service_take(&service, &number, &other, &holder) == DN_OK && other == 3);
    fill();
    HOLDS(dn_service_texts(&service, text, 0, &number, &other) == DN_ROOM && number == sizeof first - 1);
    HOLDS(dn_service_texts(&service, text, sizeof first - 2, &number, &other) == DN_ROOM && number == sizeof first - 1);
    HOLDS(other == 77 && are_77(text, sizeof text));
    HOLDS(dn_service_texts(&service, text, sizeof front + sizeof third - 3, &number, &other) == DN_OK && number == sizeof front - 1 && other == 2);
    HOLDS(memcmp(text, front, sizeof front - 1) == 0 && are_77(text + sizeof front - 1, sizeof text - sizeof front + 1));
    HOLDS(dn_service_take(&service, &number, &other, &holder) == DN_UNWRITTEN);
    HOLDS(dn_service_texts(&service, text, sizeof third - 1, &number, &other) == DN_OK && number == sizeof third - 1 && other == 1);
    HOLDS(memcmp(text, third, sizeof third - 1) == 0 && memcmp(text + sizeof third - 1, front + sizeof third - 1, sizeof front - sizeof third) == 0);
    HOLDS(dn_service_texts(&service, text, sizeof text, &number, &other) == DN_NO_ENTRY && other == 1 && holder == 77);
    HOLDS(dn_caller_advance(&caller, 9, &number, &holder) == DN_OK && dn_caller_collect(&caller, 9, &number, &holder) == DN_OK);
    HOLDS(dn_service_take(&service, &number, &other, &holder) == DN_OK && number == 3 && other == 2);
    HOLDS(dn_service_text(&service, text, sizeof text, &number) == DN_OK && dn_service_texts(&service, text, sizeof text, &number, &other) == DN_OK);
    HOLDS(number == sizeof second - 1 && other == 1 && memcmp(text, second, sizeof second - 1) == 0);
    HOLDS(dn_service_close(&service) == DN_OK && dn_caller_close(&caller) == DN_OK);
}

int main(void) {
    struct dn_service service = {0};
    struct dn_caller callers[2] = {{0}};
    every_call_of_closed_handles();
    counts_of_callers();
    HOLDS(dn_service_open(&service, callers, 2) == DN_OK);
    refusals(&callers[0]);
    fates_and_deliveries(&callers[0], &callers[1]);
    HOLDS(dn_service_open(&service, callers, 2) == DN_OK);
    flows_and_wakes(&callers[0], &callers[1]);
    HOLDS(dn_service_close(&service) == DN_OK && dn_caller_close(&callers[0]) == DN_OK && dn_caller_close(&callers[1]) == DN_OK);
    entries();
    many_entries();
    return told();
}
