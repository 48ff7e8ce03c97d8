/* Every refusal of hingetulip.h: its status, and that nothing else changed; room; and audits. */
#include "hingetulip.h"
#include "wrong_packets.h"

static uint32_t configured(struct dn_handle *handle, const char *line, struct dn_fault *fault) {
    return dn_configure(handle, (const uint8_t *)line, strlen(line), fault);
}

static void every_call_of_a_closed_handle(void) {
    struct dn_handle handle = {0};
    struct dn_packet packet = good(0);
    struct dn_fate fate;
    struct dn_fault fault;
    struct dn_delivery delivery;
    struct dn_flow flow;
    uint64_t number;
    memset(&fate, 77, sizeof fate);
    memset(&fault, 77, sizeof fault);
    memset(&delivery, 77, sizeof delivery);
    memset(&flow, 77, sizeof flow);
    memset(&number, 77, sizeof number);
    HOLDS(dn_close(&handle) == DN_CLOSED);
    HOLDS(configured(&handle, "pipe 1 config", &fault) == DN_CLOSED);
    HOLDS(dn_submit(&handle, &packet, &fate) == DN_CLOSED);
    HOLDS(dn_reserve(&handle, &packet) == DN_CLOSED);
    HOLDS(dn_advance(&handle, 0, &number) == DN_CLOSED);
    HOLDS(dn_collect(&handle, 0, &delivery, 1, &number) == DN_CLOSED);
    HOLDS(dn_show(&handle, &flow, 1, &number) == DN_CLOSED);
    HOLDS(dn_wake(&handle, &number) == DN_CLOSED);
    HOLDS(are_77(&fate, sizeof fate) && are_77(&fault, sizeof fault) && are_77(&delivery, sizeof delivery));
    HOLDS(are_77(&flow, sizeof flow) && are_77(&number, sizeof number));
    HOLDS(dn_submit_many(&handle, &packet, 1, &fate, 1, &number) == DN_CLOSED && number == 0 && are_77(&fate, sizeof fate));
    HOLDS(handle.at == NULL && !handle.open);
}

static void packets_out_of_range(struct dn_handle *handle) {
    struct dn_fate fate;
    memset(&fate, 77, sizeof fate);
#define SUBMITTED(packet) dn_submit(handle, &(packet), &fate)
#define RESERVED(packet) dn_reserve(handle, &(packet))
    REFUSED_PACKETS(SUBMITTED);
    REFUSED_PACKETS(RESERVED);
    HOLDS(are_77(&fate, sizeof fate));
}

static void moments_and_rules_out_of_range(struct dn_handle *handle) {
    struct dn_delivery list[2];
    uint64_t number;
    memset(list, 77, sizeof list);
    memset(&number, 77, sizeof number);
    HOLDS(dn_advance(handle, DN_LAST_MOMENT + 1, &number) == DN_BAD_MOMENT);
    HOLDS(dn_collect(handle, UINT64_MAX, list, 2, &number) == DN_BAD_MOMENT);
    HOLDS(are_77(list, sizeof list) && are_77(&number, sizeof number));
    struct dn_handle before = *handle;
    HOLDS(dn_open(handle, 2) == DN_BAD_RULE && dn_open(handle, UINT32_MAX) == DN_BAD_RULE);
    HOLDS(dn_open_with_key(handle, 2, 0, 0) == DN_BAD_RULE && dn_open_with_key(handle, UINT32_MAX, 1, 1) == DN_BAD_RULE);
    HOLDS(handle->at == before.at && handle->open);
}

/* Two packets of one flow, with room for one. */
static void lists_that_are_too_short(struct dn_handle *handle) {
    struct dn_fault fault;
    struct dn_delivery list[3];
    struct dn_flow flows[2];
    struct dn_packet two[2] = {good(0), good(0)};
    struct dn_fate fates[2];
    uint64_t count;
    memset(list, 77, sizeof list);
    memset(flows, 77, sizeof flows);
    memset(fates, 77, sizeof fates);
    HOLDS(configured(handle, "pipe 1 config bw 8Mbit/s", &fault) == DN_OK);
    HOLDS(dn_submit_many(handle, two, 2, fates, 1, &count) == DN_ROOM && count == 0 && are_77(fates, sizeof fates));
    HOLDS(dn_submit_many(handle, two, 0, fates, 0, &count) == DN_OK && count == 0 && are_77(fates, sizeof fates));
    HOLDS(dn_submit_many(handle, two, 2, fates, 2, &count) == DN_OK && count == 2 && fates[1].packet == 1);
    HOLDS(dn_collect(handle, 2000000, list, 1, &count) == DN_ROOM && count == 2 && are_77(list, sizeof list));
    HOLDS(dn_show(handle, flows, 0, &count) == DN_ROOM && count == 1 && are_77(flows, sizeof flows));
    HOLDS(dn_show(handle, flows, 1, &count) == DN_OK && count == 1 && flows[0].started == 1 && are_77(flows + 1, sizeof *flows));
    HOLDS(dn_collect(handle, 2000000, list, 2, &count) == DN_OK && count == 2 && list[0].due == 1000000 && list[1].due == 2000000);
    HOLDS(are_77(list + 2, sizeof *list));
}

/* The second of three packets is out of range: the first alone is answered. */
static void packets_up_to_a_bad_one(struct dn_handle *handle) {
    struct dn_packet three[3] = {good(3000000), good(3000000), good(3000000)};
    struct dn_fate fates[3];
    uint64_t done;
    three[1].length = 0;
    memset(fates, 77, sizeof fates);
    HOLDS(dn_submit_many(handle, three, 3, fates, 3, &done) == DN_BAD_LENGTH && done == 1);
    HOLDS(fates[0].outcome == DN_QUEUED && fates[0].packet == 2 && are_77(fates + 1, 2 * sizeof *fates));
}

static struct dn_fate queued = {.at = 9, .flow = 2, .packet = 3, .outcome = DN_QUEUED};
static struct dn_delivery given[2] = {{.due = 9, .packet = 3, .flow = 2, .start = 8},
                                      {.due = 9, .packet = 4, .flow = 2, .start = 9}};
static uint8_t text[200];
static uint64_t text_length;

static void fill_text(void) {
    memset(text, 77, sizeof text);
    text_length = 77;
}

static bool is_text(const char *wanted) {
    size_t length = strlen(wanted);
    bool same = text_length == length && memcmp(text, wanted, length) == 0;
    same = same && are_77(text + length, sizeof text - length);
    fill_text();
    return same;
}

static uint32_t submit_text(uint64_t caller, struct dn_packet packet, struct dn_fate fate) {
    return dn_submit_text(caller, &packet, &fate, text, sizeof text, &text_length);
}

static uint32_t collect_text(uint64_t caller, uint64_t moment, size_t count) {
    return dn_collect_text(caller, moment, UINT64_MAX, given, count, text, sizeof text, &text_length);
}

static void texts_that_are_refused(void) {
    struct dn_packet packet = good(7);
    struct dn_fate fate = queued;
    fill_text();
    HOLDS(submit_text(16, packet, queued) == DN_BAD_CALLER && submit_text(UINT64_MAX, packet, queued) == DN_BAD_CALLER);
    HOLDS(collect_text(16, 7, 2) == DN_BAD_CALLER);
    HOLDS(dn_advance_text(16, 7, 7, text, sizeof text, &text_length) == DN_BAD_CALLER);
    HOLDS(collect_text(0, DN_LAST_MOMENT + 1, 2) == DN_BAD_MOMENT);
    HOLDS(dn_advance_text(0, UINT64_MAX, 7, text, sizeof text, &text_length) == DN_BAD_MOMENT);
#define TOLD(packet) submit_text(0, packet, queued)
    REFUSED_PACKETS(TOLD);
    fate.outcome = 4;
    HOLDS(submit_text(0, packet, fate) == DN_BAD_OUTCOME);
    fate.outcome = UINT32_MAX;
    HOLDS(submit_text(0, packet, fate) == DN_BAD_OUTCOME);
    fate = queued;
    fate.reserved = 1;
    HOLDS(submit_text(0, packet, fate) == DN_BAD_RESERVED);
    given[1].reserved = 1;
    HOLDS(collect_text(0, 7, 2) == DN_BAD_RESERVED && text_length == 77 && are_77(text, sizeof text));
    given[1].reserved = 0;
    HOLDS(dn_advance_text(0, 7, 7, text, 26, &text_length) == DN_ROOM && text_length == 27 && are_77(text, sizeof text));
    HOLDS(dn_advance_text(0, 7, 7, text, 27, &text_length) == DN_OK && is_text("c,0,advance,7\nr,advanced,7\n"));
}

static uint32_t line_text(uint64_t caller, const char *line, uint32_t status, size_t room, struct dn_fault *fault) {
    return dn_configure_text(caller, (const uint8_t *)line, strlen(line), status, fault, text, room, &text_length);
}

static void texts_of_lines(void) {
    struct dn_fault fault;
    fill_text();
    memset(&fault, 77, sizeof fault);
    HOLDS(line_text(16, "pipe delete 7", DN_OK, sizeof text, &fault) == DN_BAD_CALLER);
    HOLDS(line_text(0, "pipe delete 7", DN_CLOSED, sizeof text, &fault) == DN_BAD_OUTCOME);
    HOLDS(line_text(0, "pipe delete 7", UINT32_MAX, sizeof text, &fault) == DN_BAD_OUTCOME && text_length == 77);
    HOLDS(line_text(0, "pipe delete 7", DN_OK, 37, &fault) == DN_ROOM && text_length == 38 && are_77(text, sizeof text));
    HOLDS(line_text(0, "pipe delete 7", DN_OK, 38, &fault) == DN_OK && is_text("c,0,configure,pipe delete 7\nr,deleted\n"));
    HOLDS(line_text(0, "# nothing", DN_OK, 0, &fault) == DN_OK && is_text("") && are_77(&fault, sizeof fault));
    HOLDS(line_text(16, "pipe 1 config \xff", DN_CLOSED, sizeof text, &fault) == DN_LINE && fault.word == 0 && fault.kind == DN_NOT_UTF8);
    HOLDS(line_text(16, "pipe 1 config bw 8Mbps", DN_CLOSED, sizeof text, &fault) == DN_LINE && fault.word == 5);
    HOLDS(fault.kind == DN_NOT_A_NUMBER && fault.reserved == 0 && text_length == 77 && are_77(text, sizeof text));
}

static void reasons(void) {
    const struct dn_fault fault = {.word = 1, .kind = DN_UNKNOWN_WORD}, wrong = {.word = 1, .kind = 1, .reserved = 1};
    fill_text();
    HOLDS(dn_reason(DN_LINE, &wrong, text, sizeof text, &text_length) == DN_BAD_RESERVED && text_length == 77);
    HOLDS(dn_reason(DN_LINE, &fault, text, 19, &text_length) == DN_ROOM && text_length == 20 && are_77(text, sizeof text));
    HOLDS(dn_reason(DN_LINE, &fault, text, 20, &text_length) == DN_OK && is_text("word 1: unknown word"));
    HOLDS(dn_reason(UINT32_MAX, &wrong, text, sizeof text, &text_length) == DN_OK && is_text("status 4294967295"));
}

/* Plain rows are read as far as there is room, and a text with others has to fit whole. */
static void rows_and_room(void) {
#define ROW "5,pipe,1,10.0.0.1,10.0.0.2,17,3,4,1000,9"
#define READ(text, room) dn_read_packets((const uint8_t *)(text), strlen(text), packets, room, &count, &used, &row, &field)
    struct dn_packet packets[2];
    uint64_t count, used = 7, row = 7, field = 7;
    memset(packets, 77, sizeof packets);
    HOLDS(READ(ROW "\n" ROW "\n", 0) == DN_ROOM && count == 2);
    HOLDS(READ(ROW "\r" ROW "\r" ROW "\r", 2) == DN_ROOM && count == 3 && row == 7);
    HOLDS(READ("x" ROW "\n", 2) == DN_BAD_ROW && row == 1 && field == 1 && used == 7 && are_77(packets, sizeof packets));
    HOLDS(READ(ROW "\n" ROW "\n", 1) == DN_OK && count == 1 && used == sizeof ROW && are_77(packets + 1, sizeof *packets));
}

/* A list a place too short: none is written, and all sizes are told. */
static void histories_and_room(void) {
    static const char TEXT[] = DN_HISTORY_FRONT "c,1,configure,pipe 1 config\nr,configured\nc,2,collect,7\nr,delivered,7,1\nd,0,0,1,2\n"
                                                "c,2,show\nr,status,1\nf,0,pipe,1,1,0.0.0.0,0.0.0.0,0,0,0,0.0.0.0,0.0.0.0,0,0,0,1,2,3,4,5,6\n"
                                                "end,3\n";
#define READ_HISTORY(text, one, two, three, four) \
    dn_read_history((const uint8_t *)(text), strlen(text), entries, one, lines, two, &delivery, three, &flow, four, &sizes, &record)
    struct dn_entry entries[3];
    struct dn_delivery delivery;
    struct dn_flow flow;
    struct dn_history sizes;
    uint8_t lines[13];
    uint64_t record = 77;
    memset(entries, 77, sizeof entries), memset(lines, 77, sizeof lines);
    memset(&delivery, 77, sizeof delivery), memset(&flow, 77, sizeof flow);
    HOLDS(READ_HISTORY(TEXT, 2, 13, 1, 1) == DN_ROOM && READ_HISTORY(TEXT, 3, 12, 1, 1) == DN_ROOM);
    HOLDS(READ_HISTORY(TEXT, 3, 13, 0, 1) == DN_ROOM && READ_HISTORY(TEXT, 3, 13, 1, 0) == DN_ROOM);
    HOLDS(sizes.entries == 3 && sizes.bytes == 13 && sizes.deliveries == 1 && sizes.flows == 1 && sizes.rule == DN_ORDERED);
    HOLDS(record == 77 && READ_HISTORY(TEXT + 1, 3, 13, 1, 1) == DN_BAD_RECORD && record == 1);
    HOLDS(are_77(entries, sizeof entries) && are_77(lines, sizeof lines) && are_77(&delivery, sizeof delivery) && are_77(&flow, sizeof flow));
    HOLDS(READ_HISTORY(TEXT, 3, 13, 1, 1) == DN_OK && entries[1].call == DN_COLLECT && entries[2].reply == DN_FLOWS);
    HOLDS(memcmp(lines, "pipe 1 config", sizeof lines) == 0 && delivery.due == 2 && flow.discarded == 6);
}

static uint32_t fed(struct dn_audit *audit, const char *part) { return dn_audit_feed(audit, (const uint8_t *)part, strlen(part)); }

/* An audit that has ended is closed, whatever ended it. */
static void audits_that_end(void) {
    struct dn_audit audit = {0};
    struct dn_verdict verdict;
    uint64_t record;
    memset(&verdict, 77, sizeof verdict);
    memset(&record, 77, sizeof record);
    HOLDS(dn_audit_close(&audit) == DN_CLOSED && fed(&audit, "") == DN_CLOSED);
    HOLDS(dn_audit_finish(&audit, &verdict, &record) == DN_CLOSED && are_77(&record, sizeof record));
    HOLDS(dn_audit_open(&audit, 5) == DN_OK && fed(&audit, "12345") == DN_OK && fed(&audit, "") == DN_OK && audit.open);
    HOLDS(fed(&audit, "6") == DN_TOO_LONG && audit.at == NULL && !audit.open && dn_audit_close(&audit) == DN_CLOSED);
    HOLDS(dn_audit_open(&audit, 0) == DN_OK && fed(&audit, "") == DN_OK);
    HOLDS(dn_audit_finish(&audit, &verdict, &record) == DN_BAD_RECORD && record == 1 && !audit.open);
    HOLDS(are_77(&verdict, sizeof verdict));
    HOLDS(dn_audit_open(&audit, SIZE_MAX) == DN_OK && fed(&audit, "dummynet-hist") == DN_OK);
    HOLDS(dn_audit_open_with_key(&audit, DN_HISTORY_LIMIT, UINT64_MAX, 7) == DN_OK); /* lets go of what was open */
    HOLDS(fed(&audit, DN_HISTORY_FRONT "c,0,advance,5\nr,advanced,5\nc,9,advance,4\nr,advanced,4\nend,2\n") == DN_OK);
    HOLDS(dn_audit_finish(&audit, &verdict, &record) == DN_OK && record == 1 && audit.at == NULL && !audit.open);
    HOLDS(verdict.entries == 2 && verdict.finding == DN_DIFFERS && verdict.first == 1 && verdict.reserved == 0);
    HOLDS(dn_audit_open(&audit, DN_HISTORY_LIMIT) == DN_OK && fed(&audit, DN_HISTORY_FRONT "end,0\n") == DN_OK);
    HOLDS(dn_audit_finish(&audit, &verdict, &record) == DN_OK && record == 1 && verdict.entries == 0);
    HOLDS(verdict.finding == DN_LAWFUL && verdict.first == 0 && verdict.reserved == 0);
    HOLDS(dn_audit_open(&audit, 100) == DN_OK && fed(&audit, "x") == DN_OK && dn_audit_close(&audit) == DN_OK && !audit.open);
}

int main(void) {
    struct dn_handle handle = {0};
    uint64_t at;
    HOLDS(dn_version() == DN_VERSION);
    every_call_of_a_closed_handle();
    HOLDS(dn_open(&handle, DN_ORDERED) == DN_OK && handle.open);
    packets_out_of_range(&handle);
    moments_and_rules_out_of_range(&handle);
    HOLDS(dn_advance(&handle, 0, &at) == DN_OK && at == 0); /* nothing of all that moved the clock */
    lists_that_are_too_short(&handle);
    packets_up_to_a_bad_one(&handle);
    HOLDS(dn_open(&handle, DN_FREE) == DN_OK); /* lets go of what was open */
    HOLDS(dn_close(&handle) == DN_OK && dn_close(&handle) == DN_CLOSED);
    texts_that_are_refused();
    texts_of_lines();
    reasons();
    rows_and_room();
    histories_and_room();
    audits_that_end();
    return told();
}
