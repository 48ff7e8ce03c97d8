/* Refuses each growth of a run in turn: the call is answered DN_MEMORY and made again, and then no answer differs from those of
   the run in which none was refused. It is linked with tools/gate/refused_growths.c, which refuses. */
#include "hingetulip_service.h"
#include "refusals.h"

static int broken; /* packets for which there was room, and memory was refused */

static const char *const LINES[] = {"pipe 1 config bw 8Mbit/s delay 2 queue 20", "pipe 2 config bw 1Mbit/s delay 5",
                                    "queue 1 config pipe 2 weight 3 mask dst-port 3", "queue 2 config pipe 2 weight 1",
                                    "pipe 3 config plr 0.2 mask src-ip 0xff"};

/* The text of a line, of a packet and of a collect. */
static void write_texts(const struct dn_packet *packet, const struct dn_fate *fate, const struct dn_delivery *list, uint64_t count) {
    static uint8_t text[1 << 16];
    uint64_t length = 0;
    const uint8_t *line = (const uint8_t *)LINES[packet->number];
    struct dn_fault fault;
    ASKED(dn_configure_text(3, line, strlen(LINES[packet->number]), DN_OK, &fault, text, sizeof text, &length));
    mix(text, length);
    ASKED(dn_submit_text(3, packet, fate, text, sizeof text, &length));
    mix(text, length);
    ASKED(dn_advance_text(3, packet->moment, packet->moment, text, sizeof text, &length));
    mix(text, length);
    ASKED(dn_collect_text(3, packet->moment, packet->moment, list, count, text, sizeof text, &length));
    mix(text, length);
}

/* Rows of a packet file, the second text of which csv's reader reads. */
static void read_rows(void) {
    static const char *const TEXTS[] = {"5,pipe,1,1.2.3.4,5.6.7.8,17,3,4,1000,9\n6,queue,2,1.2.3.4,5.6.7.8,17,3,4,1000,9\n",
                                        "5,pipe,1,1.2.3.4,5.6.7.8,17,3,4,1000,9\r6,queue,2,1.2.3.4,5.6.7.8,17,3,4,1000,9\r"};
    for (int i = 0; i < 2; i++) {
        struct dn_packet packets[2] = {{0}};
        uint64_t told[4] = {0};
        ASKED(dn_read_packets((const uint8_t *)TEXTS[i], strlen(TEXTS[i]), packets, 2, told, told + 1, told + 2, told + 3));
        mix(packets, sizeof packets);
        mix(told, sizeof told);
    }
}

/* Entries of a history, which name items of each list. */
static void read_entries(void) {
    static const char TEXT[] = DN_HISTORY_FRONT "c,1,configure,pipe 1 config bw 8Mbit/s delay 20 queue 9\nr,configured\n"
                                                "c,2,collect,7\nr,delivered,7,2\nd,0,0,1,2\nd,1,0,2,3\nc,2,show\nr,status,1\n"
                                                "f,0,pipe,1,1,0.0.0.0,0.0.0.0,0,0,0,0.0.0.0,0.0.0.0,0,0,0,1,2,3,4,5,6\nend,3\n";
    struct dn_entry entries[3];
    struct dn_delivery deliveries[2];
    struct dn_flow flow;
    struct dn_history history;
    uint8_t lines[64];
    uint64_t record;
    memset(entries, 0, sizeof entries), memset(deliveries, 0, sizeof deliveries), memset(&flow, 0, sizeof flow);
    memset(&history, 0, sizeof history), memset(lines, 0, sizeof lines);
    ASKED(dn_read_history((const uint8_t *)TEXT, sizeof TEXT - 1, entries, 3, lines, sizeof lines, deliveries, 2, &flow, 1, &history, &record));
    mix(entries, sizeof entries), mix(lines, sizeof lines), mix(deliveries, sizeof deliveries), mix(&flow, sizeof flow);
    mix(&history, sizeof history);
}

static void packets_arrive(struct dn_handle *handle) {
    static struct dn_delivery list[512];
    static struct dn_flow flows[512];
    uint32_t random = 1;
    uint64_t moment = 0, count;
    for (int i = 0; i < 300; i++) {
        random = random * 1664525 + 1013904223;
        moment += random % 400000;
        struct dn_packet packet = drawn(moment, random);
        struct dn_fate fate = {9, 9, 9, 9, 9};
        uint32_t room = DN_NEW_FLOW;
        if (i % 2 == 0) ASKED(room = dn_reserve(handle, &packet));
        int before = refused;
        ASKED(dn_submit(handle, &packet, &fate));
        broken += room == DN_OK && refused != before;
        mix(&fate, sizeof fate);
        if (i % 3 == 0) {
            ASKED(dn_collect(handle, moment, list, 512, &count));
            mix(list, count * sizeof *list);
            write_texts(&packet, &fate, list, count);
            if (i % 30 == 0) read_rows();
        }
        if (i % 50 == 0) {
            ASKED(dn_show(handle, flows, 512, &count));
            mix(flows, count * sizeof *flows);
        }
    }
    ASKED(dn_collect(handle, moment + 100000000000u, list, 512, &count));
    mix(list, count * sizeof *list);
}

static void run(void) {
    struct dn_handle handle = {0};
    struct dn_fault fault = {0, 0, 0};
    begin_run();
    ASKED(dn_open_with_key(&handle, DN_ORDERED, 1, 2));
    for (size_t i = 0; i < sizeof LINES / sizeof *LINES; i++) ASKED(dn_configure(&handle, (const uint8_t *)LINES[i], strlen(LINES[i]), &fault));
    packets_arrive(&handle);
    read_entries();
    ASKED(dn_close(&handle));
}

static bool is_right(void) { return refused <= 1 && broken == 0; }

int main(void) { return refuse_each(run, is_right); }
