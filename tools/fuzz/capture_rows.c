/* A capture as hinge-packets reads it: whatever its bytes are, it is refused or its packets have rows in order of time. The first byte says
   how a card cuts segments, and which flows have a target. */
#include <setjmp.h>
#include <stdlib.h>
#include <string.h>

#include "../../hosts/packets/dissect.h"
#include "../../hosts/packets/meetings.h"
#include "../../hosts/packets/rows.h"

enum { MTU = 256, SLOW = 1000000, MOST_FRAMES = 1024 };

static jmp_buf refusal;

_Noreturn void leave_the_host(int status) {
    if (status != FAULT) abort();
    longjmp(refusal, status);
}

static struct capture opened(const uint8_t *given, size_t size) {
    struct capture made = {.input = {.descriptor = -1, .bytes = malloc(size + 1), .end = size, .room = size}};
    memcpy(made.input.bytes, given, size);
    return made;
}

/* Each frame where nothing lies behind it, so that a read beyond its end is seen. */
static void look_at_frames(struct capture *capture) {
    struct raw raw;
    begin_capture(capture);
    while (next_frame(capture, &raw)) {
        uint8_t *alone = malloc(raw.bytes.len ? raw.bytes.len : 1);
        struct packet packet;
        memcpy(alone, raw.bytes.at, raw.bytes.len);
        if (dissect(raw.link, (struct bytes){alone, raw.bytes.len}, &packet) > 0 && packet.begin > raw.bytes.len) abort();
        free(alone);
    }
}

static void write_frames(struct capture *capture, struct frames *frames, uint8_t how) {
    static uint32_t targets[MOST_FRAMES], replaced[2 * MOST_FRAMES];
    static struct meeting meetings[MOST_FRAMES];
    struct plan plan = {.out = -1, .index = -1, .mtu = how & 1 ? MTU : 0, .rate = how & 2 ? SLOW : 0, .link_bytes = how & 4, .seed = how};
    bool of_frames = how & 8;
    read_frames(capture, frames);
    for (size_t i = 1; i < frames->count; i++)
        if (frames->items[i - 1].time > frames->items[i].time) abort();
    if (frames->count > MOST_FRAMES || frames->count > frames->captured || frames->flows.count > frames->count) abort();
    for (size_t i = 0; i < frames->count; i++) targets[i] = how & 16 && i % 3 == 0 ? 0 : i % 5 * QUEUES / 4 + 1;
    struct counts counts = write_rows(frames, &plan, (struct targets){targets, of_frames}, replaced);
    uint64_t least = frames->count - counts.unmapped;
    if (counts.rows < least || (!counts.split && counts.rows != least)) abort();
    if (counts.stand_ins > frames->addresses.count) abort();
    size_t met = find_meetings(frames, targets, meetings);
    if (met > frames->flows.count / 2) abort();
    for (size_t i = 0; i < met; i++)
        if (!meetings[i].target || meetings[i].first == meetings[i].second || meetings[i].first >= frames->addresses.count) abort();
}

int LLVMFuzzerTestOneInput(const uint8_t *given, size_t size) {
    static struct capture first, second;
    static struct frames frames;
    if (!size) return 0;
    first = opened(given + 1, size - 1);
    second = opened(given + 1, size - 1);
    frames = (struct frames){0};
    if (!setjmp(refusal)) {
        look_at_frames(&first);
        write_frames(&second, &frames, given[0]);
    }
    void *taken[] = {first.input.bytes, second.input.bytes, first.interfaces, second.interfaces, frames.items};
    for (size_t i = 0; i < sizeof taken / sizeof *taken; i++) free(taken[i]);
    free(frames.addresses.items), free(frames.addresses.slots), free(frames.flows.items), free(frames.flows.slots);
    return 0;
}
