/* hinge-packets: the rows of a packet file from a capture, for `hinge packets`, which decides where packets go.

     hinge-packets CAPTURE OUT INDEX MTU RATE BYTES SEED BY_FRAME

   CAPTURE, OUT and INDEX are descriptors: a pcap or pcapng file, the packet file, and an index of frames or -1. MTU, RATE, BYTES and
   SEED are those of rows.h. It reads the capture, and prints a head, the addresses and the flows, and with BY_FRAME 1 the frames. Then
   it reads the targets of the flows, or of the frames, writes the rows, and prints what became of them, the addresses of IPv6 that
   were replaced, and without BY_FRAME the hosts that meet. All that is binary, in the byte order of the machine. tools/release/hosts
   builds it. */
#include <signal.h>
#include <stdlib.h>
#include <string.h>
#include <unistd.h>

#include "columns.h"
#include "meetings.h"
#include "rows.h"

static void tell(const struct capture *capture, const struct frames *frames, bool by_frame) {
    const uint64_t head[] = {frames->captured, frames->count, frames->long_ones, capture->is_cut, frames->addresses.count, frames->flows.count};
    answer(head, sizeof head);
    answer_table(&frames->addresses);
    answer_table(&frames->flows);
    if (by_frame) answer(frames->items, frames->count * sizeof *frames->items);
}

/* The targets that `hinge packets` names; the program ends where it doesn't, or names none that there is. */
static uint32_t *read_targets(size_t count) {
    uint32_t *made = zeroed(count, sizeof *made);
    for (size_t done = 0, size = count * sizeof *made; done < size;) {
        ssize_t got = read(STDIN_FILENO, (char *)made + done, size - done);
        if (got <= 0) exit(USAGE);
        done += (size_t)got;
    }
    for (size_t i = 0; i < count; i++)
        if (made[i] >= DIRECTIONS) exit(USAGE);
    return made;
}

/* A number; -1 is the greatest. */
static uint64_t number(const char *word) {
    char *end;
    uint64_t made = strtoull(word, &end, 10);
    if (end == word || *end) exit(USAGE);
    return made;
}

int main(int count, char **words) {
    signal(SIGPIPE, SIG_IGN);
    signal(SIGXFSZ, SIG_IGN);
    if (count > 2 && strcmp(words[1], "columns") == 0) {
        answer_file(words + 2, count - 2);
        return 0;
    }
    if (count != 9) return USAGE;
    struct capture capture = {.input = {.descriptor = (int)number(words[1])}};
    struct plan plan = {
        .out = (int)number(words[2]),
        .index = (int)number(words[3]),
        .mtu = (uint32_t)number(words[4]),
        .rate = number(words[5]),
        .link_bytes = (uint32_t)number(words[6]),
        .seed = number(words[7]),
    };
    bool by_frame = strcmp(words[8], "1") == 0;
    struct frames frames;
    read_frames(&capture, &frames);
    tell(&capture, &frames, by_frame);
    struct targets targets = {read_targets(by_frame ? frames.count : frames.flows.count), by_frame};
    uint32_t *replaced = zeroed(frames.addresses.count, sizeof *replaced);
    struct counts counts = write_rows(&frames, &plan, targets, replaced);
    struct meeting *meetings = zeroed(by_frame ? 0 : frames.flows.count, sizeof *meetings);
    if (!by_frame) counts.meetings = find_meetings(&frames, targets.items, meetings);
    answer(&counts, sizeof counts);
    answer(replaced, counts.stand_ins * sizeof *replaced);
    answer(meetings, counts.meetings * sizeof *meetings);
    return 0;
}
