#include "rows.h"

#include <stdlib.h>
#include <string.h>
#include <unistd.h>

#include "dissect.h"

#define LAST_MOMENT ((nanoseconds)1 << 62)
#define HEADER "moment,target,number,src,dst,proto,sport,dport,len,word\n"
#define BITS_NS UINT64_C(8000000000)
#define FIRST_STAND_IN UINT32_C(0xf0000001) /* 240.0.0.1 */
enum { LONGEST_PACKET = 65535, LONGEST_ROW = 160, BUFFER = 1 << 16 };
enum { ETHERNET_BYTES = 38 }; /* preamble, header, check sequence and gap */

/* A text that is written in parts; one without a descriptor isn't. */
struct text {
    int descriptor;
    size_t len;
    uint64_t written;
    char bytes[BUFFER];
};

/* What is left of a segment: its frame's place, when its next packet is sent, and the bytes that it is still to carry. */
struct segment {
    nanoseconds moment;
    size_t place;
    uint32_t left;
};

/* What is known of an address: until when the card of this sender sends a segment, and what stands for it, 0 for nothing yet. */
struct host {
    nanoseconds busy;
    uint32_t stand_in;
};

/* What is at work while rows are written. */
struct writer {
    const struct frames *frames;
    const struct plan *plan;
    struct targets targets;
    struct text out, index;
    struct counts counts;
    uint64_t drawn[DIRECTIONS]; /* words of each direction */
    struct host *hosts;         /* by the numbers of addresses */
    uint32_t *replaced;
    struct segment *waiting; /* a heap, whose first is the one whose packet comes next */
    size_t count, room;
};

void write_all(int descriptor, const void *bytes, size_t size) {
    for (size_t done = 0; done < size;) {
        ssize_t count = write(descriptor, (const char *)bytes + done, size - done);
        if (count < 0) refused(UNWRITTEN);
        done += (size_t)count;
    }
}

static void flush(struct text *text) {
    if (text->descriptor >= 0) write_all(text->descriptor, text->bytes, text->len);
    text->written += text->len;
    text->len = 0;
}

static void put(struct text *text, const char *letters, size_t len) {
    memcpy(text->bytes + text->len, letters, len);
    text->len += len;
}

/* Puts a number and the letter behind it. */
static void put_number(struct text *text, uint64_t number, char behind) {
    char letters[24], *at = letters + sizeof letters;
    *--at = behind;
    do *--at = (char)('0' + number % 10);
    while (number /= 10);
    put(text, at, (size_t)(letters + sizeof letters - at));
}

/* The word of a packet by splitmix64 of the seed, its direction and its number there, so that each can be made alone. */
static uint32_t word(uint64_t seed, uint64_t number, uint64_t direction) {
    uint64_t z = seed * 0x9e3779b97f4a7c15 + number * 0xd1b54a32d192ed03 + (direction - 1) * 0x8cb92ba72f3d8dd7;
    z = (z ^ z >> 30) * 0xbf58476d1ce4e5b9;
    z = (z ^ z >> 27) * 0x94d049bb133111eb;
    return (uint32_t)(z ^ z >> 31) & 0x7fffffff;
}

static void put_address(struct writer *writer, uint32_t number) {
    const struct address *address = item_of(&writer->frames->addresses, number);
    uint8_t four[4];
    memcpy(four, address->bytes + ADDRESS - 4, 4);
    if (address->is_six) {
        uint32_t *stand_in = &writer->hosts[number].stand_in;
        if (!*stand_in) {
            writer->replaced[writer->counts.stand_ins] = number;
            *stand_in = FIRST_STAND_IN + (uint32_t)writer->counts.stand_ins++;
        }
        for (int i = 0; i < 4; i++) four[i] = (uint8_t)(*stand_in >> (24 - 8 * i));
    }
    for (int i = 0; i < 4; i++) put_number(&writer->out, four[i], i < 3 ? '.' : ',');
}

static uint32_t target_of(const struct writer *writer, size_t place) {
    return writer->targets.items[writer->targets.of_frames ? place : writer->frames->items[place].flow];
}

static _Noreturn void refuse_moment(unsigned long long number, nanoseconds moment) {
    refuse("frame %llu of the capture comes %s ns after the first packet, later than 2^62 ns, the last moment of a packet file: its time "
           "is wrong, or that of the first",
           number, grouped(moment));
}

/* Writes the next row, a packet of the frame at a place. */
static void put_row(struct writer *writer, size_t place, nanoseconds moment, uint32_t length) {
    const struct frame *frame = &writer->frames->items[place];
    const struct flow *flow = item_of(&writer->frames->flows, frame->flow);
    uint32_t target = target_of(writer, place), on_link = length + writer->plan->link_bytes;
    struct text *out = &writer->out;
    if (moment > LAST_MOMENT) refuse_moment(frame->number, moment);
    if (out->len + LONGEST_ROW > BUFFER) flush(out);
    if (writer->index.len + LONGEST_ROW > BUFFER) flush(&writer->index);
    put_number(out, (uint64_t)moment, ',');
    put(out, target < QUEUES ? "pipe," : "queue,", target < QUEUES ? strlen("pipe,") : strlen("queue,"));
    put_number(out, target % QUEUES, ',');
    put_address(writer, flow->src);
    put_address(writer, flow->dst);
    put_number(out, flow->proto, ',');
    put_number(out, flow->sport, ',');
    put_number(out, flow->dport, ',');
    put_number(out, on_link < LONGEST_PACKET ? on_link : LONGEST_PACKET, ',');
    put_number(out, word(writer->plan->seed, ++writer->drawn[target], target), '\n');
    writer->counts.rows++;
    if (writer->index.descriptor >= 0) {
        put_number(&writer->index, writer->counts.rows, ',');
        put_number(&writer->index, frame->number, '\n');
    }
    writer->counts.cut += on_link > LONGEST_PACKET;
}

static bool is_cut(const struct writer *writer, const struct frame *frame) { return frame->length > writer->plan->mtu; }

/* The ns that a packet takes on the wire, with what Ethernet adds to it. */
static nanoseconds takes(const struct writer *writer, uint32_t length) {
    return writer->plan->rate ? ((length + ETHERNET_BYTES) * BITS_NS - 1) / writer->plan->rate + 1 : 0;
}

static bool is_before(const struct segment *one, const struct segment *other) {
    return one->moment != other->moment ? one->moment < other->moment : one->place < other->place;
}

static void sift_up(struct segment *heap, size_t at, struct segment segment) {
    for (size_t above; at > 0 && is_before(&segment, &heap[above = (at - 1) / 2]); at = above) heap[at] = heap[above];
    heap[at] = segment;
}

static void sift_down(struct segment *heap, size_t count, struct segment segment) {
    size_t at = 0;
    for (size_t below; (below = 2 * at + 1) < count; at = below) {
        if (below + 1 < count && is_before(&heap[below + 1], &heap[below])) below++;
        if (!is_before(&heap[below], &segment)) break;
        heap[at] = heap[below];
    }
    heap[at] = segment;
}

/* Takes the segment at a place, which comes at a moment. A card is busy with one that it cuts until its last packet was sent. */
static void add_segment(struct writer *writer, size_t place, nanoseconds moment) {
    const struct frame *frame = &writer->frames->items[place];
    const struct flow *flow = item_of(&writer->frames->flows, frame->flow);
    nanoseconds *busy = &writer->hosts[flow->src].busy;
    struct segment segment = {*busy > moment ? *busy : moment, place, frame->length};
    if (is_cut(writer, frame)) {
        segment.left -= frame->headers;
        uint32_t room = writer->plan->mtu - frame->headers, rest = segment.left % room;
        nanoseconds last = rest ? takes(writer, rest + frame->headers) : 0;
        *busy = segment.moment + segment.left / room * takes(writer, writer->plan->mtu) + last;
        writer->counts.split++;
    }
    if (writer->count == writer->room) {
        writer->room = 2 * writer->room + 16;
        writer->waiting = grown(writer->waiting, writer->room * sizeof segment);
    }
    sift_up(writer->waiting, writer->count++, segment);
}

/* Puts the packet that comes next. */
static void put_next(struct writer *writer) {
    struct segment segment = writer->waiting[0];
    const struct frame *frame = &writer->frames->items[segment.place];
    uint32_t headers = is_cut(writer, frame) ? frame->headers : 0, room = writer->plan->mtu - headers;
    uint32_t part = segment.left < room ? segment.left : room;
    put_row(writer, segment.place, segment.moment, part + headers);
    segment.moment += takes(writer, part + headers);
    segment.left -= part;
    if (!segment.left) segment = writer->waiting[--writer->count];
    if (writer->count) sift_down(writer->waiting, writer->count, segment);
}

static void put_all(struct writer *writer) {
    const struct frames *frames = writer->frames;
    for (size_t i = 0; i < frames->count; i++) {
        nanoseconds moment = frames->items[i].time - frames->items[0].time;
        bool has_target = target_of(writer, i);
        writer->counts.unmapped += !has_target;
        if (has_target && !writer->plan->mtu) put_row(writer, i, moment, frames->items[i].length);
        if (!has_target || !writer->plan->mtu) continue;
        while (writer->count && writer->waiting[0].moment <= moment) put_next(writer);
        add_segment(writer, i, moment);
    }
    while (writer->count) put_next(writer);
}

struct counts write_rows(const struct frames *frames, const struct plan *plan, struct targets targets, uint32_t *replaced) {
    struct writer *writer = zeroed(1, sizeof *writer);
    writer->frames = frames;
    writer->plan = plan;
    writer->targets = targets;
    writer->hosts = zeroed(frames->addresses.count, sizeof *writer->hosts);
    writer->replaced = replaced;
    writer->out.descriptor = plan->out;
    writer->index.descriptor = plan->index;
    put(&writer->out, HEADER, strlen(HEADER));
    put(&writer->index, "row,frame\n", strlen("row,frame\n"));
    put_all(writer);
    flush(&writer->out);
    flush(&writer->index);
    struct counts counts = writer->counts;
    counts.bytes = writer->out.written - strlen(HEADER);
    free(writer->waiting);
    free(writer->hosts);
    free(writer);
    return counts;
}
