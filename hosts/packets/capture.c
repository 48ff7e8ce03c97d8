#include "capture.h"

#include <string.h>
#include <unistd.h>

#define SECOND 1000000000
#define MOST_TICKS ((nanoseconds)1 << 100) /* in a second; more than any time of 64 bits has ns */
#define SECTION 0x0a0d0d0aU
#define BYTE_ORDER_MAGIC 0x1a2b3c4dU
#define LONGEST (UINT32_C(1) << 28) /* of a block or a frame that is taken for one */

enum { KIND = 4, HEAD = 8, FILE_HEADER = 20, RECORD = 16, PACKET_HEAD = 20, SHORTEST_BLOCK = 12 }; /* bytes */
enum { PART = 1 << 20, MICROSECONDS = 1000 };
enum { INTERFACE = 1, OLD_PACKET = 2, SIMPLE_PACKET = 3, PACKET = 6 };
enum { END_OF_OPTIONS = 0, TIME_RESOLUTION = 9, TIME_OFFSET = 14 };
static const uint32_t of_us = 0xa1b2c3d4, of_ns = 0xa1b23c4d, of_kuznetzov = 0xa1b2cd34; /* the last has 8 bytes more in each record */

static _Noreturn void refuse_block(void) { refuse("a block of the capture isn't valid"); }

static uint32_t number(const uint8_t *at, size_t size, bool is_big) {
    uint32_t made = 0;
    for (size_t i = 0; i < size; i++) made = made << 8 | at[is_big ? i : size - 1 - i];
    return made;
}

static uint32_t four(const struct capture *capture, const uint8_t *at) { return number(at, 4, capture->is_big); }

/* How many of so many bytes there are. Memory is taken for them as they come. */
static size_t available(struct input *input, size_t size) {
    while (input->end - input->at < size && input->descriptor >= 0) {
        if (input->at) memmove(input->bytes, input->bytes + input->at, input->end - input->at);
        input->end -= input->at;
        input->at = 0;
        if (input->end == input->room) input->bytes = grown(input->bytes, input->room = input->room ? 2 * input->room : PART);
        ssize_t count = read(input->descriptor, input->bytes + input->end, input->room - input->end);
        if (count < 0) refused(UNREAD);
        if (count == 0) break;
        input->end += (size_t)count;
    }
    return input->end - input->at < size ? input->end - input->at : size;
}

/* So many bytes, NULL where the capture is cut before their end. */
static const uint8_t *whole(struct capture *capture, size_t size) {
    struct input *input = &capture->input;
    capture->is_cut = available(input, size) < size;
    if (capture->is_cut) return NULL;
    input->at += size;
    return input->bytes + input->at - size;
}

/* The bytes with which the next frame or block begins, NULL at the end. */
static const uint8_t *head(struct capture *capture, size_t size) { return available(&capture->input, size) ? whole(capture, size) : NULL; }

/* What a block of so many bytes contains behind its kind and length, without the length at its end. */
static bool read_body(struct capture *capture, uint32_t length, struct bytes *body) {
    if (length < SHORTEST_BLOCK || length > LONGEST) refuse_block();
    *body = (struct bytes){whole(capture, length - HEAD + (-length & 3)), length - SHORTEST_BLOCK};
    return body->at;
}

/* A section of a pcapng file, behind its kind and its length, which is in the byte order that it tells itself. */
static bool begin_section(struct capture *capture, uint32_t length_if_big) {
    const uint8_t *magic = whole(capture, 4);
    struct bytes body;
    if (!magic) return false;
    capture->is_big = number(magic, 4, false) != BYTE_ORDER_MAGIC;
    if (four(capture, magic) != BYTE_ORDER_MAGIC) refuse_block();
    capture->count = 0;
    return read_body(capture, (capture->is_big ? length_if_big : __builtin_bswap32(length_if_big)) - 4, &body);
}

static nanoseconds power(int base, int exponent) {
    nanoseconds made = 1;
    while (exponent-- > 0 && made < MOST_TICKS) made *= base;
    return made;
}

static void read_option(const struct capture *capture, struct interface *interface, uint32_t code, struct bytes value) {
    if (code == TIME_RESOLUTION) {
        if (!value.len) refuse_block();
        interface->ticks = power(value.at[0] & 0x80 ? 2 : 10, value.at[0] & 0x7f);
    } else if (code == TIME_OFFSET) {
        if (value.len != 8) refuse_block();
        uint64_t high = four(capture, value.at + (capture->is_big ? 0 : 4)), low = four(capture, value.at + (capture->is_big ? 4 : 0));
        interface->offset = (int64_t)(high << 32 | low);
    }
}

static void add_interface(struct capture *capture, struct bytes body) {
    if (body.len < 8) refuse_block();
    uint32_t most = four(capture, body.at + 4);
    struct interface made = {number(body.at, 2, capture->is_big), most ? most : LONGEST, 1000000, 0};
    for (size_t at = 8; at + 4 <= body.len;) {
        uint32_t code = number(body.at + at, 2, capture->is_big), len = number(body.at + at + 2, 2, capture->is_big);
        size_t rest = body.len - at - 4;
        if (code == END_OF_OPTIONS) break;
        read_option(capture, &made, code, (struct bytes){body.at + at + 4, len < rest ? len : rest});
        at += 4 + len + (-len & 3);
    }
    if (capture->count == capture->room) {
        capture->room = 2 * capture->room + 4;
        capture->interfaces = grown(capture->interfaces, capture->room * sizeof made);
    }
    capture->interfaces[capture->count++] = made;
}

static const struct interface *interface_of(const struct capture *capture, uint32_t number) {
    if (number >= capture->count) refuse_block();
    return &capture->interfaces[number];
}

static void read_simple_packet(const struct capture *capture, struct bytes body, struct raw *frame) {
    const struct interface *of = interface_of(capture, 0);
    if (body.len < 4) refuse_block();
    uint32_t length = four(capture, body.at), most = length < of->most ? length : of->most;
    *frame = (struct raw){0, false, length, of->link, {body.at + 4, most < body.len - 4 ? most : body.len - 4}};
}

static void read_packet(const struct capture *capture, bool is_old, struct bytes body, struct raw *frame) {
    if (body.len < PACKET_HEAD) refuse_block();
    const struct interface *of = interface_of(capture, is_old ? number(body.at, 2, capture->is_big) : four(capture, body.at));
    uint64_t ticks = (uint64_t)four(capture, body.at + 4) << 32 | four(capture, body.at + 8);
    nanoseconds time = (nanoseconds)of->offset * SECOND + (nanoseconds)ticks * SECOND / of->ticks;
    size_t part = four(capture, body.at + 12), rest = body.len - PACKET_HEAD;
    *frame = (struct raw){time, true, four(capture, body.at + 16), of->link, {body.at + PACKET_HEAD, part < rest ? part : rest}};
}

static bool next_of_blocks(struct capture *capture, struct raw *frame) {
    const uint8_t *at;
    struct bytes body;
    while ((at = head(capture, HEAD))) {
        if (number(at, 4, true) == SECTION) {
            if (!begin_section(capture, number(at + 4, 4, true))) return false;
            continue;
        }
        uint32_t kind = four(capture, at);
        if (!read_body(capture, four(capture, at + 4), &body)) return false;
        if (kind == INTERFACE) add_interface(capture, body);
        if (kind == SIMPLE_PACKET) read_simple_packet(capture, body, frame);
        if (kind == PACKET || kind == OLD_PACKET) read_packet(capture, kind == OLD_PACKET, body, frame);
        if (kind == SIMPLE_PACKET || kind == PACKET || kind == OLD_PACKET) return true;
    }
    return false;
}

static bool next_record(struct capture *capture, struct raw *frame) {
    const uint8_t *at = head(capture, RECORD);
    if (!at) return false;
    uint32_t part = four(capture, at + 8);
    nanoseconds fraction = (nanoseconds)four(capture, at + 4) * (capture->kind == of_ns ? 1 : MICROSECONDS);
    *frame = (struct raw){(nanoseconds)four(capture, at) * SECOND + fraction, true, four(capture, at + 12), capture->link, {0}};
    if (part > LONGEST) refuse_block();
    if (capture->kind == of_kuznetzov && !whole(capture, 8)) return false;
    frame->bytes = (struct bytes){whole(capture, part), part};
    return frame->bytes.at;
}

static bool is_pcap(uint32_t kind) { return kind == of_us || kind == of_ns || kind == of_kuznetzov; }

void begin_capture(struct capture *capture) {
    const uint8_t *at = whole(capture, KIND);
    if (!at) return;
    if (number(at, 4, true) == SECTION) {
        if ((at = whole(capture, 4))) begin_section(capture, number(at, 4, true));
        return;
    }
    capture->is_big = !is_pcap(number(at, 4, false));
    capture->kind = four(capture, at);
    if (!is_pcap(capture->kind)) refuse("neither pcap nor pcapng");
    if ((at = whole(capture, FILE_HEADER))) capture->link = four(capture, at + 16) & 0xffff;
}

bool next_frame(struct capture *capture, struct raw *frame) {
    if (capture->is_cut) return false;
    return (capture->kind ? next_record : next_of_blocks)(capture, frame);
}
