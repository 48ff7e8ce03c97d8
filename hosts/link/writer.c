#define _GNU_SOURCE
#include "writer.h"

#include <errno.h>
#include <hingetulip.h>
#include <inttypes.h>
#include <stdio.h>
#include <string.h>
#include <unistd.h>

#include "basics.h"

/* The first line of a transcript. It allows remarks between entries, and says that links keep the order of their packets. */
#define FIRST_LINE "dummynet-live,1\n"

struct writer {
    int file;
    unsigned char *records; /* the records that have no lines yet, of which the last may be incomplete */
    size_t held;            /* bytes of these records */
    size_t room;            /* bytes of records for which there is room */
    uint8_t *lines;         /* the lines that aren't written yet */
    size_t line_size;       /* bytes of these lines */
    size_t line_room;       /* bytes of lines for which there is room */
    uint64_t entries;       /* the number of entries so far */
};

/* Makes the lines of a record behind the other lines, and returns the library's status, or DN_ROOM if there is no room for them. The
   library makes no line for a configuration line without words, since it counts as no call. */
static uint32_t make_lines(struct writer *writer, const struct record *record, uint64_t *length) {
    const void *body = record->body;
    const struct dn_packet *packet = body;
    const uint64_t *number = body;
    const void *rest = number + 1;
    size_t rest_size = record->size - sizeof *number;
    uint8_t *lines = writer->lines + writer->line_size;
    size_t room = writer->line_room - writer->line_size;
    char *text = (char *)lines;
    struct dn_fault none; /* a configuration line that is kept has a status without a fault */
    switch (record->kind) {
    case SUBMIT: return dn_submit_text(0, packet, (const void *)(packet + 1), lines, room, length);
    case COLLECT: return dn_collect_text(0, *number, *number, rest, rest_size / sizeof(struct dn_delivery), lines, room, length);
    case ADVANCE: return dn_advance_text(0, number[0], number[1], lines, room, length);
    case CONFIGURE: return dn_configure_text(0, rest, rest_size, (uint32_t)*number, &none, lines, room, length);
    case CONTENT: *length = (uint64_t)snprintf(text, room, "#,content,%016" PRIx64 "\n", *number); break;
    case REMARK: *length = (uint64_t)snprintf(text, room, "%.*s", (int)record->size, (const char *)body); break;
    default: *length = (uint64_t)snprintf(text, room, "end,%" PRIu64 "\n", writer->entries);
    }
    return *length < room ? DN_OK : DN_ROOM;
}

/* Adds the lines of a record, and returns their bytes. */
static uint64_t add_lines(struct writer *writer, const struct record *record) {
    uint64_t length;
    uint32_t status = make_lines(writer, record, &length);
    while (status == DN_ROOM) {
        writer->line_room = writer->line_size + 2 * length;
        writer->lines = reallocate(writer->lines, writer->line_room);
        status = make_lines(writer, record, &length);
    }
    if (status != DN_OK) fail("the transcript", "out of memory");
    if (record->kind <= CONFIGURE && length > 0) writer->entries++;
    writer->line_size += length;
    return length;
}

/* Returns the bytes of the record at a place, or of the head alone if the whole head hasn't come yet. */
static size_t size_at(const struct writer *writer, size_t at) {
    const struct record *record = (const void *)(writer->records + at);
    return writer->held - at < sizeof *record ? sizeof *record : whole_size(record->size);
}

/* Adds the lines of all complete records, and returns by how many bytes the lines are shorter than they can be. Then makes room for the
   next record. */
static uint64_t take_records(struct writer *writer) {
    size_t at = 0;
    size_t size = size_at(writer, at);
    uint64_t spared = 0;
    while (size <= writer->held - at) {
        spared += TIMES * size - add_lines(writer, (const void *)(writer->records + at));
        at += size;
        size = size_at(writer, at);
    }
    writer->held -= at;
    memmove(writer->records, writer->records + at, writer->held);
    if (size > writer->room) {
        writer->records = reallocate(writer->records, size);
        writer->room = size;
    }
    return spared;
}

static void write_lines(struct writer *writer, const char *path) {
    size_t at = 0;
    while (at < writer->line_size) {
        ssize_t len = write(writer->file, writer->lines + at, writer->line_size - at);
        if (len < 0) fail(path, strerror(errno));
        at += (size_t)len;
    }
    writer->line_size = 0;
}

_Noreturn void write_part(int pipe, int file, const char *path, _Atomic uint64_t *spared) {
    struct writer writer = {.file = file, .room = 1 << 16, .line_size = strlen(FIRST_LINE), .line_room = TIMES << 16};
    writer.records = reallocate(NULL, writer.room);
    writer.lines = reallocate(NULL, writer.line_room);
    memcpy(writer.lines, FIRST_LINE, writer.line_size);
    while (true) {
        ssize_t len = read(pipe, writer.records + writer.held, writer.room - writer.held);
        if (len <= 0) break;
        writer.held += (size_t)len;
        *spared += take_records(&writer);
        write_lines(&writer, path);
    }
    write_lines(&writer, path);
    _exit(0);
}
