#include <stdio.h>
#include <stdlib.h>

#include "columns.h"

enum { NONE, FULL, LOST, HELD, OUT };
enum { AT, START, DUE, PACKET, LENGTH, FLOW, TARGET, TUPLE, WORD, EVENT, SUBMITTED, HANDED, CONTENT, LINE, LAST, FLOODED, COLUMNS };
enum { WIDTH_OF_CONTENT = 16, HEXADECIMAL = 16 };

/* Text that grows. */
struct text {
    char *bytes;
    size_t size, room;
};

/* What is known of a history so far. A fault is told at its end, since one of calls and replies that don't alternate is told first. */
struct history {
    struct lines *lines;
    bool is_net;
    struct columns columns;
    struct table targets, tuples;
    struct waiting waiting;
    struct text changes, remarks;
    uint64_t records, bad_line, unknown_line, last_line;
    int64_t unknown, clock, first_submit;
    size_t *queued, count, room;     /* the rows of packets, in the order of their numbers */
    bool is_call, is_submit, is_end; /* the last record */
    struct row row;                  /* of the last submit */
    uint64_t row_line;
    int64_t row_content, row_last, row_flooded;
    struct text change;
    int64_t content, last, flooded; /* of the remarks before a call */
};

static void append(struct text *text, const char *begin, size_t size) {
    if (!size) return; /* of which there may be no place yet */
    if (text->size + size > text->room) text->bytes = grown(text->bytes, text->room = 2 * (text->size + size));
    memcpy(text->bytes + text->size, begin, size);
    text->size += size;
}

static void note_bad(struct history *history, uint64_t line) {
    if (!history->bad_line) history->bad_line = line;
}

/* The place behind so many commas, NULL where the line has fewer. */
static const char *field(const char *at, int commas) {
    for (; commas; at++) {
        if (*at == '\n') return NULL;
        commas -= *at == ',';
    }
    return at;
}

/* Reads some numbers, which commas part, up to the end of the line. */
static bool read_numbers(const char *at, int64_t *numbers, size_t count) {
    for (size_t i = 0; at && i < count; i++) {
        at = read_number(at, false, &numbers[i]);
        if (at && i + 1 < count) at = behind(at, ",");
    }
    return at && *at == '\n';
}

/* ---- remarks ---- */

static void note_remark(struct history *history, const char *line, const char *end) {
    static const char *const told[] = {"address", "seed",   "late",  "corrupt", "host",     "switch", "outside",
                                       "pipe",    "copies", "model", "refused", "rejected", "routes"};
    enum { OF_HISTORIES = 4 };
    const char *content = behind(line, "#,content,");
    if (content && end - content == WIDTH_OF_CONTENT) {
        char digits[WIDTH_OF_CONTENT + 1] = {0};
        memcpy(digits, content, WIDTH_OF_CONTENT);
        history->content = (int64_t)strtoull(digits, NULL, HEXADECIMAL);
        return;
    }
    history->content = 0;
    history->last = behind(line, "#,last\n") != NULL;
    history->flooded = behind(line, "#,flooded\n") != NULL;
    for (size_t i = 0; i < (history->is_net ? sizeof told / sizeof *told : OF_HISTORIES); i++) {
        const char *at = behind(line, "#,");
        if (at && (at = behind(at, told[i])) && *at == ',') {
            append(&history->remarks, "\n", 1);
            append(&history->remarks, line, (size_t)(end - line));
        }
    }
}

/* ---- calls, replies and deliveries ---- */

static void take_call(struct history *history, const char *line, const char *end) {
    const char *at = field(line, 2), *submit = at ? behind(at, "submit,") : NULL;
    history->is_submit = submit;
    history->change.size = 0;
    if (at && behind(at, "configure,")) append(&history->change, field(at, 1), (size_t)(end - field(at, 1)));
    if (!submit) return;
    if (history->first_submit < 0) history->first_submit = (int64_t)history->records;
    submit = read_row(submit, &history->row);
    submit = submit ? behind(submit, ",") : NULL;
    history->row_line = submit && submit + strcspn(submit, ",\n") == end ? 0 : history->lines->number;
    history->row_content = history->content;
    history->row_last = history->content ? history->last : 0;
    history->row_flooded = history->content ? history->flooded : 0;
}

/* Adds the row of the last submit, of which the reply told the fate. */
static void add_submit(struct history *history, int64_t event, int64_t at, int64_t flow, int64_t packet) {
    struct columns *columns = &history->columns;
    size_t row = columns->count;
    int64_t numbers[COLUMNS] = {[AT] = at, [START] = -1, [DUE] = -1, [PACKET] = packet, [LENGTH] = history->row.length, [FLOW] = flow};
    numbers[TARGET] = number_of(&history->targets, &history->row.target);
    numbers[WORD] = history->row.word;
    numbers[EVENT] = event;
    numbers[CONTENT] = history->row_content;
    numbers[SUBMITTED] = (int64_t)history->records - 1;
    numbers[HANDED] = -1;
    numbers[LINE] = (int64_t)history->last_line;
    numbers[LAST] = history->row_last;
    numbers[FLOODED] = history->row_flooded;
    add_row(columns);
    for (size_t i = 0; i < columns->kinds; i++) put(columns, i, row, numbers[i]);
    number_later(columns, TUPLE, &history->tuples, &history->waiting, history->row.five_tuple);
    if (event != HELD) return;
    if (history->count == history->room)
        history->queued = grown(history->queued, (history->room = 2 * history->room + WIDTH_OF_CONTENT) * sizeof *history->queued);
    history->queued[history->count++] = row;
}

static int64_t packet_at(const struct history *history, size_t place) {
    return ((const int64_t *)history->columns.items[PACKET])[history->queued[place]];
}

static void take_fate(struct history *history, const char *line) {
    static const struct {
        const char *word;
        int event;
        size_t numbers;
    } fates[] = {{"r,queued,", HELD, 3}, {"r,lost,", LOST, 2}, {"r,full,", FULL, 2}, {"r,no-target,", NONE, 1}};
    for (size_t i = 0; i < sizeof fates / sizeof *fates; i++) {
        const char *at = behind(line, fates[i].word);
        int64_t number[] = {-1, -1, -1};
        if (!at) continue;
        bool is_good = read_numbers(at, number, fates[i].numbers) && number[1] <= INT32_MAX;
        /* packets are numbered in their order */
        if (is_good && number[2] >= 0 && history->count) is_good = number[2] > packet_at(history, history->count - 1);
        if (history->row_line) note_bad(history, history->row_line);
        if (!is_good) break;
        history->clock = number[0];
        if (!history->bad_line) add_submit(history, fates[i].event, number[0], number[1], number[2]);
        return;
    }
    note_bad(history, history->lines->number);
}

static void take_reply(struct history *history, const char *line) {
    if (history->is_submit) {
        take_fate(history, line);
        return;
    }
    if (history->change.size && (behind(line, "r,configured") || behind(line, "r,deleted"))) {
        char head[64];
        int size = snprintf(head, sizeof head, "%lld,%lld,", (long long)history->records - 1, (long long)history->clock);
        append(&history->changes, head, (size_t)size);
        append(&history->changes, history->change.bytes, history->change.size);
        append(&history->changes, "\n", 1);
    }
    const char *at = behind(line, "r,advanced,");
    at = at ? at : behind(line, "r,delivered,");
    int64_t clock;
    if (at && !read_number(at, false, &clock)) note_bad(history, history->lines->number);
    else if (at) history->clock = clock;
}

/* The place of a packet among those that were queued, their count where it is none. */
static size_t place_of(const struct history *history, int64_t packet) {
    size_t low = 0, high = history->count;
    /* nearly always they have all numbers from the first on */
    if (high && packet >= packet_at(history, 0) && (uint64_t)(packet - packet_at(history, 0)) < high) {
        size_t place = (size_t)(packet - packet_at(history, 0));
        if (packet_at(history, place) == packet) return place;
    }
    while (low < high) {
        size_t middle = (low + high) / 2;
        if (packet_at(history, middle) < packet) low = middle + 1;
        else high = middle;
    }
    return low < history->count && packet_at(history, low) == packet ? low : history->count;
}

static void take_delivery(struct history *history, const char *line) {
    int64_t packet, times[2];
    const char *at = read_number(line + 2, false, &packet);
    at = at && *at == ',' ? field(at + 1, 1) : NULL;
    if (!at || !read_numbers(at, times, 2)) {
        note_bad(history, history->lines->number);
        return;
    }
    size_t place = place_of(history, packet);
    if (place == history->count) {
        if (!history->unknown_line) history->unknown_line = history->lines->number, history->unknown = packet;
        return;
    }
    size_t row = history->queued[place];
    put(&history->columns, EVENT, row, OUT);
    put(&history->columns, START, row, times[0]);
    put(&history->columns, DUE, row, times[1]);
    put(&history->columns, HANDED, row, (int64_t)history->records);
}

static void refuse_line(uint64_t line) { refuse(" line %llu: not as a history has it", (unsigned long long)line); }

static void refuse_other(const char *line) {
    if (line && behind(line, "moment,")) refuse(" is a packet file: behind it comes the report that dummynet wrote of it");
    refuse(" line 1: no history of dummynet, and no live session");
}

static void take(struct history *history, const char *line, const char *end) {
    bool is_call = behind(line, "c,") != NULL, is_reply = behind(line, "r,") != NULL;
    if (!history->records && !behind(line, "dummynet-history,") && !behind(line, "dummynet-live,")) refuse_other(line);
    if (is_reply != history->is_call) refuse_line(history->lines->number);
    if (is_call) take_call(history, line, end);
    else if (is_reply) take_reply(history, line);
    else if (behind(line, "d,")) take_delivery(history, line);
    history->is_call = is_call;
    history->is_end = behind(line, "end,");
    history->records++;
    history->last_line = history->lines->number;
    if (!history->change.size) history->content = history->last = history->flooded = 0; /* a rate may be set between a remark and its call */
}

void answer_history(struct lines *lines, bool is_net) {
    struct history history = {.lines = lines, .is_net = is_net, .first_submit = -1, .targets = empty_table(sizeof(uint64_t))};
    history.tuples = empty_table(2 * sizeof(uint64_t));
    history.columns = (struct columns){.kinds = is_net ? COLUMNS : CONTENT, .width = {8, 8, 8, 8, 8, 4, 4, 4, 4, 1, 8, 8, 8, 8, 1, 1}};
    const char *line;
    while ((line = next_line(lines, false))) {
        const char *end = lines->bytes + lines->at - 1;
        if (*line == '#') note_remark(&history, line, end);
        else if (line == end) history.content = history.last = history.flooded = 0;
        else take(&history, line, end);
    }
    size_t rest = lines->end - lines->at;
    if (!history.records) refuse_other(NULL);
    if (history.bad_line) refuse_line(history.bad_line);
    if (history.unknown_line) refuse(" line %llu: no packet %lld was queued", (unsigned long long)history.unknown_line, (long long)history.unknown);
    if (rest) {
        lines->bytes[lines->end] = '\n';
        note_remark(&history, lines->bytes + lines->at, lines->bytes + lines->end);
    }
    number_rest(&history.columns, TUPLE, &history.tuples, &history.waiting);
    const uint64_t head[] = {history.columns.count,          history.targets.count, history.tuples.count,
                             history.changes.size,           history.remarks.size,  history.records,
                             (uint64_t)history.first_submit, history.last_line,     history.is_end && !rest};
    answer(head, sizeof head);
    answer_table(&history.targets);
    answer_table(&history.tuples);
    answer(history.changes.bytes, history.changes.size);
    answer(history.remarks.bytes, history.remarks.size);
    free(history.queued);
    answer_columns(&history.columns);
}
