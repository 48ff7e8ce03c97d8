#include "columns.h"

#include <stdio.h>
#include <stdlib.h>
#include <string.h>
#include <unistd.h>

#include "rows.h"

enum { LEAST_ROOM = 1024, MOST_BYTE = 255, MOST_SHORT = 65535, NUMBERS = 16, QUEUE = 1 };
enum { NONE = -1 };

void add_row(struct columns *columns) {
    if (columns->count == columns->room) {
        columns->room = columns->room ? 2 * columns->room : LEAST_ROOM;
        for (size_t i = 0; i < columns->kinds; i++) columns->items[i] = grown(columns->items[i], columns->room * columns->width[i]);
    }
    columns->count++;
}

void number_later(struct columns *columns, size_t column, struct table *table, struct waiting *waiting, const uint64_t *five_tuple) {
    size_t row = columns->count - 1;
    if (row >= MOST_WAITING) put(columns, column, row - MOST_WAITING, waited(table, waiting, row - MOST_WAITING));
    wait_for(table, waiting, row, five_tuple);
}

void number_rest(struct columns *columns, size_t column, struct table *table, struct waiting *waiting) {
    size_t first = columns->count > MOST_WAITING ? columns->count - MOST_WAITING : 0;
    for (size_t row = first; row < columns->count; row++) put(columns, column, row, waited(table, waiting, row));
}

void answer(const void *bytes, size_t size) { write_all(STDOUT_FILENO, bytes, size); }

void answer_table(const struct table *table) { answer(table->items, table->count * table->words * sizeof *table->items); }

void answer_columns(struct columns *columns) {
    for (size_t i = 0; i < columns->kinds; i++) {
        answer(columns->items[i], columns->count * columns->width[i]);
        free(columns->items[i]);
    }
}

static _Noreturn void refuse_row(uint64_t row) {
    dprintf(STDERR_FILENO, "%llu", (unsigned long long)row);
    exit(BAD_ROW);
}

/* Reads a number from a least to a greatest one, and the comma behind it. */
static const char *read_bounded(const char *at, int64_t least, int64_t most, int64_t *number) {
    at = read_number(at, false, number);
    return at && *number >= least && *number <= most ? behind(at, ",") : NULL;
}

const char *read_row(const char *at, struct row *row) {
    const char *queue = behind(at, "queue,");
    uint32_t src, dst;
    int64_t number, proto, sport, dport;
    at = queue ? queue : behind(at, "pipe,");
    if (!at || !(at = read_bounded(at, 0, INT64_MAX >> 1, &number))) return NULL;
    if (!(at = read_address(at, &src)) || !(at = behind(at, ",")) || !(at = read_address(at, &dst)) || !(at = behind(at, ","))) return NULL;
    if (!(at = read_bounded(at, 0, MOST_BYTE, &proto)) || !(at = read_bounded(at, 0, MOST_SHORT, &sport))) return NULL;
    if (!(at = read_bounded(at, 0, MOST_SHORT, &dport)) || !(at = read_bounded(at, 0, INT64_MAX, &row->length))) return NULL;
    row->target = (uint64_t)number << 1 | (queue != NULL);
    row->five_tuple[0] = (uint64_t)src << 32 | dst;
    row->five_tuple[1] = (uint64_t)sport << 32 | (uint64_t)dport << NUMBERS | (uint64_t)proto << 48;
    return (at = read_number(at, false, &row->word)) && row->word <= UINT32_MAX ? at : NULL;
}

/* The next row behind the header, NULL at the end. */
static const char *next_row(struct lines *lines, const char *header, bool *has_header) {
    const char *line;
    while ((line = next_line(lines, true))) {
        if (*line == '\n') continue;
        if (*has_header) return line;
        const char *end = behind(line, header);
        if (!end || *end != '\n') exit(BAD_HEADER);
        *has_header = true;
    }
    return NULL;
}

/* ---- packet files ---- */

enum { MOMENT, LENGTH, TARGET, TUPLE, WORD, PACKET_COLUMNS };

static const char *read_packet(const char *at, int64_t *moment, struct row *row) {
    at = read_bounded(at, 0, INT64_MAX, moment);
    at = at ? read_row(at, row) : NULL;
    return at && *at == '\n' ? at : NULL;
}

static void answer_packets(struct lines *lines, const char *header) {
    struct columns columns = {.kinds = PACKET_COLUMNS, .width = {8, 8, 4, 4, 4}};
    struct table targets = empty_table(sizeof(uint64_t)), tuples = empty_table(2 * sizeof(uint64_t));
    struct waiting waiting;
    bool has_header = false;
    const char *line;
    while ((line = next_row(lines, header, &has_header))) {
        struct row row;
        int64_t moment;
        size_t at = columns.count;
        if (!read_packet(line, &moment, &row)) refuse_row(at);
        add_row(&columns);
        put(&columns, MOMENT, at, moment);
        put(&columns, LENGTH, at, row.length);
        put(&columns, TARGET, at, number_of(&targets, &row.target));
        number_later(&columns, TUPLE, &tuples, &waiting, row.five_tuple);
        put(&columns, WORD, at, row.word);
    }
    number_rest(&columns, TUPLE, &tuples, &waiting);
    const uint64_t head[] = {columns.count, targets.count, tuples.count};
    answer(head, sizeof head);
    answer_table(&targets);
    answer_table(&tuples);
    answer_columns(&columns);
}

/* What `hinge check` asks of the rows in all: how many they are; how many are sent before the one above, and the line of the first of these;
   the last and the first moment; the greatest length; whether the words differ, and the first one; and of each target how many rows it has
   and the line of the first. */
static void answer_sums(struct lines *lines, const char *header) {
    enum { ROWS, LATE, LATE_LINE, CLOCK, FIRST, LONGEST, DIFFER, FIRST_WORD, TARGETS, SUMS };
    uint64_t sums[SUMS] = {[FIRST] = INT64_MAX};
    struct table targets = empty_table(sizeof(uint64_t));
    struct columns of_targets = {.kinds = 2, .width = {8, 8}};
    bool has_header = false;
    const char *line;
    while ((line = next_row(lines, header, &has_header))) {
        struct row row;
        int64_t moment;
        if (!read_packet(line, &moment, &row)) refuse_row(sums[ROWS]);
        if ((uint64_t)moment < sums[CLOCK] && !sums[LATE]++) sums[LATE_LINE] = lines->number;
        if ((uint64_t)moment > sums[CLOCK]) sums[CLOCK] = (uint64_t)moment;
        if ((uint64_t)moment < sums[FIRST]) sums[FIRST] = (uint64_t)moment;
        if ((uint64_t)row.length > sums[LONGEST]) sums[LONGEST] = (uint64_t)row.length;
        if (!sums[ROWS]++) sums[FIRST_WORD] = (uint64_t)row.word;
        sums[DIFFER] |= (uint64_t)row.word != sums[FIRST_WORD];
        uint32_t target = number_of(&targets, &row.target);
        if (target == of_targets.count) {
            add_row(&of_targets);
            put(&of_targets, 0, target, 0);
            put(&of_targets, 1, target, (int64_t)lines->number);
        }
        /* Each target has a row. NOLINTNEXTLINE(clang-analyzer-core.NullDereference) */
        ++*(uint64_t *)(of_targets.items[0] + target * sizeof(uint64_t));
    }
    sums[TARGETS] = targets.count;
    answer(sums, sizeof sums);
    answer_table(&targets);
    answer_columns(&of_targets);
}

/* ---- what was written of one ---- */

static const char *read_event(const char *at, int64_t *event) {
    static const char *const words[] = {"none,", "full,", "lost,", "held,", "out,"};
    const char *end = NULL;
    for (*event = 0; !end && *event < (int64_t)(sizeof words / sizeof *words); ++*event) end = behind(at, words[*event]);
    --*event;
    return end;
}

/* The lines of a report in the order of the rows. Where they aren't those, the count of lines is all of the answer. */
static void answer_report(struct lines *lines, const char *header, uint64_t rows) {
    enum { EVENT, FLOW, PACKET, AT, START, DUE, COLUMNS };
    struct columns columns = {.kinds = COLUMNS, .count = rows, .width = {1, 4, 8, 8, 8, 8}};
    uint64_t head[] = {0, true};
    bool has_header = false;
    const char *line;
    for (size_t i = 0; i < COLUMNS; i++) columns.items[i] = zeroed(rows, columns.width[i]);
    memset(columns.items[EVENT], NONE, rows);
    while ((line = next_row(lines, header, &has_header))) {
        int64_t number[COLUMNS], row;
        const char *at = read_event(line, &number[EVENT]);
        if (!at || !(at = read_bounded(at, 0, INT64_MAX, &row))) refuse_row(head[0]);
        if (!(at = read_number(at, true, &number[FLOW])) || number[FLOW] > INT32_MAX || !(at = behind(at, ","))) refuse_row(head[0]);
        if (!(at = read_number(at, true, &number[PACKET])) || !(at = behind(at, ","))) refuse_row(head[0]);
        if (!(at = read_bounded(at, 0, INT64_MAX, &number[AT])) || !(at = read_number(at, true, &number[START]))) refuse_row(head[0]);
        if (!(at = behind(at, ",")) || !(at = read_number(at, true, &number[DUE])) || *at != '\n') refuse_row(head[0]);
        head[0]++;
        if (row < 1 || (uint64_t)row > rows || columns.items[EVENT][row - 1] != NONE) head[1] = false;
        else
            for (size_t i = 0; i < COLUMNS; i++) put(&columns, i, (size_t)row - 1, number[i]);
    }
    head[1] = head[1] && head[0] == rows;
    answer(head, sizeof head);
    if (head[1]) answer_columns(&columns);
}

/* Rows and their frames. */
static void answer_index(struct lines *lines, const char *header) {
    struct columns columns = {.kinds = 2, .width = {8, 8}};
    bool has_header = false;
    const char *line;
    while ((line = next_row(lines, header, &has_header))) {
        int64_t row, frame;
        const char *at = read_bounded(line, 0, INT64_MAX, &row);
        if (!at || !(at = read_number(at, false, &frame)) || *at != '\n') refuse_row(columns.count);
        add_row(&columns);
        put(&columns, 0, columns.count - 1, row);
        put(&columns, 1, columns.count - 1, frame);
    }
    const uint64_t head = columns.count;
    answer(&head, sizeof head);
    answer_columns(&columns);
}

void answer_file(char **words, int count) {
    struct lines lines = {.descriptor = STDIN_FILENO};
    const char *kind = words[0], *header = count > 1 ? words[1] : NULL;
    if (count == 1 && (strcmp(kind, "history") == 0 || strcmp(kind, "net") == 0)) answer_history(&lines, *kind == 'n');
    else if (count == 2 && strcmp(kind, "packets") == 0) answer_packets(&lines, header);
    else if (count == 2 && strcmp(kind, "sums") == 0) answer_sums(&lines, header);
    else if (count == 2 && strcmp(kind, "index") == 0) answer_index(&lines, header);
    else if (count == 3 && strcmp(kind, "report") == 0) answer_report(&lines, header, strtoull(words[2], NULL, 10));
    else exit(USAGE);
}
