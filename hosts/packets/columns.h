/* Packet files, reports and histories as columns, which `hinge look`, `why` and `check` read.

     hinge-packets columns packets HEADER
     hinge-packets columns sums HEADER
     hinge-packets columns report HEADER ROWS
     hinge-packets columns index HEADER
     hinge-packets columns history | net

   It reads standard input. The answer is a head of numbers of 64 bits, tables, and the columns one after the other, each with a number for
   each row; python/hinge/replays/columns.py has their names in this order. */
#ifndef COLUMNS_H
#define COLUMNS_H
#include "lines.h"
#include "table.h"

enum { MOST_COLUMNS = 16 };

/* Columns of numbers of these bytes, which grow together. */
struct columns {
    size_t kinds, count, room;
    uint8_t width[MOST_COLUMNS];
    char *items[MOST_COLUMNS];
};

/* What a row of a packet file tells but its moment. */
struct row {
    uint64_t target, five_tuple[2];
    int64_t length, word;
};

/* Adds a row, whose numbers are to be put. */
void add_row(struct columns *columns);

/* The lowest bytes of a number come first on every machine for which there is a release. */
static inline void put(struct columns *columns, size_t column, size_t row, int64_t number) {
    char *at = columns->items[column] + row * columns->width[column];
    switch (columns->width[column]) {
    case 8: memcpy(at, &number, 8); break;
    case 4: memcpy(at, &number, 4); break;
    default: *at = (char)number;
    }
}

/* Answers them, and lets them go. */
void answer_columns(struct columns *columns);

/* Takes the five-tuple of the last row. */
void number_later(struct columns *columns, size_t column, struct table *table, struct waiting *waiting, const uint64_t *five_tuple);

/* Puts the numbers that weren't put yet. */
void number_rest(struct columns *columns, size_t column, struct table *table, struct waiting *waiting);

void answer(const void *bytes, size_t size);

void answer_table(const struct table *table);

/* Reads the nine fields behind the moment. The place behind them, NULL where one isn't of its kind. */
const char *read_row(const char *at, struct row *row);

/* Answers what these words ask for. */
void answer_file(char **words, int count);

void answer_history(struct lines *lines, bool is_net);
#endif
