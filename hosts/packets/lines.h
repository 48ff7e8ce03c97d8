/* The lines of a text, as the program dummynet and Python's csv read them: they end in LF, CR LF or CR. */
#ifndef LINES_H
#define LINES_H
#include <string.h>

#include "basics.h"

enum { MOST_DIGITS = 19, BEHIND = 64 }; /* of a number of 63 bits; zeros that are behind what was read */

struct lines {
    int descriptor;
    char *bytes;
    size_t at, end, room;
    uint64_t number;          /* of the line that was read last, from 1 */
    bool is_over, had_return; /* whether all was read; whether a CR came last */
};

/* The next line up to its line feed, which is there always; NULL at the end. What doesn't end is a line only if `takes_rest`. A text with
   a quote is refused: `hinge` writes it without quotes first. So is a line of more than 2^20 bytes. */
const char *next_line(struct lines *lines, bool takes_rest);

/* Reads a number of at most 63 bits, -1 for none where that may be. The place behind it, NULL where none stands there. */
static inline const char *read_number(const char *at, bool may_be_empty, int64_t *number) {
    const char *begin = at;
    uint64_t made = 0;
    for (unsigned digit; (digit = (unsigned char)*at - '0') < 10; at++) made = 10 * made + digit;
    *number = at == begin ? -1 : (int64_t)made;
    return at - begin > MOST_DIGITS || made > INT64_MAX || (at == begin && !may_be_empty) ? NULL : at;
}

/* Reads an IPv4 address in dots, in the same way. */
const char *read_address(const char *at, uint32_t *address);

/* The place behind a word of at most BEHIND letters, NULL where another one stands there. */
static inline const char *behind(const char *at, const char *word) { return memcmp(at, word, strlen(word)) == 0 ? at + strlen(word) : NULL; }
#endif
