#include "lines.h"

#include <stdlib.h>
#include <unistd.h>

#ifndef READ_TOGETHER
#define READ_TOGETHER (1 << 20) /* bytes; the tests have fewer */
#endif
enum { LONGEST_ADDRESS = 15, SHORTEST_ADDRESS = 7, MOST_OCTET = 255, LONGEST_LINE = 1 << 20 };
#define BYTE_ORDER_MARK "\xef\xbb\xbf"

/* Has each end of a line be one line feed. */
static size_t with_line_feeds(struct lines *lines, char *begin, size_t size) {
    if (!lines->had_return && !memchr(begin, '\r', size)) return size;
    char *out = begin;
    for (size_t i = 0; i < size; i++) {
        bool is_second = lines->had_return && begin[i] == '\n';
        lines->had_return = begin[i] == '\r';
        if (!is_second) *out++ = (char)(lines->had_return ? '\n' : begin[i]);
    }
    return (size_t)(out - begin);
}

/* Reads on behind what wasn't taken yet. */
static void read_on(struct lines *lines) {
    size_t rest = lines->end - lines->at;
    bool is_first = !lines->bytes;
    if (rest > LONGEST_LINE) exit(TOO_LONG);
    if (is_first || lines->room < rest + READ_TOGETHER) lines->bytes = grown(lines->bytes, (lines->room = 2 * rest + READ_TOGETHER) + 1 + BEHIND);
    memmove(lines->bytes, lines->bytes + lines->at, rest);
    char *begin = lines->bytes + rest;
    size_t size = 0;
    for (ssize_t count = 1; size < READ_TOGETHER && count > 0; size += (size_t)count) {
        count = read(lines->descriptor, begin + size, READ_TOGETHER - size);
        if (count < 0) refused(UNREAD);
        lines->is_over = count == 0;
    }
    if (memchr(begin, '"', size)) exit(QUOTED);
    lines->at =
        is_first && size >= strlen(BYTE_ORDER_MARK) && memcmp(begin, BYTE_ORDER_MARK, strlen(BYTE_ORDER_MARK)) == 0 ? strlen(BYTE_ORDER_MARK) : 0;
    lines->end = rest + with_line_feeds(lines, begin, size);
    memset(lines->bytes + lines->end, 0, 1 + BEHIND);
}

const char *next_line(struct lines *lines, bool takes_rest) {
    char *feed;
    while (!(feed = lines->at < lines->end ? memchr(lines->bytes + lines->at, '\n', lines->end - lines->at) : NULL)) {
        if (!lines->is_over) {
            read_on(lines);
            continue;
        }
        if (!takes_rest || lines->at == lines->end) return NULL;
        lines->bytes[lines->end++] = '\n';
    }
    const char *line = lines->bytes + lines->at;
    lines->at = (size_t)(feed + 1 - lines->bytes);
    lines->number++;
    return line;
}

const char *read_address(const char *at, uint32_t *address) {
    const char *begin = at;
    uint32_t made = 0, octet = 0;
    int dots = 0;
    for (;; at++) {
        unsigned digit = (unsigned char)*at - '0';
        if (digit < 10) octet = 10 * octet + digit;
        else if (*at == '.') made = made << 8 | octet, octet = 0, dots++;
        else break;
        if (octet > MOST_OCTET) return NULL;
    }
    *address = made << 8 | octet;
    return dots == 3 && at - begin >= SHORTEST_ADDRESS && at - begin <= LONGEST_ADDRESS ? at : NULL;
}
