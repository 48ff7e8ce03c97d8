/* What every part of hinge-packets uses: the end in a fault, memory, and bytes that others wrote. */
#ifndef BASICS_H
#define BASICS_H
#include <stdbool.h>
#include <stddef.h>
#include <stdint.h>

/* The statuses with which it ends: a fault that standard error tells, or the number of what the system refused there; of a text, that it
   has quotes, another header or too long a line, or the number of the first bad row, from 0. */
enum { USAGE = 2, QUOTED = 3, FAULT = 4, UNREAD = 5, UNWRITTEN = 6, BAD_HEADER = 8, BAD_ROW = 9, TOO_LONG = 10 };

/* Time in ns, which a capture may count in more than 64 bits. */
typedef __int128 nanoseconds;

struct bytes {
    const uint8_t *at;
    size_t len;
};

/* Ends the program with a line on standard error. */
_Noreturn __attribute__((format(printf, 1, 2))) void refuse(const char *form, ...);

/* Ends the program with the number of what the system has refused last. */
_Noreturn void refused(int status);

/* Memory of so many bytes, with what `old` held. */
void *grown(void *old, size_t bytes);

/* Memory of so many items, all of them 0. */
void *zeroed(size_t count, size_t size);

/* A number with commas between its thousands, in a text that the next call writes over. */
const char *grouped(nanoseconds number);
#endif
