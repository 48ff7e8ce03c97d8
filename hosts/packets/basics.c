#include "basics.h"

#include <errno.h>
#include <stdarg.h>
#include <stdio.h>
#include <stdlib.h>

enum { LONGEST_NUMBER = 64 }; /* letters */

void refuse(const char *form, ...) {
    va_list values;
    va_start(values, form);
    vfprintf(stderr, form, values);
    va_end(values);
    exit(FAULT);
}

void refused(int status) {
    fprintf(stderr, "%d", errno);
    exit(status);
}

void *grown(void *old, size_t bytes) {
    void *made = realloc(old, bytes);
    if (!made) refuse("it takes more memory than there is");
    return made;
}

void *zeroed(size_t count, size_t size) {
    void *made = calloc(count ? count : 1, size);
    if (!made) refuse("it takes more memory than there is");
    return made;
}

const char *grouped(nanoseconds number) {
    static char text[LONGEST_NUMBER];
    char *at = text + LONGEST_NUMBER - 1;
    for (int digits = 0; digits == 0 || number > 0; digits++, number /= 10) {
        if (digits && digits % 3 == 0) *--at = ',';
        *--at = (char)('0' + (int)(number % 10));
    }
    return at;
}
