/* Counts what holds and what doesn't, for the programs of arguments. */
#include "plain.h"
#include <string.h>

static int tried, failed;

static void holds(bool it, const char *what, int line) {
    tried++;
    if (it) return;
    failed++;
    printf("line %d: %s\n", line, what);
}

#define HOLDS(it) holds(it, #it, __LINE__)

static int told(void) {
    printf("%d of %d hold\n", tried - failed, tried);
    return failed != 0;
}
