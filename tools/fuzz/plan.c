/* A plan of hinge-link: whatever its lines are, it is obeyed or refused with status 3, and its changes are made at their moments. */
#include <setjmp.h>
#include <stdint.h>
#include <stdio.h>
#include <stdlib.h>
#include <string.h>

#include "../../hosts/link/host.h"

enum { WAYS = 4, LOOKED_AT = 1000 };

/* Where a refusal goes back to. It is a variable of the file, since what the host calls in the place of exit gets a status alone. */
static jmp_buf refused;

_Noreturn void leave_the_host(int status) {
    if (status != BAD_LINE && status != REFUSED) abort();
    longjmp(refused, 1);
}

static struct host *new_host(void) {
    struct host *host = allocate_zeros(sizeof *host);
    host->carrier.ways = WAYS;
    host->page = allocate_zeros(sizeof *host->page + WAYS * sizeof *host->page->ways);
    make_parts(host, WAYS);
    return host;
}

/* Lines that reach the system itself: a file, the scheduler, a descriptor. */
static int asks_the_system(const char *text) { return strstr(text, "transcript ") || strstr(text, "realtime") || strstr(text, "control "); }

int LLVMFuzzerTestOneInput(const uint8_t *given, size_t size) {
    static struct host *host;
    if (!host) host = new_host();
    char *text = strndup((const char *)given, size);
    if (*text && !asks_the_system(text)) {
        stdin = fmemopen(text, strlen(text), "r");
        if (setjmp(refused) == 0) {
            read_plan(host);
            for (int i = 0; i < LOOKED_AT && next_change(host->changes) != UINT64_MAX; i++) make_changes(host, next_change(host->changes));
        }
        fclose(stdin);
    }
    free(text);
    return 0;
}
