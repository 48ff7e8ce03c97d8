/* Audits the history of the standard input by parts, and ends as `dummynet audit` does: its line and its status.

       ./audit PART LIMIT [growths] < HISTORY

   Each part has PART bytes and a block of its own. With `growths` each growth of memory is then refused in turn: the
   audit has ended, and the one that is made anew ends as the first. It is linked with tools/gate/refused_growths.c. */
#include "hingetulip.h"
#include <inttypes.h>
#include <stdio.h>
#include <stdlib.h>
#include <string.h>

enum { LONGEST = 1 << 22 };

extern long growths, first_refused;

struct end {
    struct dn_verdict verdict;
    uint64_t record;
    uint64_t status;
};

static uint8_t text[LONGEST];
static size_t length;

static uint32_t fed(struct dn_audit *audit, size_t step) {
    for (size_t at = 0; at < length; at += step) {
        size_t size = length - at < step ? length - at : step;
        uint8_t *part = malloc(size);
        memcpy(part, text + at, size);
        uint32_t status = dn_audit_feed(audit, part, size);
        free(part);
        if (status != DN_OK) return status;
    }
    return DN_OK;
}

/* An audit from its beginning to its end. What isn't written stays 77. */
static struct end audited(size_t step, size_t limit) {
    struct dn_audit audit = {0};
    struct end end = {{77, 77, 77, 77}, 77, dn_audit_open_with_key(&audit, limit, 3, 5)};
    if (end.status == DN_OK) end.status = fed(&audit, step);
    if (end.status == DN_OK) end.status = dn_audit_finish(&audit, &end.verdict, &end.record);
    if (audit.open || dn_audit_close(&audit) != DN_CLOSED) printf("the handle is open\n");
    return end;
}

static bool same(struct end one, struct end other) { return memcmp(&one, &other, sizeof one) == 0; }

static bool is_untouched(struct end end) {
    struct end untouched = {{77, 77, 77, 77}, end.status == DN_BAD_RECORD ? end.record : 77, end.status};
    return same(end, untouched);
}

/* Whether a growth that is refused ends the audit or changes nothing, and whether one made anew ends as wanted. */
static bool stands_a_refusal(size_t step, size_t limit, struct end wanted) {
    growths = 0;
    struct end end = audited(step, limit);
    bool refused = end.status == DN_MEMORY && is_untouched(end);
    return refused ? same(audited(step, limit), wanted) : same(end, wanted);
}

static bool stands_refusals(size_t step, size_t limit, struct end wanted) {
    growths = 0;
    audited(step, limit);
    long all = growths;
    for (first_refused = 1; first_refused <= all; first_refused++)
        if (!stands_a_refusal(step, limit, wanted)) return printf("growth %ld refused\n", first_refused), false;
    first_refused = 0;
    return true;
}

static int told_verdict(const struct dn_verdict *verdict) {
    if (verdict->reserved != 0) return printf("a reserved field\n"), 70;
    if (verdict->finding == DN_DIFFERS) return printf("differs %" PRIu64 "\n", verdict->first), 1;
    if (verdict->finding != DN_LAWFUL || verdict->first != 0) return printf("a verdict that is none\n"), 70;
    return printf("lawful %" PRIu64 "\n", verdict->entries), 0;
}

static int told(struct end end) {
    if (end.status == DN_OK ? end.record != 77 : !is_untouched(end)) return printf("written\n"), 70;
    switch (end.status) {
    case DN_OK: return told_verdict(&end.verdict);
    case DN_BAD_RECORD: return printf("history record %" PRIu64 ": bad\n", end.record), 4;
    case DN_TOO_LONG: return printf("history too long\n"), 6;
    default: return printf("status %" PRIu64 "\n", end.status), 70;
    }
}

int main(int argc, char **argv) {
    size_t step = argc > 1 ? strtoull(argv[1], NULL, 10) : 1;
    size_t limit = argc > 2 ? strtoull(argv[2], NULL, 10) : DN_HISTORY_LIMIT;
    length = fread(text, 1, sizeof text, stdin);
    struct end end = audited(step, limit);
    if (argc > 3 && !stands_refusals(step, limit, end)) return 70;
    return told(end);
}
