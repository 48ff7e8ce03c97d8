/* Four packets of 1,000 bytes meet a pipe of 8 Mbit/s with room for one that waits. They are taken out as they leave.
 *
 *     cc first.c $(pkg-config --cflags --libs hingetulip) -o first
 */
#include <hingetulip.h>
#include <inttypes.h>
#include <stdio.h>
#include <string.h>

#define MS 1000000u /* in ns */

static bool configure(struct dn_handle *link, const char *line)
{
    struct dn_fault fault;
    uint8_t reason[DN_REASON_ROOM];
    uint64_t length;
    uint32_t status = dn_configure(link, (const uint8_t *)line, strlen(line), &fault);
    if (status != DN_OK && dn_reason(status, &fault, reason, sizeof reason, &length) == DN_OK)
        fprintf(stderr, "%s: %.*s\n", line, (int)length, (const char *)reason);
    return status == DN_OK;
}

static bool submit(struct dn_handle *link, uint64_t moment)
{
    static const char *const outcomes[] = {"queued", "lost", "full", "no target"};
    struct dn_packet packet = {.moment = moment, .length = 1000, .number = 1, .kind = DN_PIPE};
    struct dn_fate fate;
    if (dn_submit(link, &packet, &fate) != DN_OK)
        return false;
    printf("at %" PRIu64 " ns: %s\n", fate.at, outcomes[fate.outcome]);
    return true;
}

/* Goes from each moment at which something happens to the next, until nothing is under way. */
static bool collect(struct dn_handle *link)
{
    struct dn_delivery list[16]; /* no more are under way; with too few places the answer is DN_ROOM */
    uint64_t moment, count;
    while (dn_wake(link, &moment) == DN_OK && moment != DN_NEVER) {
        if (dn_collect(link, moment, list, sizeof list / sizeof *list, &count) != DN_OK)
            return false;
        for (uint64_t i = 0; i < count; i++)
            printf("packet %" PRIu64 " left at %" PRIu64 " ns, sent from %" PRIu64 " ns\n", list[i].packet, list[i].due, list[i].start);
    }
    return true;
}

int main(void)
{
    struct dn_handle link = {0};
    bool done = dn_open(&link, DN_ORDERED) == DN_OK && configure(&link, "pipe 1 config bw 8Mbit/s queue 1") &&
                submit(&link, 0) && submit(&link, 0) && submit(&link, 0) && submit(&link, 1 * MS) && collect(&link);
    dn_close(&link);
    return done ? 0 : 1;
}
