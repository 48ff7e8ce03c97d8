/* One call in flight through a session of `dummynet live`: a Submit and a Collect of each packet, each answered before the next
   is written. bench/live.sh builds it. usage: live PACKETS */
#define _GNU_SOURCE
#include "../examples/live/session.h"

#include <inttypes.h>
#include <time.h>

static double seconds(void) {
    struct timespec t;
    clock_gettime(CLOCK_MONOTONIC, &t);
    return (double)t.tv_sec + (double)t.tv_nsec / 1e9;
}

/* Makes a call, and answers how many deliveries came. */
static uint64_t call(struct session *session, const char *format, uint64_t moment) {
    char text[128];
    uint64_t head[2];
    session_say(session, text, (size_t)snprintf(text, sizeof text, format, moment));
    session_record(session);
    const char *answer = session_record(session);
    if (!begins(answer, "r,delivered") || numbers(answer + 11, 2, head) < 2) return 0;
    for (uint64_t i = 0; i < head[1]; i++) session_record(session);
    return head[1];
}

int main(int count, char **words) {
    uint64_t packets = count > 1 ? strtoull(words[1], NULL, 10) : 200000, delivered = 0;
    struct session session = session_start(NULL);
    if (session_configure(&session, "pipe 1 config bw 100Mbit/s delay 5")) fail("the link was refused");
    double begun = seconds();
    for (uint64_t i = 0; i < packets; i++) {
        call(&session, "c,0,submit,pipe,1,10.0.0.1,10.0.0.2,17,1000,2000,1000,0,%" PRIu64 "\n", i * 100000);
        delivered += call(&session, "c,0,collect,%" PRIu64 "\n", i * 100000);
    }
    double spent = seconds() - begun;
    printf("C, one call in flight: %.0f packets/s, %.1f us a packet, %" PRIu64 " delivered\n", (double)packets / spent,
           spent / (double)packets * 1e6, delivered);
    return session_end(&session);
}
