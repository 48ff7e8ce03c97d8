/* Times of calls of the C library, in ns a packet: the least of some rounds, by the processor's time.
 *
 *     c_calls [ROUNDS [PACKETS]]
 *
 * Packets of 1,000 bytes, one each 1,000 ns, go to a pipe of 10 Gbit/s and 1 ms, so that 1,000 are under way, and all are collected.
 */
#include <hingetulip.h>
#include <stdio.h>
#include <stdlib.h>
#include <string.h>
#include <time.h>

enum { AT_ONCE = 1000, ROOM = 4 * AT_ONCE, STEP = 1000 };
static const char line[] = "pipe 1 config bw 10Gbit/s delay 1 queue 1000";
static const struct dn_packet sent = {.src = 1, .dst = 2, .sport = 1000, .dport = 2000, .proto = 17, .length = 1000, .number = 1};
static struct dn_delivery list[ROOM];

static double now(void)
{
    struct timespec at;
    clock_gettime(CLOCK_PROCESS_CPUTIME_ID, &at);
    return (double)at.tv_sec * 1e9 + (double)at.tv_nsec;
}

static void must(uint32_t status)
{
    if (status != DN_OK) {
        fprintf(stderr, "status %u\n", status);
        exit(1);
    }
}

/* A dn_submit and a dn_collect for each packet. */
static uint64_t one_by_one(struct dn_handle *link, uint64_t count)
{
    uint64_t came = 0, some;
    struct dn_packet packet = sent;
    struct dn_fate fate;
    for (uint64_t i = 0; i < count; i++) {
        packet.moment = i * STEP;
        must(dn_submit(link, &packet, &fate));
        must(dn_collect(link, packet.moment, list, ROOM, &some));
        came += some;
    }
    return came;
}

/* A dn_submit_many and a dn_collect for 1,000 packets, whose moments are written anew. */
static uint64_t many_at_once(struct dn_handle *link, uint64_t count)
{
    static struct dn_packet packets[AT_ONCE];
    static struct dn_fate fates[AT_ONCE];
    uint64_t came = 0, some;
    for (size_t k = 0; k < AT_ONCE; k++)
        packets[k] = sent;
    for (uint64_t i = 0; i < count; i += AT_ONCE) {
        for (size_t k = 0; k < AT_ONCE; k++)
            packets[k].moment = (i + k) * STEP;
        must(dn_submit_many(link, packets, AT_ONCE, fates, AT_ONCE, &some));
        must(dn_collect(link, (i + AT_ONCE) * STEP, list, ROOM, &some));
        came += some;
    }
    return came;
}

static double timed(uint64_t load(struct dn_handle *, uint64_t), uint64_t count)
{
    struct dn_handle link = {0};
    struct dn_fault fault;
    must(dn_open(&link, DN_ORDERED));
    must(dn_configure(&link, (const uint8_t *)line, sizeof line - 1, &fault));
    double begun = now();
    uint64_t came = load(&link, count), some;
    double took = now() - begun;
    must(dn_collect(&link, DN_LAST_MOMENT, list, ROOM, &some));
    must(dn_close(&link));
    if (came + some != count) {
        fprintf(stderr, "%llu of %llu packets came\n", (unsigned long long)(came + some), (unsigned long long)count);
        exit(1);
    }
    return took / (double)count;
}

int main(int argc, char **argv)
{
    int rounds = argc > 1 ? atoi(argv[1]) : 60;
    uint64_t count = (argc > 2 ? strtoull(argv[2], NULL, 10) : 200000) / AT_ONCE * AT_ONCE;
    double one = 1e30, many = 1e30;
    for (int i = 0; i < rounds; i++) {
        double took = timed(one_by_one, count);
        one = took < one ? took : one;
        took = timed(many_at_once, count);
        many = took < many ? took : many;
    }
    printf("C, one by one: %.0f ns a packet\nC, 1,000 at once: %.0f ns a packet\n", one, many);
    return 0;
}
