/* Calls of a C service by threads that share it, each with a caller of its own, in ns a call over all of them.
 *
 *     service_calls KIND CALLERS COUNT
 *
 * KIND is `moves` or `packets`: Advances, or packets of 1,000 bytes to an unlimited pipe, the i-th of each caller at moment i. The
 * entries stay in the service.
 */
#include <hingetulip_service.h>
#include <pthread.h>
#include <stdio.h>
#include <stdlib.h>
#include <string.h>
#include <time.h>

static struct dn_caller callers[DN_MOST_CALLERS];
static pthread_barrier_t ready;
static bool moves;
static uint64_t each;

static double now(void)
{
    struct timespec at;
    clock_gettime(CLOCK_MONOTONIC, &at);
    return (double)at.tv_sec * 1e9 + (double)at.tv_nsec;
}

static void must(uint32_t status)
{
    if (status != DN_OK) {
        fprintf(stderr, "status %u\n", status);
        exit(1);
    }
}

static void *call(void *caller)
{
    struct dn_packet packet = {.src = 1, .dst = 2, .sport = 1000, .dport = 2000, .proto = 17, .length = 1000, .number = 1};
    struct dn_fate fate;
    uint64_t at;
    pthread_barrier_wait(&ready);
    for (uint64_t moment = 0; moment < each; moment++) {
        packet.moment = moment;
        must(moves ? dn_caller_advance_wait(caller, moment, &at) : dn_caller_submit_wait(caller, &packet, &fate));
    }
    return NULL;
}

int main(int count, char **words)
{
    static const char line[] = "pipe 1 config";
    struct dn_service service = {0};
    struct dn_fault fault;
    pthread_t threads[DN_MOST_CALLERS];
    size_t n = count == 4 ? strtoul(words[2], NULL, 10) : 0;
    if (n < 1 || n > DN_MOST_CALLERS)
        return 2;
    moves = strcmp(words[1], "moves") == 0;
    each = strtoull(words[3], NULL, 10) / n;
    must(dn_service_open(&service, callers, n));
    must(dn_caller_configure_wait(callers, (const uint8_t *)line, sizeof line - 1, &fault));
    pthread_barrier_init(&ready, NULL, (unsigned)n + 1);
    for (size_t k = 0; k < n; k++)
        if (pthread_create(&threads[k], NULL, call, &callers[k]) != 0)
            return 1;
    pthread_barrier_wait(&ready);
    double began = now();
    for (size_t k = 0; k < n; k++)
        pthread_join(threads[k], NULL);
    printf("%.1f\n", (now() - began) / (double)(each * n));
    return 0;
}
