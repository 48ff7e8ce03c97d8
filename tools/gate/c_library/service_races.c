/* Two threads share a service, each by a caller of its own. With RACE they also count calls in one number, without a lock. */
#include <hingetulip_service.h>
#include <pthread.h>
#include <stdio.h>
#include <string.h>

enum { THREADS = 2, PACKETS = 2000, EACH = 50 };

static struct dn_caller callers[THREADS];
static int calls;

static void *send_packets(void *given)
{
    for (unsigned i = 0; i < PACKETS; i++) {
        struct dn_packet packet = {.moment = i * UINT64_C(100000), .length = 1000, .number = 1, .kind = DN_PIPE, .sport = (uint16_t)i};
        struct dn_fate fate;
        uint64_t count;
        if (dn_caller_submit_wait(given, &packet, &fate) != DN_OK)
            return "a packet was not answered";
        if (i % EACH == 0 && dn_caller_collect_wait(given, packet.moment, &count) != DN_OK)
            return "a collect was not answered";
#ifdef RACE
        calls++;
#endif
    }
    return NULL;
}

int main(void)
{
    static const char line[] = "pipe 1 config bw 100Mbit/s queue 50 mask src-port 0xffff";
    struct dn_service service = {0};
    struct dn_fault fault;
    pthread_t threads[THREADS];
    void *wrong = NULL;
    if (dn_service_open(&service, callers, THREADS) != DN_OK ||
        dn_caller_configure_wait(&callers[0], (const uint8_t *)line, strlen(line), &fault) != DN_OK)
        return 1;
    for (int i = 0; i < THREADS; i++)
        pthread_create(&threads[i], NULL, send_packets, &callers[i]);
    for (int i = 0; i < THREADS; i++) {
        void *said;
        pthread_join(threads[i], &said);
        wrong = said ? said : wrong;
    }
    for (int i = 0; i < THREADS; i++)
        dn_caller_close(&callers[i]);
    dn_service_close(&service);
    if (wrong)
        puts(wrong);
    printf("%s\n", calls ? "counted" : "done");
    return wrong != NULL;
}
