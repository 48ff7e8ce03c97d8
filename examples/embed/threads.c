/* Four threads send packets through one link. Their calls go to a history file while they go on, so that memory stays flat.
 *
 *     cc threads.c $(pkg-config --cflags --libs hingetulip) -pthread -o threads
 */
#include <hingetulip_service.h>
#include <pthread.h>
#include <stdio.h>
#include <string.h>

enum { THREADS = 4, PACKETS = 1000 };

static struct dn_caller callers[THREADS];

/* Each thread has a caller of its own. */
static void *send_packets(void *given)
{
    struct dn_caller *caller = given;
    for (unsigned i = 0; i < PACKETS; i++) {
        struct dn_packet packet = {.moment = i * UINT64_C(100000), .length = 1000, .number = 1, .kind = DN_PIPE};
        struct dn_fate fate;
        if (dn_caller_submit_wait(caller, &packet, &fate) != DN_OK)
            return "a packet was not answered";
    }
    return NULL;
}

/* Takes out what was called so far, and writes it behind the entries before. */
static uint64_t write_entries(struct dn_service *service, FILE *history)
{
    static uint8_t text[1 << 16];
    uint64_t start = 0, count = 0, length;
    dn_service_take_wait(service, &start, &count);
    while (dn_service_text(service, text, sizeof text, &length) == DN_OK)
        fwrite(text, 1, length, history);
    return start + count;
}

int main(void)
{
    static const char line[] = "pipe 1 config bw 100Mbit/s delay 20ms queue 50";
    struct dn_service service = {0};
    struct dn_fault fault;
    pthread_t threads[THREADS];
    FILE *history = fopen("threads.history", "w");
    if (!history || dn_service_open(&service, callers, THREADS) != DN_OK ||
        dn_caller_configure_wait(&callers[0], (const uint8_t *)line, strlen(line), &fault) != DN_OK)
        return 1;
    fputs(DN_HISTORY_FRONT, history);
    for (int i = 0; i < THREADS; i++)
        pthread_create(&threads[i], NULL, send_packets, &callers[i]);
    write_entries(&service, history);
    for (int i = 0; i < THREADS; i++)
        pthread_join(threads[i], NULL);
    unsigned long long count = write_entries(&service, history);
    fprintf(history, DN_HISTORY_END, count);
    printf("%llu calls\n", count);
    for (int i = 0; i < THREADS; i++)
        dn_caller_close(&callers[i]);
    dn_service_close(&service);
    return fclose(history) ? 1 : 0;
}
