/* live_blast sink PORT: takes datagrams for ever. live_blast ADDRESS PORT RATE SECONDS LENGTH: sends so many a second, as IP packets of
   LENGTH bytes, or as many as it can where RATE is 0, and prints how many a second. bench/live_rates.py builds it. */
#define _GNU_SOURCE
#include <arpa/inet.h>
#include <stdint.h>
#include <stdio.h>
#include <stdlib.h>
#include <string.h>
#include <sys/socket.h>
#include <time.h>

enum { HEADERS = 28, ROOM = 64 << 20 };

static uint64_t now(void) {
    struct timespec at;
    clock_gettime(CLOCK_MONOTONIC, &at);
    return (uint64_t)at.tv_sec * 1000000000 + (uint64_t)at.tv_nsec;
}

/* Waits until a moment: sleeps where it is far, and else returns at once. */
static void wait_until(uint64_t moment) {
    uint64_t at = now();
    if (moment > at + 200000) nanosleep(&(struct timespec){0, (long)(moment - at - 100000)}, NULL);
}

static uint64_t blast(int to, double rate, double seconds, size_t length) {
    static char bytes[65536];
    uint64_t begun = now(), sent = 0;
    for (uint64_t at; (at = now()) < begun + (uint64_t)(seconds * 1e9);) {
        uint64_t due = rate > 0 ? begun + (uint64_t)((double)sent * 1e9 / rate) : 0;
        if (at < due) wait_until(due);
        else sent += send(to, bytes, length - HEADERS, MSG_DONTWAIT) >= 0 || rate > 0;
    }
    return sent;
}

int main(int count, char **words) {
    int one = socket(AF_INET, SOCK_DGRAM, 0), room = ROOM;
    struct sockaddr_in end = {.sin_family = AF_INET};
    setsockopt(one, SOL_SOCKET, SO_RCVBUFFORCE, &room, sizeof room), setsockopt(one, SOL_SOCKET, SO_SNDBUF, &room, sizeof room);
    if (count < 3) return 2;
    end.sin_port = htons((uint16_t)atoi(words[2]));
    if (strcmp(words[1], "sink") == 0) {
        static char bytes[65536];
        if (bind(one, (struct sockaddr *)&end, sizeof end) < 0) return 6;
        while (recv(one, bytes, sizeof bytes, MSG_TRUNC) >= 0) {}
        return 0;
    }
    if (count != 6 || inet_aton(words[1], &end.sin_addr) == 0 || connect(one, (struct sockaddr *)&end, sizeof end) < 0) return 2;
    double seconds = atof(words[4]);
    printf("%.0f\n", (double)blast(one, atof(words[3]), seconds, (size_t)atoi(words[5])) / seconds);
}
