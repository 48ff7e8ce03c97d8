#include <fcntl.h>
#include <stdlib.h>
#include <sys/uio.h>
#include <sys/utsname.h>
#include <unistd.h>

#include "basics.h"
#include "carrier.h"
#include "joins.h"
#include "segments.h"

struct tuns {
    const int *interfaces;
    struct whole whole; /* the packet that is being cut; another way has its turn when nothing of it is left */
};

static bool goes_on(const void *state) {
    const struct tuns *tuns = state;
    return tuns->whole.has_another;
}

static ssize_t receive(void *state, int way, unsigned char **packet) {
    struct tuns *tuns = state;
    if (!tuns->whole.has_another) {
        ssize_t len = read(tuns->interfaces[way], tuns->whole.bytes, sizeof tuns->whole.bytes);
        if (len <= NOTE) return -1;
        begin_cutting(&tuns->whole, (size_t)len - NOTE);
    }
    return (ssize_t)cut_next(&tuns->whole, packet);
}

static bool transmit(void *state, int way, const struct bytes *packets, int count) {
    const struct tuns *tuns = state;
    struct iovec parts[MOST_JOINED];
    size_t before = join(packets, count);
    parts[0] = (struct iovec){packets->at - NOTE, NOTE + packets->len};
    for (int i = 1; i < count; i++) parts[i] = (struct iovec){packets[i].at + before, packets[i].len - before};
    return writev(tuns->interfaces[back(way)], parts, count) >= 0;
}

/* Whether the system accepts joined UDP packets, as Linux does from 6.2 on. */
static bool accepts_joined_udp(void) {
    struct utsname system = {0};
    char *rest;
    uname(&system);
    long major = strtol(system.release, &rest, 10);
    long minor = *rest ? strtol(rest + 1, NULL, 10) : 0;
    return major > 6 || (major == 6 && minor >= 2);
}

struct carrier tun_carrier(int count, const int *descriptors) {
    struct tuns *tuns = allocate_zeros(sizeof *tuns);
    tuns->interfaces = descriptors;
    for (int way = 0; way < count; way++) fcntl(descriptors[way], F_SETFL, O_NONBLOCK);
    struct carrier carrier = {.ways = count, .polled = descriptors, .prefix = NOTE, .state = tuns, .receive = receive, .transmit = transmit};
    carrier.goes_on = goes_on;
    carrier.finish = finish_checksum;
    carrier.joins = accepts_joined_udp() ? joins : joins_tcp;
    return carrier;
}
