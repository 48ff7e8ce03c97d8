#include <fcntl.h>
#include <unistd.h>

#include "basics.h"
#include "carrier.h"

struct plain {
    const int *ends;
    unsigned char bytes[LONGEST];
};

static ssize_t receive(void *state, int way, unsigned char **packet) {
    struct plain *plain = state;
    ssize_t len = read(plain->ends[way], plain->bytes, LONGEST);
    *packet = plain->bytes;
    return len > 0 ? len : -1;
}

/* Sends a packet. This carrier doesn't join packets, so there is one. */
static bool transmit(void *state, int way, const struct bytes *packets, int count) {
    const struct plain *plain = state;
    return count == 1 && write(plain->ends[back(way)], packets->at, packets->len) >= 0;
}

struct carrier plain_carrier(int count, const int *descriptors) {
    struct plain *plain = allocate_zeros(sizeof *plain);
    plain->ends = descriptors;
    for (int way = 0; way < count; way++) fcntl(descriptors[way], F_SETFL, O_NONBLOCK);
    return (struct carrier){.ways = count, .polled = descriptors, .state = plain, .receive = receive, .transmit = transmit};
}
