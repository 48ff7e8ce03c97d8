/* A carrier brings packets to the links and sends them on: by interfaces (tun, or tap at the links of a switch), or by UDP sockets. A link
   has two ends and two ways, one for each direction: a packet from end W passes on way W and leaves at the other end. Way 0 of the first
   link leads from the client to the server, and way 1 back. The second link has ways 2 and 3, and so on. */
#pragma once
#include <stdbool.h>
#include <stddef.h>
#include <stdint.h>
#include <sys/types.h>

#include "basics.h"
#include "page.h"

enum { LONGEST = 65535 }; /* bytes of a packet */

/* The bytes of a packet, which lies behind its carrier's prefix. */
struct bytes {
    unsigned char *at;
    size_t len;
};

struct carrier {
    int ways;
    const int *polled; /* by ways: a descriptor that can be read when a packet has come, or -1 if the way begins at a switch */
    size_t prefix;     /* bytes before each packet that the carrier needs itself */
    void *state;       /* an argument of its functions, for the carrier alone */

    /* Receives an IP packet or a frame of a way, which the next call overwrites, and returns its length. The length is 0 for a packet that
       the carrier turned away, and -1 if no packet has come. */
    ssize_t (*receive)(void *state, int way, unsigned char **packet);

    /* Sends packets of a way in one write, and may change their bytes. Returns false if the system refuses the write. */
    bool (*transmit)(void *state, int way, const struct bytes *packets, int count);

    /* The functions from here on may be NULL. */

    /* Whether the next packet of the way came together with the last one. */
    bool (*goes_on)(const void *state);

    /* Whether a packet can go to the system in one write with `count` packets of its way, behind them. */
    bool (*joins)(const struct bytes *packets, int count, const struct bytes *next);

    /* Completes a packet of which a part, such as the checksum, is left to a card. */
    void (*finish)(unsigned char *packet, size_t len);

    /* Does the carrier's own work at each turn. */
    void (*look_after)(void *state, uint64_t moment);

    /* Does the carrier's last work at the program's end. */
    void (*end)(void *state);
};

/* Returns the other way of a way's link. */
static inline int back(int way) { return way ^ 1; }

/* Returns a carrier for any descriptors that keep packets whole, one for each end. */
struct carrier plain_carrier(int count, const int *descriptors);

/* Returns a carrier for tun interfaces, one for each end, which leave checksums and the cutting of TCP to a card. */
struct carrier tun_carrier(int count, const int *descriptors);

/* Returns a carrier for the datagrams of a bound socket and of a server. Before each datagram are the headers that it would have between
   the client and the server. The server's address has the socket's family. */
struct carrier udp_carrier(int front, const char *server, const char *port, struct page *page, const struct clock *clock);
