/* Long TCP packets, which the system leaves to a card to cut, with a note about the cuts. They are cut here, so that each packet has a fate
   of its own on the link. */
#pragma once
#include <linux/virtio_net.h>
#include <stdbool.h>
#include <stddef.h>

enum {
    NOTE = sizeof(struct virtio_net_hdr), /* bytes of the note before each packet, which says what a card has to do, such as the checksum */
    LONGEST_WHOLE = 1 << 17,              /* the most bytes of a packet from the system */
    LONGEST_HEADERS = 1024                /* the most bytes before the data of a packet that is cut */
};

/* A packet from the system, and its state while it is cut. The packets that it is cut into lie in its bytes: each has its note and headers
   in the place of the data before it. */
struct whole {
    unsigned char bytes[NOTE + LONGEST_WHOLE]; /* the note and the packet */
    unsigned char headers[LONGEST_HEADERS];    /* a copy of the packet's bytes before the data */
    struct virtio_net_hdr note;                /* a copy of the note */
    size_t len;                                /* bytes of the packet */
    size_t before;                             /* bytes before its data */
    size_t cut;                                /* bytes of the data that have been cut off */
    bool has_another;                          /* whether cut_next() has another packet */
};

/* Begins to cut the note and the packet of `len` bytes that have been read into the whole's bytes. */
void begin_cutting(struct whole *whole, size_t len);

/* Returns the length of the next packet, which lies behind its note. The next call overwrites the packet. */
size_t cut_next(struct whole *whole, unsigned char **packet);

/* Completes the checksum that was left to a card, and clears the note: the packet is then as on a wire. */
void finish_checksum(unsigned char *packet, size_t len);

/* Writes another length into the header of an IP packet, and in IPv4 adds `number` to its identification. */
void fit_ip(unsigned char *ip, size_t len, size_t number);

/* Adapts the partial sum, which a card completes to the checksum of TCP or UDP, from the length `was` to the length `is`. */
void fit_checksum(unsigned char *checksum, size_t was, size_t is);
