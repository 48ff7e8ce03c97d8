/* The IP packet of a frame: behind Ethernet with tags, PPPoE, PPP, MPLS, Linux's cooked headers and others. The outermost IP header
   counts. Fragments aren't put together again, since a link carries them one by one. */
#ifndef DISSECT_H
#define DISSECT_H
#include "basics.h"

enum { ADDRESS = 16 }; /* bytes */
#define KNOWN_LINKS "0, 1, 9, 12, 14, 50, 51, 101, 104, 105, 108, 113, 127, 228, 229, 276"

/* An address, one of IPv4 in the last four bytes. All bytes count where two are compared. */
struct address {
    uint8_t bytes[ADDRESS];
    uint64_t is_six;
};

/* What an IP packet says of itself, and where it begins in its frame. A length of 0 is one that it doesn't know; `headers` are the bytes
   of its IP and transport headers. */
struct packet {
    size_t begin;
    struct address src, dst;
    uint32_t length;
    uint16_t sport, dport, headers;
    uint8_t proto, dscp;
};

/* Reads the packet of a frame: 1, or 0 where there is none that is valid and has its whole header, or below 0 where the link type isn't
   known. */
int dissect(unsigned link, struct bytes frame, struct packet *made);
#endif
