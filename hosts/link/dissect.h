/* The fields of a packet that the links and the rules look at. */
#pragma once
#include <hingetulip.h>
#include <stdbool.h>

#include "strangers.h"

/* An IPv6 address, or an IPv4 address as ::ffff:a.b.c.d, so that a comparison is the same for both. */
struct address {
    uint64_t high; /* the first 64 bits */
    uint64_t low;  /* the last 64 bits */
};

/* The headers that rules look at, beside protocol and ports. */
struct headers {
    struct address src;
    struct address dst;
    int dscp;
};

/* Reads an IP packet's addresses, protocol and ports. A later fragment has no ports. Returns false if the bytes are no IP packet. */
bool dissect(struct strangers *strangers, const unsigned char *bytes, size_t len, struct dn_packet *packet, struct headers *headers);

/* Returns the packet that an ICMP message quotes, with the number of its quoted bytes, if a system reports by the message that it has
   rejected the packet. Returns NULL for other packets, and for reports that there is no route or that the packet is too long: the kernel
   counts these drops. */
const unsigned char *rejected_packet(const unsigned char *bytes, size_t len, size_t *quoted);
