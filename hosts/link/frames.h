/* Ethernet frames, which the links of a switch carry whole. The bytes of the payload count on a link, behind the frame's addresses, tags
   and type. */
#pragma once
#include <stdbool.h>
#include <stddef.h>

#include "dissect.h"

enum { MAC = 6, SHORTEST_FRAME = 14 }; /* bytes of an address; of the two addresses and the type */

/* The payload of a frame, or an IP packet without a frame. */
struct payload {
    const unsigned char *bytes;
    size_t len;
    bool is_ip; /* whether it is an IP packet */
};

/* Whether an address is of a group or of all. */
static inline bool is_group(const unsigned char mac[MAC]) { return mac[0] & 1; }

/* Reads a frame's payload, and the fields that the links and the rules look at. A frame without IP has the protocol 0, its type as destination
   port, and IPv6 addresses made from its own (fe80::/64 with an EUI-64). Returns false if the bytes are shorter than a frame. */
bool dissect_frame(struct strangers *strangers, const unsigned char *frame, size_t len, struct payload *payload, struct dn_packet *packet,
                   struct headers *headers);
