/* What comes on ways (a way is one direction of a link), as carrier.h numbers them, and enters the links. */
#pragma once
#include <stdbool.h>
#include <stddef.h>
#include <stdint.h>

#include "frames.h"

struct host;

/* What came on a way, behind the carrier's prefix: a frame or an IP packet. */
struct arrival {
    const unsigned char *bytes;
    size_t size;
    bool is_for_all; /* whether a switch sends the frame to each other way */
};

/* Drops what the systems of hosts at switches sent before there were links, such as the messages about their IPv6 groups. */
void begin_ways(struct host *host);

/* Receives what has come on a way, up to some packets, and gives it to the link. */
void receive_packets(struct host *host, int way);

/* Gives an arrival to its link at a moment, and its copy if the link draws one. False if the bytes are neither a frame nor an IP packet. */
bool give_to_link(struct host *host, int way, const struct arrival *arrival, uint64_t moment);

/* Reads the payload of an arrival, the fields that the links get, and the headers that rules look at. False if the bytes are neither a
   frame nor an IP packet. */
bool read_arrival(const struct host *host, int way, const struct arrival *arrival, struct payload *payload, struct dn_packet *packet,
                  struct headers *headers);

/* Returns the number by which path audits recognize a packet on its next link. */
uint64_t number_of_content(const struct payload *payload);

/* Remarks what path audits need about the packet of the next submit: its content, and whether each host may get it, or no host may forward
   it. */
void remark_payload(const struct host *host, const struct payload *payload, bool is_for_all);
