/* The content of a packet, by which audits recognize the packet on its next link: the bytes that no host changes when it forwards the
   packet. */
#pragma once
#include <stddef.h>
#include <stdbool.h>
#include <stdint.h>

/* Whether no host may forward an IP packet, since its time to live is 1 or less. */
bool is_last_hop(const unsigned char *bytes);

/* Returns a number for the bytes of an IP packet, except its time to live, its class and its checksums, which a card may set. Packets with
   the same content have the same number. */
uint64_t content_of(const unsigned char *bytes, size_t len);

/* Returns a number for any bytes, without an exception. */
uint64_t content_of_bytes(const unsigned char *bytes, size_t len);

/* Returns the number of bits behind the header of an IP packet. */
size_t bits_behind_header(const unsigned char *bytes, size_t len);
