/* The headers of IP and UDP, without checksums, that a datagram would have on a link. */
#pragma once
#include <netinet/in.h>
#include <stdbool.h>
#include <stddef.h>

/* An address of IPv4 or IPv6 with a port. */
union end {
    struct sockaddr any;
    struct sockaddr_in four;
    struct sockaddr_in6 six;
};

/* Returns the bytes of both headers in a family. */
size_t headers_length(sa_family_t family);

/* Returns the bytes of the system's address in a family. */
socklen_t end_length(sa_family_t family);

/* Writes the headers of a datagram with `data` bytes of data, which lie behind the headers. Both ends have the same family. */
void write_headers(unsigned char *bytes, size_t data, const union end *from, const union end *to);

/* Returns the client's end in the headers of a packet: the source on way 0, which leads to the server, and the destination on way 1. */
union end client_end(int way, const unsigned char *bytes);
