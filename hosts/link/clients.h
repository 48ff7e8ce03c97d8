/* The clients of a UDP path. Each has a socket of its own to the server, which is closed after a minute without datagrams. */
#pragma once
#include <stdint.h>

#include "datagram.h"
#include "page.h"

struct client {
    union end end;            /* its address and port */
    int socket;               /* its socket to the server */
    uint64_t active;          /* the moment at which a datagram last passed */
    struct client *in_bucket; /* the next client in its bucket */
    struct client *older;     /* the client that was active before it */
    struct client *newer;     /* the client that was active after it */
};

/* Returns the clients of a server, of which there are none yet, and at most as many as the system allows sockets. `back` counts the
   datagrams that the system drops on the way back from the server. */
struct clients *new_clients(const union end *server, struct way *back);

/* Returns a descriptor that can be read when datagrams of the server have come for any client. */
int clients_descriptor(const struct clients *clients);

/* Returns the client of an end, or NULL. */
struct client *find_client(const struct clients *clients, const union end *end);

/* Returns the client of an end, which may be a new one. Returns NULL if there can't be another client. */
struct client *find_or_add_client(struct clients *clients, const union end *end, uint64_t moment);

/* Returns a client for which datagrams of the server have come, at each call another one, or NULL behind the last. */
struct client *next_ready_client(struct clients *clients);

/* Notes that a client's datagram passes at a moment. */
void note_active(struct clients *clients, struct client *client, uint64_t moment);

/* Removes the clients that were quiet for a minute. */
void remove_quiet_clients(struct clients *clients, uint64_t moment);

/* Returns the number of packets that the system dropped at a socket. */
uint64_t dropped_at(int socket);

/* Counts the packets that the system dropped at the sockets of all clients. */
void count_dropped_of_clients(const struct clients *clients);

/* Gives a socket the buffer that unread.h assumes, as far as the system allows it. */
void give_room(int socket);
