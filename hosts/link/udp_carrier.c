#define _GNU_SOURCE
#include <arpa/inet.h>
#include <errno.h>
#include <sys/socket.h>

#include "basics.h"
#include "carrier.h"
#include "clients.h"
#include "datagram.h"

struct udp {
    const struct clock *clock;
    struct way *ways; /* the counts of both ways */
    int front;        /* the socket to which clients send */
    int polled[2];    /* the descriptors to wait for on each way */
    union end server;
    struct clients *clients;
    unsigned char bytes[LONGEST];
};

/* Counts a datagram as turned away, and returns 0: nothing enters the link. */
static ssize_t turn_away(struct udp *udp, int way) {
    udp->ways[way].turned_away++;
    return 0;
}

/* Receives a datagram of a client. It is turned away if there can't be another client, or if the packet would be longer than a link's
   longest, as with some of IPv6. MSG_TRUNC returns the length of the whole datagram. */
static ssize_t receive_from_client(struct udp *udp) {
    size_t headers = headers_length(udp->server.any.sa_family);
    union end from;
    socklen_t length = sizeof from;
    ssize_t data = recvfrom(udp->front, udp->bytes + headers, LONGEST - headers, MSG_DONTWAIT | MSG_TRUNC, &from.any, &length);
    if (data < 0) return -1;
    if ((size_t)data > LONGEST - headers) return turn_away(udp, 0);
    struct client *client = find_or_add_client(udp->clients, &from, udp->clock->last);
    if (!client) return turn_away(udp, 0);
    note_active(udp->clients, client, udp->clock->last);
    write_headers(udp->bytes, (size_t)data, &from, &udp->server);
    return (ssize_t)headers + data;
}

/* Counts a datagram, which has been counted as sent, as refused: the server's system has no socket for it. */
static void note_refused(struct way *way) {
    if (way->sent == 0) return;
    way->sent--;
    way->refused++;
}

/* Takes a datagram of the server that a client's socket has received. */
static ssize_t take_reply(struct udp *udp, struct client *client, size_t headers, size_t data) {
    if (data > LONGEST - headers) return turn_away(udp, 1);
    note_active(udp->clients, client, udp->clock->last);
    write_headers(udp->bytes, data, &udp->server, &client->end);
    return (ssize_t)(headers + data);
}

/* Receives a datagram of the server from the first socket that has one. */
static ssize_t receive_from_server(struct udp *udp) {
    size_t headers = headers_length(udp->server.any.sa_family);
    struct client *client = next_ready_client(udp->clients);
    while (client) {
        ssize_t data = recv(client->socket, udp->bytes + headers, LONGEST - headers, MSG_DONTWAIT | MSG_TRUNC);
        if (data >= 0) return take_reply(udp, client, headers, (size_t)data);
        if (errno == ECONNREFUSED) note_refused(&udp->ways[0]);
        client = next_ready_client(udp->clients);
    }
    return -1;
}

static ssize_t receive(void *state, int way, unsigned char **packet) {
    struct udp *udp = state;
    *packet = udp->bytes;
    return way == 0 ? receive_from_client(udp) : receive_from_server(udp);
}

/* Sends to the server from a client's socket. The first try may only report the refusal of an earlier datagram; then there is a second one. */
static bool send_to_server(struct way *way, int socket, const unsigned char *data, size_t len) {
    if (send(socket, data, len, MSG_DONTWAIT) >= 0) return true;
    if (errno != ECONNREFUSED) return false;
    note_refused(way);
    return send(socket, data, len, MSG_DONTWAIT) >= 0;
}

/* Sends a packet's data from the socket of its way. This carrier doesn't join packets, so there is one. */
static bool transmit(void *state, int way, const struct bytes *packets, int count) {
    struct udp *udp = state;
    union end end = client_end(way, packets->at);
    size_t headers = headers_length(end.any.sa_family);
    size_t len = packets->len - headers;
    const unsigned char *data = packets->at + headers;
    struct client *client = find_client(udp->clients, &end);
    if (!client || count != 1) return false; /* a quiet client has been removed */
    note_active(udp->clients, client, udp->clock->last);
    if (way == 0) return send_to_server(&udp->ways[0], client->socket, data, len);
    return sendto(udp->front, data, len, MSG_DONTWAIT, &client->end.any, end_length(end.any.sa_family)) >= 0;
}

static void look_after(void *state, uint64_t moment) {
    struct udp *udp = state;
    remove_quiet_clients(udp->clients, moment);
}

static void end(void *state) {
    const struct udp *udp = state;
    udp->ways[0].dropped = dropped_at(udp->front);
    count_dropped_of_clients(udp->clients);
}

/* Returns the end of a server with this address. Ends the program if the address is wrong. */
static union end server_end(const char *address, in_port_t port) {
    union end server = {0};
    if (inet_pton(AF_INET, address, &server.four.sin_addr) == 1) {
        server.four.sin_family = AF_INET;
        server.four.sin_port = port;
    } else if (inet_pton(AF_INET6, address, &server.six.sin6_addr) == 1) {
        server.six.sin6_family = AF_INET6;
        server.six.sin6_port = port;
    } else fail(address, "no address");
    return server;
}

struct carrier udp_carrier(int front, const char *address, const char *port, struct page *page, const struct clock *clock) {
    struct udp *udp = allocate_zeros(sizeof *udp);
    udp->clock = clock;
    udp->ways = page->ways;
    udp->front = front;
    udp->server = server_end(address, htons((uint16_t)number_of(port)));
    give_room(front);
    udp->clients = new_clients(&udp->server, &page->ways[1]);
    udp->polled[0] = front;
    udp->polled[1] = clients_descriptor(udp->clients);
    return (struct carrier){
        .ways = 2, .polled = udp->polled, .state = udp, .receive = receive, .transmit = transmit, .look_after = look_after, .end = end};
}
