#define _GNU_SOURCE
#include "clients.h"

#include <errno.h>
#include <linux/sock_diag.h>
#include <stdio.h>
#include <stdlib.h>
#include <string.h>
#include <sys/epoll.h>
#include <sys/random.h>
#include <sys/resource.h>
#include <unistd.h>

#include "basics.h"

#define QUIET (60 * SECOND) /* the time without datagrams after which a client is removed */

enum {
    BUCKETS = 16384,
    AT_ONCE = 64,       /* the most sockets that one call of the system reports */
    OTHERS = 32,        /* the descriptors that this program needs for other things than clients */
    MOST = 65536,       /* the most clients */
    ROOM = 3500 * 1024, /* bytes of a socket's buffer, which the system doubles: then it has room for less than 10,000 datagrams */
};

struct clients {
    struct way *back; /* the counts of the way from the server */
    union end server;
    int waiting;                       /* the epoll(7) of all clients' sockets */
    struct client *buckets[BUCKETS];   /* lists of clients, by their ends */
    struct client *oldest;             /* the client that was quiet for the longest time */
    struct client *newest;             /* the client that was active last */
    size_t count;                      /* the number of clients */
    size_t most;                       /* the most clients that there may be */
    struct epoll_event ready[AT_ONCE]; /* the clients that the last call of the system reported */
    int ready_count;                   /* the number of these */
    int ready_next;                    /* the place of the first that next_ready_client() hasn't returned */
    uint64_t keys[2];                  /* random numbers, by which bucket_of() chooses a bucket */
    bool has_warned;                   /* whether a message has said why clients are turned away */
};

/* Returns how many clients there may be if the system allows `descriptors` descriptors. */
static size_t most_clients(rlim_t descriptors) {
    if (descriptors <= OTHERS) return 1;
    return descriptors - OTHERS < MOST ? (size_t)descriptors - OTHERS : MOST;
}

/* Raises the limit on this program's descriptors to what the system allows, and returns it. */
static rlim_t raise_limit(void) {
    struct rlimit limit;
    if (getrlimit(RLIMIT_NOFILE, &limit) < 0) fail("getrlimit", strerror(errno));
    limit.rlim_cur = limit.rlim_max;
    setrlimit(RLIMIT_NOFILE, &limit);
    return limit.rlim_cur;
}

struct clients *new_clients(const union end *server, struct way *back) {
    struct clients *clients = allocate_zeros(sizeof *clients);
    clients->most = most_clients(raise_limit());
    clients->server = *server;
    clients->back = back;
    if (getrandom(clients->keys, sizeof clients->keys, 0) != sizeof clients->keys) fail("getrandom", strerror(errno));
    clients->waiting = epoll_create1(EPOLL_CLOEXEC);
    if (clients->waiting < 0) fail("epoll", strerror(errno));
    return clients;
}

int clients_descriptor(const struct clients *clients) { return clients->waiting; }

/* Whether two ends of the server's family are the same. */
static bool is_same_end(const union end *first, const union end *second) {
    if (first->any.sa_family == AF_INET)
        return first->four.sin_port == second->four.sin_port && first->four.sin_addr.s_addr == second->four.sin_addr.s_addr;
    return first->six.sin6_port == second->six.sin6_port && memcmp(&first->six.sin6_addr, &second->six.sin6_addr, 16) == 0;
}

/* Returns the bucket of an end. Each run draws other keys, so that nobody can choose ends that share a bucket. */
static size_t bucket_of(const struct clients *clients, const union end *end) {
    uint64_t half[2] = {end->four.sin_addr.s_addr, end->four.sin_port};
    if (end->any.sa_family == AF_INET6) {
        memcpy(half, &end->six.sin6_addr, 16);
        half[1] ^= (uint64_t)end->six.sin6_port << 48;
    }
    unsigned __int128 product = (unsigned __int128)(half[0] ^ clients->keys[0]) * (half[1] ^ clients->keys[1]);
    return ((uint64_t)product ^ (uint64_t)(product >> 64)) % BUCKETS;
}

/* Takes a client out of the list by activity. */
static void unlink_client(struct clients *clients, struct client *client) {
    if (client->older) client->older->newer = client->newer;
    else clients->oldest = client->newer;
    if (client->newer) client->newer->older = client->older;
    else clients->newest = client->older;
}

/* Puts a client into the list by activity, as the newest. */
static void link_newest(struct clients *clients, struct client *client) {
    client->older = clients->newest;
    client->newer = NULL;
    if (clients->newest) clients->newest->newer = client;
    else clients->oldest = client;
    clients->newest = client;
}

void note_active(struct clients *clients, struct client *client, uint64_t moment) {
    client->active = moment;
    if (client == clients->newest) return;
    unlink_client(clients, client);
    link_newest(clients, client);
}

uint64_t dropped_at(int socket) {
    uint32_t counts[SK_MEMINFO_VARS] = {0};
    socklen_t len = sizeof counts;
    if (getsockopt(socket, SOL_SOCKET, SO_MEMINFO, counts, &len) < 0) return 0;
    return counts[SK_MEMINFO_DROPS];
}

static void remove_client(struct clients *clients, struct client *client) {
    struct client **link = &clients->buckets[bucket_of(clients, &client->end)];
    while (*link != client) link = &(*link)->in_bucket;
    *link = client->in_bucket;
    unlink_client(clients, client);
    clients->back->dropped += dropped_at(client->socket);
    close(client->socket);
    free(client);
    clients->count--;
    /* The reported clients may contain this one. The system reports the others again. */
    clients->ready_count = 0;
    clients->ready_next = 0;
}

void remove_quiet_clients(struct clients *clients, uint64_t moment) {
    struct client *client = clients->oldest;
    while (client && moment > client->active + QUIET) {
        struct client *newer = client->newer;
        remove_client(clients, client);
        client = newer;
    }
}

void count_dropped_of_clients(const struct clients *clients) {
    for (const struct client *client = clients->oldest; client; client = client->newer) clients->back->dropped += dropped_at(client->socket);
}

void give_room(int socket) {
    int room = ROOM;
    if (setsockopt(socket, SOL_SOCKET, SO_RCVBUFFORCE, &room, sizeof room) < 0) setsockopt(socket, SOL_SOCKET, SO_RCVBUF, &room, sizeof room);
}

struct client *find_client(const struct clients *clients, const union end *end) {
    struct client *client = clients->buckets[bucket_of(clients, end)];
    while (client && !is_same_end(&client->end, end)) client = client->in_bucket;
    return client;
}

/* Says on standard error why clients are turned away, but only the first time. */
static void warn_once(struct clients *clients, const char *what, const char *why) {
    if (!clients->has_warned) fprintf(stderr, "hinge: %s: %s\n", what, why);
    clients->has_warned = true;
}

/* Opens a client's socket to the server and has the epoll report it; returns -1 if the system refuses it. */
static int open_socket(struct clients *clients, struct client *client) {
    const struct sockaddr *server = &clients->server.any;
    struct epoll_event event = {.events = EPOLLIN, .data.ptr = client};
    int descriptor = socket(server->sa_family, SOCK_DGRAM | SOCK_NONBLOCK | SOCK_CLOEXEC, 0);
    if (descriptor < 0) return -1;
    if (connect(descriptor, server, end_length(server->sa_family)) < 0 || epoll_ctl(clients->waiting, EPOLL_CTL_ADD, descriptor, &event) < 0) {
        int error = errno;
        close(descriptor);
        errno = error;
        return -1;
    }
    give_room(descriptor);
    return descriptor;
}

/* Adds a client, or returns NULL if the system refuses its socket. */
static struct client *add_client(struct clients *clients, const union end *end, uint64_t moment) {
    struct client **bucket = &clients->buckets[bucket_of(clients, end)];
    struct client *client = reallocate(NULL, sizeof *client);
    *client = (struct client){.end = *end, .active = moment, .in_bucket = *bucket};
    client->socket = open_socket(clients, client);
    if (client->socket < 0) {
        warn_once(clients, "a client is turned away", strerror(errno));
        free(client);
        return NULL;
    }
    *bucket = client;
    link_newest(clients, client);
    clients->count++;
    return client;
}

struct client *find_or_add_client(struct clients *clients, const union end *end, uint64_t moment) {
    struct client *client = find_client(clients, end);
    if (client) return client;
    if (clients->count < clients->most) return add_client(clients, end, moment);
    warn_once(clients, "there are as many clients as the system allows", "new ones are turned away until one was quiet for a minute");
    return NULL;
}

struct client *next_ready_client(struct clients *clients) {
    if (clients->ready_next == clients->ready_count) {
        clients->ready_next = 0;
        clients->ready_count = epoll_wait(clients->waiting, clients->ready, AT_ONCE, 0);
        if (clients->ready_count < 0) clients->ready_count = 0;
    }
    if (clients->ready_next == clients->ready_count) return NULL;
    return clients->ready[clients->ready_next++].data.ptr;
}
