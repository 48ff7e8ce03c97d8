/* A run of `hinge run`: the server's command in its room, the link, and the command in the client's room, whose end is the end. */
#define _GNU_SOURCE
#include <signal.h>
#include <stdio.h>
#include <stdlib.h>
#include <unistd.h>

#include "rooms.h"

enum { QUIET_POLL = 20 * MS, QUIET = 300 * MS, LAST_PACKETS = SECOND };
enum { CLIENT, SERVER }; /* networks */

struct two {
    struct run run;
    char *server_command;
    uint64_t wait, patience; /* ns that the server has to listen, and to end */
    struct child command, server, *children[3];
};

static pid_t start_user(const struct two *two, size_t network, char **words) {
    pid_t process = started();
    if (process) return process;
    if (network == SERVER) setpgid(0, 0);
    enter(&two->run, network);
    become(two->run.user, words);
}

static void start_server(struct two *two) {
    struct run *run = &two->run;
    char *words[] = {"sh", "-c", two->server_command, NULL};
    uint64_t until = now() + two->wait;
    two->server.process = start_user(two, SERVER, words);
    enter(run, SERVER);
    while (!run->came && !two->server.is_over && !something_listens(0) && now() < until) nap(run, LISTEN_POLL);
    if (two->server.is_over && !run->came) dprintf(2, "hinge run: the server ended with %d before it listened\n", status_of(&two->server));
    else if (!run->came && !something_listens(0))
        dprintf(2, "hinge run: the server doesn't listen after %g s; the command begins\n", (double)two->wait / SECOND);
}

/* The packets that came, went and wait. */
static uint64_t passages(const struct run *run) {
    uint64_t sum = 0;
    for (int way = 0; way < 2; way++)
        sum += run->page[HEAD + way * WAY + CAME] + run->page[HEAD + way * WAY + SENT] + run->page[HEAD + way * WAY + HELD];
    return sum;
}

/* Lets a server end by itself: until the link has carried nothing for a while. */
static void let_last_packets_pass(struct two *two) {
    uint64_t last = UINT64_MAX, begun = now(), since = begun;
    while (!two->server.is_over && now() < begun + LAST_PACKETS && now() <= since + QUIET) {
        if (passages(&two->run) != last) since = now();
        last = passages(&two->run);
        nap(&two->run, QUIET_POLL);
    }
}

/* How the server ended: by itself, by SIGTERM or SIGKILL. */
static const char *end_server(struct two *two, bool was_over) {
    struct run *run = &two->run;
    struct child *server = &two->server;
    reap(run);
    if (was_over && server->status) dprintf(2, "hinge run: the server ended with %d before the command did\n", status_of(server));
    else if (!run->came) let_last_packets_pass(two);
    if (server->is_over) return "itself";
    signal_all(server->process, SIGTERM);
    for (uint64_t until = now() + two->patience; is_there(run, server) && now() < until;) nap(run, until - now());
    if (!is_there(run, server)) return "SIGTERM";
    signal_all(server->process, SIGKILL);
    wait_for_child(run, server, two->patience);
    dprintf(2, "hinge run: the server was killed, since SIGTERM didn't end it in %g s\n", (double)two->patience / SECOND);
    return "SIGKILL";
}

int run_link(struct job *job, const struct user *user) {
    struct two two = {.run.user = user, .children = {&two.command, &two.server}};
    struct run *run = &two.run;
    run->children = two.children;
    make_rooms(run, job);
    two.server_command = must_next(job);
    two.wait = strtoull(must_next(job), NULL, 10);
    two.patience = strtoull(must_next(job), NULL, 10);
    if (*two.server_command) start_server(&two);
    if (run->came) return SIGNALLED + run->came;
    start_link(run);
    if (run->link.is_over) return status_of(&run->link);
    if (!run->came) two.command.process = start_user(&two, CLIENT, user->words);
    while (two.command.process && !two.command.is_over && !run->link.is_over && !run->came) nap(run, FOR_EVER);
    bool was_over = two.server.is_over;
    if (two.command.process) end(run, &two.command, SECOND);
    const char *by = *two.server_command ? end_server(&two, was_over) : "none";
    char text[200];
    snprintf(text, sizeof text, "%d %d %s %d %llu\n", two.command.is_over, two.command.status, by, two.server.status,
             (unsigned long long)(two.server.at ? two.server.at - run->begun : 0));
    end_rooms(run, text);
    return 0;
}
