/* What happens to hosts of a net at moments, by their processes: what hinge/net/acts.py does in real time. */
#define _GNU_SOURCE
#include <ctype.h>
#include <dirent.h>
#include <errno.h>
#include <signal.h>
#include <stdio.h>
#include <stdlib.h>
#include <string.h>
#include <sys/stat.h>
#include <unistd.h>

#include "net.h"

enum { ROUNDS = 64 };

/* --- all that runs on a host --- */

static pid_t number_of(const char *process) { return (pid_t)strtol(process, NULL, 10); }

static bool is_of(const char *process, const struct stat *network) {
    char path[300];
    struct stat own;
    snprintf(path, sizeof path, "/proc/%s/ns/net", process);
    return isdigit(*process) && number_of(process) != getpid() && stat(path, &own) == 0 && own.st_ino == network->st_ino &&
           own.st_dev == network->st_dev;
}

/* Sends a signal to all that is in a network; how many there were. */
static int send_to(const struct net *net, const struct host *host, int number) {
    struct stat network;
    int count = 0;
    DIR *all = opendir("/proc");
    if (!all || fstat(net->run.networks.files[host->network], &network)) stop("/proc");
    for (struct dirent *one; (one = readdir(all));)
        if (is_of(one->d_name, &network)) kill(number_of(one->d_name), number), count++;
    closedir(all);
    return count;
}

/* Also to those that begin meanwhile. */
static void send_to_all(const struct net *net, const struct host *host, int number) {
    for (int before = -1, count = 0; count != before; before = count, count = send_to(net, host, number)) {}
}

/* They stand still first, so that none sees the end of another one. */
static void kill_all(struct net *net, const struct host *host) {
    send_to_all(net, host, SIGSTOP);
    for (int round = 0; round < ROUNDS && send_to(net, host, SIGKILL); round++) nap(&net->run, MS);
}

/* --- acts --- */

bool goes_on(const struct net *net, const struct host *host, const char *end) {
    for (const struct act *act = net->acts; act < net->acts + net->act_count; act++)
        if (act->lasts && net->hosts + act->host == host && !strcmp(act->ending, end)) return true;
    return false;
}

bool is_awaited(const struct net *net, const struct host *host) {
    for (const struct act *act = net->acts; act < net->acts + net->act_count; act++)
        if (act->is_pending && net->hosts + act->host == host && !strcmp(act->word, "restart")) return true;
    return false;
}

/* Whether an act ends a fault of its host, and another one of its kind goes on. One that was written as such ends all of them. */
static bool is_held(struct net *net, struct act *end) {
    bool is_own = !end->fault;
    end->lasts = *end->ending != 0;
    if (end->lasts) return false;
    for (struct act *act = net->acts; act < net->acts + net->act_count; act++)
        if (act->lasts && act->host == end->host && !strcmp(act->ending, end->word) && (!end->fault || act->fault == end->fault))
            act->lasts = false, is_own = true;
    return !is_own || (end->fault && goes_on(net, net->hosts + end->host, end->word));
}

static void do_act(struct net *net, const struct act *act, struct host *host) {
    char text[100];
    snprintf(text, sizeof text, "%s %s", host->clock, act->more);
    if (!strcmp(act->word, "skew")) tell("/proc/clocks", text);
    else if (!strcmp(act->word, "stop")) send_to_all(net, host, SIGSTOP);
    else if (!strcmp(act->word, "cont")) send_to_all(net, host, SIGCONT);
    else if (!strcmp(act->word, "kill") || !strcmp(act->word, "restart")) kill_all(net, host);
    else errno = ENOSYS, stop(act->word);
    if (!strcmp(act->word, "restart")) begin(net, host);
}

static void carry_out(struct net *net, struct act *act) {
    char text[200];
    struct host *host = net->hosts + act->host;
    bool is_fault = *act->ending && !goes_on(net, host, "restart");
    act->is_pending = false;
    if (is_held(net, act)) return;
    bool met_nothing = is_fault && send_to(net, host, 0) == 0;
    reap(&net->run);
    if (is_fault && !strcmp(act->ending, "restart")) host->has_ended = host->child.is_over;
    do_act(net, act, host);
    reap(&net->run);
    snprintf(text, sizeof text, "line remark act,%s %s", act->word, host->name);
    net->done = realloc(net->done, (net->done_count + 1) * sizeof *net->done);
    if (!net->done) stop("memory");
    net->done[net->done_count++] = (struct done){(size_t)(act - net->acts), ask_link(&net->run, text), met_nothing};
}

void begin_acts(struct net *net, bool of_main, uint64_t moment) {
    uint64_t begun = now();
    for (struct act *act = net->acts; act < net->acts + net->act_count; act++)
        if (act->of_main == of_main) act->is_pending = true, act->due = begun + act->ns - moment;
}

static struct act *next_act(const struct net *net) {
    struct act *first = NULL;
    for (struct act *act = net->acts; act < net->acts + net->act_count; act++)
        if (act->is_pending && (!first || act->due < first->due)) first = act;
    return first;
}

uint64_t left(const struct net *net) {
    const struct act *next = next_act(net);
    uint64_t moment = now();
    return !next ? FOR_EVER : next->due > moment ? next->due - moment : 0;
}

void tick(struct net *net) {
    for (struct act *next; (next = next_act(net)) && next->due <= now();) carry_out(net, next);
}

void cont_all(struct net *net) {
    bool is_told = false;
    for (struct host *host = net->hosts; host < net->hosts + net->host_count; host++) {
        if (!goes_on(net, host, "cont")) continue;
        if (!is_told) ask_link(&net->run, "line remark ending");
        is_told = true;
        send_to_all(net, host, SIGCONT);
    }
}
