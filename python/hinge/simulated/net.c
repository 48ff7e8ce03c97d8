/* A run of `hinge net`: hosts whose commands begin behind the links, waits for their ports, the main command, and what happens to hosts at
   moments. What hinge/net/net_inside.py does in real time. */
#define _GNU_SOURCE
#include "net.h"

#include <errno.h>
#include <fcntl.h>
#include <sched.h>
#include <signal.h>
#include <stdio.h>
#include <stdlib.h>
#include <string.h>
#include <sys/stat.h>
#include <sys/wait.h>
#include <unistd.h>

/* --- what the launcher planned --- */

static uint64_t next_number(struct job *job) { return strtoull(must_next(job), NULL, 10); }

static void *room_for(size_t count, size_t size) {
    void *place = calloc(count + 1, size);
    if (!place) stop("memory");
    return place;
}

static void next_host(struct job *job, struct host *host) {
    host->name = must_next(job);
    host->network = next_number(job);
    host->command = must_next(job);
    host->clock = must_next(job);
    host->log = must_next(job);
}

static void next_wait(struct job *job, struct wait *wait) {
    wait->host = next_number(job);
    wait->port = (unsigned)next_number(job);
    wait->patience = next_number(job);
    wait->is_optional = !strcmp(must_next(job), "optional");
}

static void next_planned_act(struct job *job, struct act *act) {
    act->of_main = !strcmp(must_next(job), "main");
    act->ns = next_number(job);
    act->word = must_next(job);
    act->ending = must_next(job);
    act->host = next_number(job);
    act->fault = next_number(job);
    act->more = must_next(job);
}

static void read_net(struct net *net, struct job *job) {
    net->patience = next_number(job);
    net->folder = must_next(job);
    net->has_main = !strcmp(must_next(job), "main"); /* which is the last host */
    net->host_count = next_number(job);
    net->hosts = room_for(net->host_count, sizeof *net->hosts);
    /* NOLINTNEXTLINE(bugprone-sizeof-expression): a list of pointers */
    net->run.children = room_for(net->host_count, sizeof *net->run.children);
    for (size_t i = 0; i < net->host_count; i++) {
        next_host(job, &net->hosts[i]);
        net->run.children[i] = &net->hosts[i].child;
    }
    net->wait_count = next_number(job);
    net->waits = room_for(net->wait_count, sizeof *net->waits);
    for (size_t i = 0; i < net->wait_count; i++) next_wait(job, &net->waits[i]);
    net->act_count = next_number(job);
    net->acts = room_for(net->act_count, sizeof *net->acts);
    for (size_t i = 0; i < net->act_count; i++) next_planned_act(job, &net->acts[i]);
}

/* --- hosts --- */

static bool is_main(const struct net *net, const struct host *host) { return net->has_main && host == net->hosts + net->host_count - 1; }

/* The user's variables, with the two of a host behind them. */
static char **names_of(const struct net *net, const struct host *host) {
    size_t count = 0, all = 0;
    while (net->run.user->names[all]) all++;
    char **names = room_for(all + 2, sizeof *names);
    for (size_t i = 0; i < all; i++)
        if (strncmp(net->run.user->names[i], "HINGE_HOST=", strlen("HINGE_HOST=")) != 0 &&
            strncmp(net->run.user->names[i], "HINGE_NET=", strlen("HINGE_NET=")) != 0)
            names[count++] = net->run.user->names[i];
    if (asprintf(&names[count], "HINGE_HOST=%s", host->name) < 0 || asprintf(&names[count + 1], "HINGE_NET=%s", net->folder) < 0) stop("memory");
    return names;
}

static void take_log(const struct host *host, bool is_first) {
    int log = open(host->log, O_WRONLY | O_CREAT | O_APPEND | O_NOFOLLOW | (is_first ? O_TRUNC : 0) | O_CLOEXEC, 0666);
    if (log >= 0 && dup2(log, 1) == 1 && dup2(log, 2) == 2) return;
    dprintf(2, "hinge net: %s: %s\n", host->log, strerror(errno));
    _exit(CANNOT_EXECUTE);
}

static char **words_of(const struct net *net, const struct host *host) {
    size_t count = 0;
    while (net->run.user->words[count]) count++;
    char **words = room_for(count + 3, sizeof *words);
    words[0] = "sh", words[1] = "-c", words[2] = host->command;
    for (size_t i = 0; is_main(net, host) && i < count; i++) words[3 + i] = net->run.user->words[i];
    return words;
}

static _Noreturn void become_host(const struct net *net, const struct host *host, bool is_first, bool is_stopped) {
    struct user user = *net->run.user;
    int nothing = is_main(net, host) ? -1 : open("/dev/null", O_RDWR | O_CLOEXEC);
    if (nothing >= 0) setpgid(0, 0), dup2(nothing, 0);
    if (*host->log) take_log(host, is_first);
    enter(&net->run, host->network);
    if (unshare(CLONE_NEWUTS) || sethostname(host->name, strlen(host->name))) stop("the name of a host");
    tell("/proc/clocks", host->clock);
    user.names = names_of(net, host);
    if (is_stopped) raise(SIGSTOP);
    become(&user, words_of(net, host));
}

void begin(struct net *net, struct host *host) {
    bool is_first = !host->has_begun, is_stopped = goes_on(net, host, "cont");
    siginfo_t stopped;
    host->has_begun = true;
    host->child = (struct child){started(), false, 0, 0};
    if (!host->child.process) become_host(net, host, is_first, is_stopped);
    if (is_stopped) waitid(P_PID, (id_t)host->child.process, &stopped, WSTOPPED | WEXITED | WNOWAIT);
}

/* Waits for the ports; one without which the net doesn't go on is the last that is told. */
static bool wait_for_ports(struct net *net) {
    struct run *run = &net->run;
    for (struct wait *wait = net->waits; wait < net->waits + net->wait_count; wait++) {
        struct host *host = net->hosts + wait->host;
        enter(run, host->network);
        for (uint64_t until = now() + wait->patience; now() < until; nap(run, LISTEN_POLL)) {
            tick(net);
            if (run->came || something_listens(wait->port) || (host->child.is_over && !is_awaited(net, host))) break;
            enter(run, host->network);
        }
        enter(run, host->network);
        if (run->came) return false;
        wait->is_silent = !something_listens(wait->port);
        wait->status = !host->has_begun || !host->child.is_over ? -1 : status_of(&host->child);
        if (wait->is_silent && !wait->is_optional) return false;
    }
    return true;
}

/* Whether the net goes on: until its main command has ended, or all have where there is none and none will begin again. */
static bool goes_on_yet(const struct net *net) {
    if (net->has_main) return !net->hosts[net->host_count - 1].child.is_over;
    for (const struct host *host = net->hosts; host < net->hosts + net->host_count; host++)
        if ((host->has_begun && !host->child.is_over) || is_awaited(net, host)) return true;
    return false;
}

static void last(struct net *net) {
    struct run *run = &net->run;
    net->main_moment = -1;
    for (struct host *host = net->hosts; host < net->hosts + net->host_count; host++)
        if (*host->command && !is_main(net, host)) begin(net, host);
    if (!wait_for_ports(net)) return;
    if (net->has_main) {
        net->main_moment = (long long)ask_link(run, "main");
        begin_acts(net, true, 0);
        begin(net, net->hosts + net->host_count - 1);
    }
    while (!run->came && !run->link.is_over && goes_on_yet(net)) {
        tell("/proc/waits", left(net) < FOR_EVER ? "1" : "0"); /* what waits for an act isn't for ever without life */
        nap(run, left(net));
        tick(net);
    }
}

/* --- the end --- */

/* Ends all hosts; stopped ones go on for that. */
static void end_hosts(struct net *net) {
    struct run *run = &net->run;
    cont_all(net);
    if (!run->came) reap(run);
    for (struct host *host = net->hosts; host < net->hosts + net->host_count; host++) {
        bool was_over = host->child.is_over;
        host->by = !was_over ? "SIGTERM" : goes_on(net, host, "restart") && !host->has_ended ? "kill" : "itself";
        if (host->has_begun && !was_over) signal_all(host->child.process, SIGTERM);
    }
    uint64_t until = now() + net->patience;
    for (struct host *host = net->hosts; host < net->hosts + net->host_count; host++) {
        if (!host->has_begun || strcmp(host->by, "SIGTERM") != 0) continue;
        while (is_there(run, &host->child) && now() < until) nap(run, until - now());
        if (!is_there(run, &host->child)) continue;
        host->by = "SIGKILL";
        signal_all(host->child.process, SIGKILL);
        wait_for_child(run, &host->child, net->patience);
    }
}

static char *told(const struct net *net) {
    char *text = NULL;
    size_t size = 0;
    FILE *file = open_memstream(&text, &size);
    if (!file) stop("memory");
    fprintf(file, "net %d %lld\n", net->run.came, net->main_moment);
    for (const struct host *host = net->hosts; host < net->hosts + net->host_count; host++)
        if (host->has_begun)
            fprintf(file, "host %s %d %llu %s\n", host->name, host->child.is_over ? host->child.status : SIGKILL,
                    (unsigned long long)((host->child.at ? host->child.at : now()) - net->run.begun), host->by);
    for (size_t i = 0; i < net->wait_count; i++)
        if (net->waits[i].is_silent) fprintf(file, "silent %zu %d\n", i, net->waits[i].status);
    for (const struct done *done = net->done; done < net->done + net->done_count; done++)
        fprintf(file, "act %zu %llu %d\n", done->act, (unsigned long long)done->moment, done->met_nothing);
    fclose(file);
    return text;
}

int run_net(struct job *job, const struct user *user) {
    struct net net = {.run.user = user};
    make_rooms(&net.run, job);
    read_net(&net, job);
    start_link(&net.run);
    if (net.run.link.is_over) return status_of(&net.run.link);
    begin_acts(&net, false, ask_link(&net.run, "moment"));
    last(&net);
    end_hosts(&net);
    end_rooms(&net.run, told(&net));
    return 0;
}
