/* The processes that a run in rooms starts, and the waits for them. */
#define _GNU_SOURCE
#include <errno.h>
#include <signal.h>
#include <stdio.h>
#include <string.h>
#include <sys/wait.h>
#include <time.h>
#include <unistd.h>

#include "rooms.h"

static struct child *child_of(struct run *run, pid_t process) {
    struct child **one = run->children;
    if (run->link.process == process) return &run->link;
    while (*one && (*one)->process != process) one++;
    return *one;
}

void reap(struct run *run) {
    int status;
    for (pid_t process; (process = waitpid(-1, &status, WNOHANG)) > 0;) {
        struct child *child = child_of(run, process);
        if (child) *child = (struct child){process, true, status, now()};
    }
}

void nap(struct run *run, uint64_t ns) {
    sigset_t signals;
    struct timespec time = {(time_t)(ns / SECOND), (long)(ns % SECOND)};
    sigemptyset(&signals);
    sigaddset(&signals, SIGCHLD);
    sigaddset(&signals, SIGTERM);
    int number = sigtimedwait(&signals, NULL, &time);
    if (number == SIGTERM) run->came = SIGTERM; /* the children may have ended by the same cause, and not by themselves */
    else if (number > 0 || errno == EAGAIN) reap(run);
}

void wait_for_child(struct run *run, const struct child *child, uint64_t ns) {
    for (uint64_t until = now() + ns, moment; !child->is_over && (moment = now()) < until;) nap(run, until - moment);
}

pid_t started(void) {
    pid_t process = fork();
    if (process < 0) stop("fork");
    if (process) return process;
    sigset_t none;
    sigemptyset(&none);
    sigprocmask(SIG_SETMASK, &none, NULL);
    return 0;
}

static bool listens_in(const char *name, const char *state, unsigned port) {
    char path[60], line[300], text[3];
    unsigned own;
    bool found = false;
    snprintf(path, sizeof path, "/proc/thread-self/net/%s", name);
    FILE *file = fopen(path, "re");
    while (file && !found && fgets(line, sizeof line, file)) /* The kernel writes numbers that fit. NOLINTNEXTLINE(cert-err34-c) */
        found = sscanf(line, " %*s %*[^:]:%x %*s %2s", &own, text) == 2 && !strcmp(text, state) && (!port || own == port);
    if (file) fclose(file);
    return found;
}

bool something_listens(unsigned port) {
    return listens_in("tcp", "0A", port) || listens_in("tcp6", "0A", port) || listens_in("udp", "07", port) || listens_in("udp6", "07", port);
}

void signal_all(pid_t process, int number) {
    if (kill(-process, number)) kill(process, number);
}

bool is_there(struct run *run, const struct child *child) {
    reap(run);
    return kill(-child->process, 0) == 0 || !child->is_over;
}

void end(struct run *run, struct child *child, uint64_t patience) {
    reap(run);
    if (child->is_over) return;
    signal_all(child->process, SIGTERM);
    wait_for_child(run, child, patience);
}

int status_of(const struct child *child) { return WIFEXITED(child->status) ? WEXITSTATUS(child->status) : SIGNALLED + WTERMSIG(child->status); }
