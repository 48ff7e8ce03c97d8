/* The rooms of a run in a simulated machine, which are network namespaces that links join: what hinge/run and hinge/net do in real time, by
   steps that the launcher planned. What was counted goes into files beside the job, and the launcher tells of it. */
#define _GNU_SOURCE
#include "rooms.h"

#include <errno.h>
#include <fcntl.h>
#include <linux/if_tun.h>
#include <linux/netlink.h>
#include <net/if.h>
#include <sched.h>
#include <signal.h>
#include <stdio.h>
#include <stdlib.h>
#include <string.h>
#include <sys/ioctl.h>
#include <sys/mman.h>
#include <sys/mount.h>
#include <sys/socket.h>
#include <sys/stat.h>
#include <unistd.h>

#define LOADER FOLDER "/ld.so" /* of the system, beside its C library, where the root is another */
enum { LINK_POLL = SECOND / 2000, LONGEST_ANSWER = 1 << 16, LINK_PATIENCE = 5 };

/* --- what the launcher planned --- */

static int network_here(void) {
    int network = open("/proc/thread-self/ns/net", O_RDONLY | O_CLOEXEC);
    if (network < 0) stop("a room");
    return network;
}

void enter(const struct run *run, size_t network) {
    if (network >= run->networks.count || setns(run->networks.files[network], CLONE_NEWNET)) stop("a room");
}

static void add_file(struct files *files, int file) {
    files->files = realloc(files->files, (files->count + 1) * sizeof *files->files);
    if (!files->files) stop("memory");
    files->files[files->count++] = file;
}

static void set(const char *path, const char *text) {
    int file = open(path, O_WRONLY | O_CLOEXEC);
    if (file >= 0 && write(file, text, strlen(text)) < 0) {}
    if (file >= 0) close(file);
}

static void put_over(const char *path, const char *text) {
    char made[100];
    snprintf(made, sizeof made, "/run%s", strrchr(path, '/'));
    tell(made, text);
    chmod(made, 0644);
    if (mount(made, path, NULL, MS_BIND, NULL)) dprintf(2, "hinge: %s: %s\n", path, strerror(errno));
}

/* The launcher knows an interface by the number that it will have. */
static int tun(const char *name, int flags, unsigned offload, unsigned number) {
    struct ifreq asked = {.ifr_flags = (short)flags};
    int file = open("/dev/net/tun", O_RDWR | O_CLOEXEC);
    snprintf(asked.ifr_name, sizeof asked.ifr_name, "%s", name);
    if (file < 0 || ioctl(file, TUNSETIFF, &asked) || ioctl(file, TUNSETOFFLOAD, offload) || ioctl(file, TUNSETPERSIST, 1)) stop("/dev/net/tun");
    if (if_nametoindex(name) != number) stop("the number of an interface");
    return file;
}

/* Sends messages of rtnetlink, which are told in hex, and waits for the answer to the last. */
static void ask_kernel(unsigned last, const char *hex) {
    char bytes[LONGEST_ANSWER];
    size_t length = strlen(hex) / 2;
    int line = socket(AF_NETLINK, SOCK_RAW | SOCK_CLOEXEC, NETLINK_ROUTE);
    if (line < 0 || length > sizeof bytes) stop("rtnetlink");
    for (size_t i = 0; i < length; i++) {
        char pair[3] = {hex[2 * i], hex[2 * i + 1], 0};
        bytes[i] = (char)strtoul(pair, NULL, 16);
    }
    if (send(line, bytes, length, 0) < 0) stop("rtnetlink");
    for (unsigned number = 0; number != last;) {
        long got = recv(line, bytes, sizeof bytes, 0);
        if (got < 0) stop("rtnetlink");
        for (struct nlmsghdr *head = (struct nlmsghdr *)bytes; NLMSG_OK(head, got); head = NLMSG_NEXT(head, got)) {
            number = head->nlmsg_seq;
            errno = -((struct nlmsgerr *)NLMSG_DATA(head))->error;
            if (errno) stop("an interface");
        }
    }
    close(line);
}

/* Does one of the steps of hinge/run/steps.py, each of which is the name and the words of a call there. */
static void step(struct run *run, struct job *job, const char *word) {
    if (!strcmp(word, "room")) {
        if (unshare(CLONE_NEWNET)) stop("a room");
        add_file(&run->networks, network_here());
        return;
    }
    const char *first = must_next(job);
    if (!strcmp(word, "enter")) {
        enter(run, strtoul(first, NULL, 10));
        return;
    }
    const char *second = must_next(job);
    if (!strcmp(word, "set")) set(first, second);
    else if (!strcmp(word, "over")) put_over(first, second);
    else if (!strcmp(word, "ask")) ask_kernel((unsigned)strtoul(first, NULL, 10), second);
    else if (!strcmp(word, "tun")) {
        unsigned offload = (unsigned)strtoul(must_next(job), NULL, 10), number = (unsigned)strtoul(must_next(job), NULL, 10);
        add_file(&run->interfaces, tun(first, (int)strtol(second, NULL, 10), offload, number));
    } else stop(word);
}

void make_rooms(struct run *run, struct job *job) {
    sigset_t signals;
    sigemptyset(&signals);
    sigaddset(&signals, SIGCHLD);
    sigaddset(&signals, SIGTERM);
    sigprocmask(SIG_BLOCK, &signals, NULL);
    if (mount("none", "/", NULL, MS_REC | MS_PRIVATE, NULL)) stop("mounts");
    if (mount("proc", "/proc", "proc", 0, NULL)) stop("/proc");
    add_file(&run->networks, network_here());
    for (const char *word; strcmp(word = must_next(job), "end") != 0;) step(run, job, word);
    run->ends = must_next(job);
    run->link_program = must_next(job);
    run->plan = must_next(job);
    run->page_size = strtoul(must_next(job), NULL, 10);
    run->begun = now();
}

/* --- the links --- */

/* The words of the links' program: an interface or -1 for each end, and the page. */
static char **link_words(const struct run *run) {
    size_t count = 0;
    char **words = calloc(strlen(run->ends) + 8, sizeof *words), *end;
    if (!words) stop("memory");
    if (!access(LOADER, F_OK)) words[count++] = LOADER, words[count++] = "--library-path", words[count++] = FOLDER;
    words[count++] = run->link_program;
    words[count++] = "tun";
    for (const char *text = run->ends; *text; text = end + (*end == ' ')) {
        long place = strtol(text, &end, 10);
        if (asprintf(&words[count++], "%d", place < 0 ? -1 : run->interfaces.files[place]) < 0) stop("memory");
    }
    if (asprintf(&words[count], "%d", run->page_file) < 0) stop("memory");
    return words;
}

static void become_link(const struct run *run, int plan, int control) {
    char **words = link_words(run);
    for (size_t i = 0; i < run->interfaces.count; i++) fcntl(run->interfaces.files[i], F_SETFD, 0);
    fcntl(run->page_file, F_SETFD, 0);
    fcntl(control, F_SETFD, 0);
    dup2(plan, 0);
    execv(words[0], words);
    dprintf(2, "hinge: %s: %s\n", words[0], strerror(errno));
    _exit(NOT_FOUND);
}

void start_link(struct run *run) {
    int plan = memfd_create("plan", MFD_CLOEXEC), ends[2];
    run->page_file = memfd_create("hinge-run", MFD_CLOEXEC);
    if (plan < 0 || run->page_file < 0 || ftruncate(run->page_file, (off_t)run->page_size)) stop("the page");
    if (socketpair(AF_UNIX, SOCK_SEQPACKET | SOCK_CLOEXEC, 0, ends)) stop("a line to the links");
    run->page = mmap(NULL, run->page_size, PROT_READ | PROT_WRITE, MAP_SHARED, run->page_file, 0);
    if (run->page == MAP_FAILED || dprintf(plan, "%scontrol %d\n", run->plan, ends[1]) < 0 || lseek(plan, 0, SEEK_SET)) stop("the plan");
    enter(run, 0);
    run->link.process = started();
    if (run->link.process == 0) become_link(run, plan, ends[1]);
    close(ends[1]);
    close(plan);
    run->control = ends[0];
    while (run->page[0] == STARTING && !run->link.is_over && !run->came) nap(run, LINK_POLL);
}

uint64_t ask_link(const struct run *run, const char *text) {
    char answer[LONGEST_ANSWER] = "";
    if (send(run->control, text, strlen(text), MSG_NOSIGNAL) < 0 || recv(run->control, answer, sizeof answer - 1, 0) < 0) return 0;
    return strtoull(answer, NULL, 10);
}

/* --- what is told --- */

static void keep_counts(const struct run *run, size_t network) {
    static const char *const names[] = {"dev", "snmp", "netstat", "snmp6"};
    enter(run, network);
    for (size_t i = 0; i < sizeof names / sizeof *names; i++) {
        char from[60], to[100];
        snprintf(from, sizeof from, "/proc/thread-self/net/%s", names[i]);
        snprintf(to, sizeof to, FOLDER "/net-%zu-%s", network, names[i]);
        keep(from, to);
    }
}

/* Ends the links, and tells what they and the system counted. */
void end_rooms(struct run *run, const char *text) {
    end(run, &run->link, (uint64_t)LINK_PATIENCE * SECOND);
    int file = open(FOLDER "/page", O_WRONLY | O_CREAT | O_TRUNC | O_CLOEXEC, 0600);
    /* NOLINTNEXTLINE(performance-no-int-to-ptr): the page is told by its number */
    if (file < 0 || write(file, (const void *)(uintptr_t)run->page, run->page_size) != (ssize_t)run->page_size) stop("the page");
    close(file);
    for (size_t i = 0; i < run->networks.count; i++) keep_counts(run, i);
    tell(FOLDER "/ran", text);
}
