/* The disks of a net's hosts: devices of null_blk with ext4. What is written to one is in its cache until it is told to flush, and its cache
   is lost when its power fails. No user may mount such a disk, so the machine's first process has a child of its own that does, asked by
   a line on a socket. */
#define _GNU_SOURCE
#include <errno.h>
#include <fcntl.h>
#include <limits.h>
#include <linux/types.h>
#include <sched.h>
#include <signal.h>
#include <stdbool.h>
#include <stdio.h>
#include <stdlib.h>
#include <string.h>
#include <sys/ioctl.h>
#include <sys/mount.h>
#include <sys/socket.h>
#include <sys/stat.h>
#include <sys/un.h>
#include <sys/wait.h>
#include <unistd.h>

#define SETTINGS "/sys/kernel/config/nullb/disk%u"
#define MAKE "PATH=/usr/sbin:/sbin:/usr/bin:/bin mkfs.ext4 -q -m 0 -E root_owner=%u:%u /dev/disk%u >/dev/null 2>&1"
#define END_AT_ONCE _IOR('X', 125, __u32) /* EXT4_IOC_SHUTDOWN */
enum { NO_FLUSH = 2, LINE = 5000, WORD = 200 };

struct question {
    unsigned disk, size; /* MiB */
    unsigned namespace;  /* a descriptor of the one who asks */
    const char *does, *path;
};

static _Noreturn void refuse(int peer, const char *what) {
    dprintf(peer, "%s: %s", what, strerror(errno));
    _exit(0);
}

static int setting(unsigned disk, const char *name) {
    char path[WORD];
    snprintf(path, sizeof path, SETTINGS "/%s", disk, name);
    return open(path, O_WRONLY | O_CLOEXEC);
}

static int set(unsigned disk, const char *name, unsigned value) {
    int file = setting(disk, name);
    int written = file < 0 ? -1 : dprintf(file, "%u", value);
    close(file);
    return written;
}

/* A new disk with nothing in it. Its cache holds all of it, so that nothing is flushed unquestion. */
static void make(int peer, const struct question *question, const struct ucred *user) {
    char text[WORD];
    snprintf(text, sizeof text, SETTINGS, question->disk);
    if (mkdir(text, 0755) || set(question->disk, "size", question->size) < 0 || set(question->disk, "cache_size", question->size + 1) < 0 ||
        set(question->disk, "memory_backed", 1) < 0 || set(question->disk, "irqmode", 0) < 0 || set(question->disk, "power", 1) < 0)
        refuse(peer, text);
    snprintf(text, sizeof text, MAKE, user->uid, user->gid, question->disk);
    if (system(text)) {
        errno = EIO;
        refuse(peer, "mkfs.ext4");
    }
}

/* Ends the file system as it is, takes it away, and takes the power of its disk away for a moment. */
static void lose(int peer, const struct question *question, int power) {
    __u32 how = NO_FLUSH;
    int top = open(question->path, O_RDONLY | O_DIRECTORY | O_CLOEXEC);
    if (top < 0 || ioctl(top, END_AT_ONCE, &how)) refuse(peer, question->path);
    close(top);
    if (umount2(question->path, MNT_DETACH) || write(power, "0", 1) < 0 || write(power, "1", 1) < 0) refuse(peer, question->path);
}

static bool take_number(char **text, unsigned *number) {
    char *end;
    unsigned long value = strtoul(*text, &end, 10);
    bool is_number = end > *text && value <= INT_MAX;
    *number = (unsigned)value;
    *text = end;
    return is_number;
}

/* Reads DOES DISK SIZE NAMESPACE PATH; false where it is something else. */
static bool read_question(char *text, struct question *question) {
    char *does = text, *rest = text + strcspn(text, " ");
    if (!take_number(&rest, &question->disk) || !take_number(&rest, &question->size) || !take_number(&rest, &question->namespace)) return false;
    if (*rest != ' ') return false;
    does[strcspn(does, " ")] = 0;
    rest[strcspn(rest, "\n")] = 0;
    question->does = does;
    question->path = rest + 1;
    return true;
}

static void answer(int peer) {
    struct question question;
    struct ucred user;
    char text[LINE + WORD] = "", place[WORD], device[WORD];
    socklen_t length = sizeof user;
    if (getsockopt(peer, SOL_SOCKET, SO_PEERCRED, &user, &length) || recv(peer, text, sizeof text - 1, 0) < 0) refuse(peer, "disks");
    if (!read_question(text, &question)) {
        errno = EINVAL;
        refuse(peer, text);
    }
    if (!strcmp(question.does, "make")) make(peer, &question, &user);
    int power = setting(question.disk, "power");
    snprintf(place, sizeof place, "/proc/%d/fd/%u", user.pid, question.namespace);
    snprintf(device, sizeof device, "/dev/disk%u", question.disk);
    int namespace = open(place, O_RDONLY | O_CLOEXEC);
    if (namespace < 0 || setns(namespace, CLONE_NEWNS)) refuse(peer, place);
    if (!strcmp(question.does, "lose")) lose(peer, &question, power);
    mkdir(question.path, 0755);
    /* Nothing is made ready later, at moments of its own. */
    if (mount(device, question.path, "ext4", MS_NOATIME, "noinit_itable")) refuse(peer, question.path);
    dprintf(peer, "done");
}

void serve_disks(const char *path) {
    struct sockaddr_un address = {.sun_family = AF_UNIX};
    snprintf(address.sun_path, sizeof address.sun_path, "%s", path);
    int listener = socket(AF_UNIX, SOCK_STREAM | SOCK_CLOEXEC, 0);
    mount("settings", "/sys/kernel/config", "configfs", 0, NULL);
    if (listener < 0 || bind(listener, (struct sockaddr *)&address, sizeof address) || chmod(path, 0666) || listen(listener, 1)) return;
    if (fork()) return;
    for (int peer; (peer = accept4(listener, NULL, NULL, SOCK_CLOEXEC)) >= 0 || errno == EINTR; close(peer)) {
        pid_t child = fork();
        if (child == 0) {
            answer(peer);
            _exit(0);
        }
        waitpid(child, NULL, 0);
    }
    _exit(1);
}
