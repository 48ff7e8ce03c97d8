/* The first process of a simulated machine: a User-Mode Linux whose root is the system's own tree, by hostfs. It mounts what a kernel
   gives, reads the job that the launcher wrote, runs it as the user who asked, in the rooms of a link where it has a plan of these, writes
   how it ended beside the job and switches the machine off. It is linked statically and takes no library at run time. */
#define _GNU_SOURCE
#include <errno.h>
#include <fcntl.h>
#include <grp.h>
#include <linux/capability.h>
#include <sched.h>
#include <signal.h>
#include <stdint.h>
#include <stdio.h>
#include <stdlib.h>
#include <string.h>
#include <sys/mount.h>
#include <sys/prctl.h>
#include <sys/reboot.h>
#include <sys/resource.h>
#include <sys/stat.h>
#include <sys/syscall.h>
#include <sys/wait.h>
#include <time.h>
#include <unistd.h>

#include "rooms.h"

/* Where the job keeps what outlives the machine. */
#define KEPT "/run/kept"
#define SCRATCH "/run/scratch"
#define LOWER "/run/lower"
#define CORES FOLDER "/core.%P"
#define PATTERN "/proc/sys/kernel/core_pattern"
#define DISKS "/run/disks"
#define LIBRARIES "/etc/ld.so.cache"
enum { NAMES = 100000 };
/* ns: nothing that the user started has run for so long, and no timer of theirs is set, where it is told that they wait for ever. By then
   the kernel's own timers that could wake one are over, as that by which TCP asks whether the other end is there, after two hours. */
#define WITHOUT_LIFE (3ULL * 3600 * SECOND)
#define LAST_WISHES (60ULL * SECOND) /* ns that a job has to end */

void tell(const char *path, const char *text) {
    int file = open(path, O_WRONLY | O_CREAT | O_TRUNC | O_DSYNC | O_CLOEXEC, 0600);
    if (file < 0) return;
    if (write(file, text, strlen(text)) < 0) {}
    close(file);
}

static _Noreturn void switch_off(void) {
    sync();
    reboot(RB_POWER_OFF);
    _exit(0);
}

_Noreturn void stop(const char *what) {
    char text[700];
    snprintf(text, sizeof text, "%s: %s\n", what, strerror(errno));
    tell(FOLDER "/fault", text);
    kill(-1, SIGKILL); /* or the kernel waits for those of the rooms without end */
    switch_off();
}

/* Each line by itself. */
static void tell_lines(const char *path, const char *text) {
    char line[100];
    for (; *text; text += strcspn(text, "\n"), text += *text == '\n') {
        snprintf(line, sizeof line, "%.*s", (int)strcspn(text, "\n"), text);
        tell(path, line);
    }
}

void must_mount(const char *source, const char *target, const char *kind, unsigned long flags, const char *data) {
    if (mount(source, target, kind, flags, data) && errno != EBUSY) stop(target);
}

static char *next(struct job *job) {
    if (job->at >= job->length) return NULL;
    char *text = job->bytes + job->at;
    job->at += strlen(text) + 1;
    return text;
}

char *must_next(struct job *job) {
    char *text = next(job);
    if (!text) {
        errno = ENODATA;
        stop("the job");
    }
    return text;
}

static struct job read_job(void) {
    int file = open(FOLDER "/job", O_RDONLY | O_CLOEXEC);
    struct stat state;
    if (file < 0 || fstat(file, &state)) stop("the job");
    struct job job = {.bytes = calloc(1, (size_t)state.st_size + 1)};
    if (!job.bytes) stop("the job");
    ssize_t got;
    while ((got = read(file, job.bytes + job.length, (size_t)state.st_size - job.length)) > 0) job.length += (size_t)got;
    close(file);
    if (got < 0) stop("the job");
    return job;
}

/* Mounts the launcher's folder, which is where the kernel's own process is: the kernel's command line names no folder, since the kernel
   draws random numbers from that line. */
static void mount_folder(void) {
    must_mount("run", "/run", "tmpfs", 0, "mode=0755");
    mkdir(FOLDER, 0700);
    mkdir(KEPT, 0700);
    must_mount("none", FOLDER, "hostfs", MS_NOATIME, "/proc/self/cwd/.");
    must_mount("none", KEPT, "hostfs", MS_NOATIME, "/proc/self/cwd/kept/.");
}

/* Puts a tree over the root in which every file is the system's, or that of a folder which the launcher gave, until it is written, and what
   is written is in memory. It is the root of the namespace, since a kernel gives a chroot no namespaces of users. */
static void change_root(bool has_own) {
    static const char *const places[] = {"dev", "etc", "proc", "run", "sys"};
    must_mount("scratch", "/run", "tmpfs", 0, "mode=0755");
    mkdir(SCRATCH, 0755);
    mkdir(LOWER, 0755);
    mkdir("/run/upper", 0755);
    mkdir("/run/work", 0755);
    if (has_own) must_mount("none", LOWER, "hostfs", MS_NOATIME, "/proc/self/cwd/root/.");
    must_mount("scratch", SCRATCH, "overlay", MS_NOATIME,
               has_own ? "lowerdir=" LOWER ",upperdir=/run/upper,workdir=/run/work" : "lowerdir=/,upperdir=/run/upper,workdir=/run/work");
    for (size_t i = 0; has_own && i < sizeof places / sizeof *places; i++) {
        char place[60];
        snprintf(place, sizeof place, SCRATCH "/%s", places[i]);
        mkdir(place, 0755);
    }
    if (has_own && access(SCRATCH "/etc/hosts", F_OK)) tell(SCRATCH "/etc/hosts", ""); /* over which that of the rooms is put */
    if (chdir(SCRATCH) || mount(".", "/", NULL, MS_MOVE, NULL) || chroot(".") || chdir("/")) stop("the root");
}

static void mount_devices(void) {
    must_mount("dev", "/dev", "devtmpfs", 0, NULL);
    mkdir("/dev/shm", 01777);
    mkdir("/dev/pts", 0755);
    mkdir("/dev/mqueue", 0755);
    must_mount("pts", "/dev/pts", "devpts", 0, "ptmxmode=0666,mode=0620,gid=5");
    must_mount("shm", "/dev/shm", "tmpfs", 0, "mode=1777");
    static const char *const links[][2] = {
        {"/proc/self/fd", "/dev/fd"}, {"/proc/self/fd/0", "/dev/stdin"}, {"/proc/self/fd/1", "/dev/stdout"}, {"/proc/self/fd/2", "/dev/stderr"}};
    for (size_t i = 0; i < sizeof links / sizeof *links; i++)
        if (symlink(links[i][0], links[i][1])) {}
    static const char *const open_to_all[] = {"/dev/net/tun", "/dev/null",    "/dev/zero", "/dev/full",
                                              "/dev/random",  "/dev/urandom", "/dev/tty",  "/dev/ptmx"};
    for (size_t i = 0; i < sizeof open_to_all / sizeof *open_to_all; i++) chmod(open_to_all[i], 0666);
}

static void mount_all(bool scratch, bool has_own) {
    /* With relatime the age of a file decides whether its time is written, which takes a reading of the clock. */
    mount(NULL, "/", NULL, MS_REMOUNT | MS_BIND | MS_NOATIME, NULL);
    if (scratch) {
        change_root(has_own);
        mount_folder();
    }
    must_mount("proc", "/proc", "proc", 0, NULL);
    must_mount("sys", "/sys", "sysfs", 0, NULL);
    mount_devices();
    tell("/proc/sys/kernel/printk", "1");
    tell("/proc/sys/user/max_user_namespaces", "10000");
}

void keep(const char *from, const char *to) {
    char text[1 << 16];
    ssize_t got;
    int file = open(from, O_RDONLY | O_CLOEXEC), copy = open(to, O_WRONLY | O_CREAT | O_TRUNC | O_CLOEXEC, 0600);
    while (file >= 0 && copy >= 0 && (got = read(file, text, sizeof text)) > 0)
        if (write(copy, text, (size_t)got) < got) break;
    if (file >= 0) close(file);
    if (copy >= 0) close(copy);
}

static int stream(const char *path, int flags) {
    int file = open(path, flags | O_CLOEXEC);
    if (file < 0) stop(path);
    return file;
}

static struct user next_user(struct job *job) {
    struct user user = {0};
    user.uid = (uid_t)strtoul(must_next(job), NULL, 10);
    user.gid = (gid_t)strtoul(must_next(job), NULL, 10);
    for (char *text = must_next(job), *end; user.count < GROUPS && *text; text = end + (*end == ' '))
        user.groups[user.count++] = (gid_t)strtoul(text, &end, 10);
    user.mask = (mode_t)strtoul(must_next(job), NULL, 8);
    return user;
}

static void next_command(struct job *job, struct user *user) {
    user->place = must_next(job);
    size_t count = strtoul(must_next(job), NULL, 10);
    user->words = calloc(count + 1, sizeof *user->words);
    user->names = calloc(NAMES, sizeof *user->names);
    if (!user->words || !user->names) stop("the job");
    for (size_t i = 0; i < count; i++) user->words[i] = must_next(job);
    char **name = user->names;
    while (name < user->names + NAMES - 1 && *(*name = must_next(job))) name++;
    *name = NULL;
}

/* What the command writes goes into files, each write at once: a console of this kernel can block in real time, while simulated time goes
   on. */
static void take_streams(void) {
    int flags = O_WRONLY | O_APPEND | O_DSYNC;
    if (dup2(stream(FOLDER "/in", O_RDONLY), 0) < 0 || dup2(stream(FOLDER "/out", flags), 1) < 0 || dup2(stream(FOLDER "/err", flags), 2) < 0)
        stop("a stream");
}

static void take_rights(const struct user *user) {
    struct rlimit most = {99, 99};
    setrlimit(RLIMIT_RTPRIO, &most); /* so that any user may put the link before all other programs */
    umask(user->mask);
    setsid();
}

/* Executes the first of a name that the path has, as execvp(3) does, but nothing by a shell; why it didn't. */
static int execute(char **words) {
    int error = ENOENT;
    const char *path = getenv("PATH");
    if (strchr(words[0], '/')) {
        execve(words[0], words, environ);
        return errno;
    }
    for (const char *end; path; path = *end ? end + 1 : NULL) {
        char name[4096];
        end = path + strcspn(path, ":");
        if ((size_t)snprintf(name, sizeof name, "%.*s%s%s", (int)(end - path), path, end > path ? "/" : "", words[0]) >= sizeof name) continue;
        execve(name, words, environ);
        if (errno != ENOENT && errno != ENOTDIR) error = errno;
        if (errno != ENOENT && errno != ENOTDIR && errno != EACCES) break;
    }
    return error;
}

static bool is_of_32_bits(const char *name) {
    char front[5] = "";
    int file = open(name, O_RDONLY | O_CLOEXEC);
    bool result = file >= 0 && read(file, front, sizeof front) == sizeof front && !memcmp(front, "\177ELF\1", sizeof front);
    if (file >= 0) close(file);
    return result;
}

_Noreturn void become(const struct user *user, char **words) {
    static const int rights[] = {CAP_NET_BIND_SERVICE, CAP_NET_ADMIN, CAP_NET_RAW};
    struct __user_cap_header_struct head = {.version = _LINUX_CAPABILITY_VERSION_3};
    struct __user_cap_data_struct data[2] = {0};
    int pauses = user->in_rooms ? open("/proc/pauses", O_WRONLY | O_CLOEXEC) : -1;
    bool keeps = user->in_rooms && user->uid != 0; /* what one may do who has a network of their own */
    if (keeps) prctl(PR_SET_KEEPCAPS, 1);
    if (setgroups(user->count, user->groups) || setgid(user->gid) || setuid(user->uid) || chdir(user->place)) {
        dprintf(2, "hinge: %s: %s\n", user->place, strerror(errno));
        _exit(CANNOT_EXECUTE);
    }
    for (size_t i = 0; keeps && i < sizeof rights / sizeof *rights; i++)
        data[0].effective |= 1u << rights[i], data[0].permitted |= 1u << rights[i], data[0].inheritable |= 1u << rights[i];
    if (keeps) syscall(SYS_capset, &head, data);
    for (size_t i = 0; keeps && i < sizeof rights / sizeof *rights; i++) prctl(PR_CAP_AMBIENT, PR_CAP_AMBIENT_RAISE, rights[i], 0, 0);
    environ = user->names;
    if (pauses >= 0 && write(pauses, "1", 1) < 0) {} /* the last call before the user's own */
    int error = execute(words);
    if (write(user->unbegun, words[0], strlen(words[0])) < 0) {}
    bool is_old = error == ENOEXEC && is_of_32_bits(words[0]);
    dprintf(2, "hinge%s: %s: %s\n", user->in_rooms ? " run" : "", words[0],
            is_old ? "it is a 32-bit program, and the simulated machine runs 64-bit programs only" : strerror(error));
    _exit(error == ENOENT ? NOT_FOUND : CANNOT_EXECUTE);
}

uint64_t now(void) {
    struct timespec moment;
    clock_gettime(CLOCK_MONOTONIC, &moment);
    return (uint64_t)moment.tv_sec * SECOND + (uint64_t)moment.tv_nsec;
}

/* The ns that the kernel gave to processes that spin. */
static uint64_t spun(void) {
    char text[30] = "";
    int file = open("/proc/spun", O_RDONLY);
    if (file < 0 || read(file, text, sizeof text - 1) < 0) stop("/proc/spun");
    return strtoull(text, NULL, 10);
}

/* The dynamic loader maps its cache into each program, and the size of that moves all that comes after it. Here it has one size, whatever
   else is installed. */
static void put_cache_of_one_size(void) {
    if (access(FOLDER "/libraries", F_OK) == 0 && access(LIBRARIES, F_OK) == 0) mount(FOLDER "/libraries", LIBRARIES, NULL, MS_BIND, NULL);
}

/* Waits for the job's end, at most so many ns: the signal that came before, or SIGALRM where the time is over. A run is the same by any limit
   that it doesn't reach, so without one this waits by the same calls. */
static int wait_for(pid_t child, uint64_t limit, int *status, const sigset_t *signals) {
    uint64_t until = now() + (limit ? limit : FOR_EVER);
    while (true) {
        int one;
        for (pid_t ended; (ended = waitpid(-1, &one, WNOHANG)) > 0;)
            if (ended == child) {
                *status = one;
                return 0;
            }
        uint64_t moment = now(), left = moment < until ? until - moment : 0;
        struct timespec time = {(time_t)(left / SECOND), (long)(left % SECOND)};
        if (!left) return SIGALRM;
        if (sigtimedwait(signals, NULL, &time) == SIGUSR1) return SIGUSR1;
    }
}

/* Ends what waits for ever, each with a file of its memory, which has to be written before all is killed. What made rooms stands still, and is
   told to end before it sees these ends, which it would take for the programs' own. */
static void leave_cores(pid_t rooms) {
    struct timespec second = {1, 0};
    siginfo_t stopped;
    if (rooms && !kill(rooms, SIGSTOP)) waitid(P_PID, (id_t)rooms, &stopped, WSTOPPED | WEXITED | WNOWAIT);
    tell(PATTERN, CORES);
    tell("/proc/waits", "core");
    nanosleep(&second, NULL);
    if (rooms) kill(rooms, SIGTERM), kill(rooms, SIGCONT);
}

int main(void) {
    mount_folder();
    struct job job = read_job();
    const char *root = must_next(&job), *pauses = must_next(&job);
    uint64_t limit = strtoull(must_next(&job), NULL, 10);
    const char *cores = must_next(&job); /* of which processes the launcher wants some: of `none`, `all` or those of a `deadlock` */
    bool has_own = !strcmp(root, "own");
    mount_all(has_own || !strcmp(root, "scratch"), has_own);
    put_cache_of_one_size();
    if (sethostname("simulated", strlen("simulated"))) stop("the name");
    struct user user = next_user(&job);
    next_command(&job, &user);
    const char *kind = must_next(&job);
    user.in_rooms = strcmp(kind, "command") != 0;
    user.unbegun = stream(FOLDER "/unbegun", O_WRONLY);
    /* iputils' ping takes a clock below 1 s for one that it hasn't read, and then sends all its packets at once. */
    struct timespec begin = {1000, 0};
    clock_nanosleep(CLOCK_MONOTONIC, TIMER_ABSTIME, &begin, NULL);
    tell_lines("/proc/pauses", pauses);
    if (!strcmp(cores, "all")) tell(PATTERN, CORES);
    serve_disks(DISKS);
    prctl(PR_SET_TIMERSLACK, 1); /* ns: a sleep ends when it is over, and not up to 50 us later, with others */
    sigset_t signals;
    sigemptyset(&signals);
    sigaddset(&signals, SIGCHLD);
    sigaddset(&signals, SIGUSR1);
    sigprocmask(SIG_BLOCK, &signals, NULL);
    char watch[40];
    snprintf(watch, sizeof watch, "watch %llu", WITHOUT_LIFE);
    tell("/proc/waits", watch);
    uint64_t begun = now();
    pid_t child = user.in_rooms ? (pid_t)syscall(SYS_clone, CLONE_NEWNS | CLONE_NEWPID | CLONE_NEWNET | SIGCHLD, 0, 0, 0, 0) : fork();
    if (child < 0) stop("fork");
    if (child == 0) {
        take_streams();
        take_rights(&user);
        if (user.in_rooms) _exit(strcmp(kind, "net") ? run_link(&job, &user) : run_net(&job, &user));
        sigprocmask(SIG_UNBLOCK, &signals, NULL);
        become(&user, user.words);
    }
    int status = 0, cut = wait_for(child, limit, &status, &signals);
    uint64_t ended = now();
    if (cut) {
        keep("/proc/waits", FOLDER "/waits");
        if (cut == SIGUSR1 && strcmp(cores, "none") != 0) leave_cores(user.in_rooms ? child : 0);
        kill(child, SIGTERM);
        if (wait_for(child, LAST_WISHES, &status, &signals)) status = SIGKILL;
    }
    kill(-1, SIGKILL);
    if (*pauses) keep("/proc/pauses", FOLDER "/paused"), keep("/proc/calls", FOLDER "/calls");
    char text[100];
    snprintf(text, sizeof text, "%d %llu %llu %d %d\n", WIFEXITED(status) ? WEXITSTATUS(status) : SIGNALLED + WTERMSIG(status),
             (unsigned long long)(ended - begun), (unsigned long long)spun(), status, cut);
    tell(FOLDER "/status", text);
    switch_off();
}
