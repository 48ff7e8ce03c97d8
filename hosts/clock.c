/* hinge-clock.so: time, random numbers and counted calls for C code, while hingetulip.aio simulates time in a thread.
 *
 * hingetulip.aio loads this library. `hinge_border` then replaces functions of the C library by the functions below in each library of the
 * process: it rewrites their tables of relocations for good, and a look-up by name, such as that of ctypes, finds the functions below, too.
 * Between runs and in other threads they do what the C library's functions do.
 *  - In the thread of a run, random numbers come from the run's seed, and OpenSSL gets the simulated clock. If this library is preloaded,
 *    as `hinge kernel --clock` says, all C code gets this clock.
 *  - During a run, calls that reach the real network, and waits of the run's thread, are counted by the library that makes them.
 */
#define _GNU_SOURCE
#include <dlfcn.h>
#include <errno.h>
#include <ifaddrs.h>
#include <netdb.h>
#include <poll.h>
#include <semaphore.h>
#include <stdatomic.h>
#include <stdbool.h>
#include <stdint.h>
#include <string.h>
#include <sys/epoll.h>
#include <sys/random.h>
#include <sys/select.h>
#include <sys/socket.h>
#include <sys/syscall.h>
#include <sys/time.h>
#include <time.h>
#include <unistd.h>

#include "clock_tables.h"

#define SECOND INT64_C(1000000000) /* ns */

/* The run of this thread. The functions below have the arguments of the C library's, so they need variables.
   NOLINTBEGIN(cppcoreguidelines-avoid-non-const-global-variables) */
static _Thread_local const int64_t *moment;  /* the simulated moment, in ns since the run's beginning; NULL without a run */
static _Thread_local int64_t began;          /* the ns since 1970 at the run's beginning */
static _Thread_local _Atomic uint64_t drawn; /* the state of the run's random numbers */
static _Atomic uint64_t drawn_by_openssl;    /* the state of OpenSSL's random numbers, in all threads */
/* NOLINTEND(cppcoreguidelines-avoid-non-const-global-variables) */

static struct timespec of_ns(int64_t ns) { return (struct timespec){.tv_sec = ns / SECOND, .tv_nsec = ns % SECOND}; }

/* Returns the simulated time of a clock. OpenSSL gets this static function, since the name `clock_gettime` may be another library's. */
static int simulated_clock(clockid_t clock, struct timespec *time) {
    bool is_calendar = clock == CLOCK_REALTIME || clock == CLOCK_REALTIME_COARSE || clock == CLOCK_TAI;
    bool is_steady = clock == CLOCK_MONOTONIC || clock == CLOCK_MONOTONIC_COARSE || clock == CLOCK_MONOTONIC_RAW || clock == CLOCK_BOOTTIME;
    if (!moment || (!is_calendar && !is_steady)) return (int)syscall(SYS_clock_gettime, clock, time);
    *time = of_ns(is_calendar ? began + *moment : *moment);
    return 0;
}

static int simulated_time_of_day(struct timeval *restrict time, void *restrict zone) {
    struct timespec now;
    (void)zone;
    simulated_clock(CLOCK_REALTIME, &now);
    *time = (struct timeval){.tv_sec = now.tv_sec, .tv_usec = now.tv_nsec / 1000};
    return 0;
}

int clock_gettime(clockid_t clock, struct timespec *time) { return simulated_clock(clock, time); }

int gettimeofday(struct timeval *restrict time, void *restrict zone) { return simulated_time_of_day(time, zone); }

time_t time(time_t *place) {
    struct timeval now;
    simulated_time_of_day(&now, NULL);
    if (place) *place = now.tv_sec;
    return now.tv_sec;
}

#define STEP UINT64_C(0x9E3779B97F4A7C15) /* of splitmix64's state */

/* Draws random bytes by splitmix64, which moves its state on. */
static void draw(_Atomic uint64_t *state, unsigned char *to, size_t count) {
    for (size_t n = 0; n < count; n += sizeof(uint64_t)) {
        uint64_t z = atomic_fetch_add(state, STEP) + STEP;
        z = (z ^ z >> 30) * UINT64_C(0xBF58476D1CE4E5B9);
        z = (z ^ z >> 27) * UINT64_C(0x94D049BB133111EB);
        z ^= z >> 31;
        memcpy(to + n, &z, count - n < sizeof z ? count - n : sizeof z);
    }
}

static ssize_t own_getrandom(void *to, size_t count, unsigned flags) {
    if (!moment) return getrandom(to, count, flags);
    draw(&drawn, to, count);
    return (ssize_t)count;
}

static int own_getentropy(void *to, size_t count) {
    if (!moment) return getentropy(to, count);
    draw(&drawn, to, count);
    return 0;
}

/* The functions whose calls are counted. X is a macro that makes code for each. */
/* clang-format off */
#define WATCHED(X) \
    X(connect) X(bind) X(listen) X(accept) X(accept4) X(send) X(sendto) X(sendmsg) X(sendmmsg) X(recv) X(recvfrom) X(recvmsg) X(recvmmsg) \
    X(getaddrinfo) X(getnameinfo) X(gethostbyname) X(gethostbyname_r) X(getifaddrs) X(poll) X(ppoll) X(select) X(pselect) X(epoll_wait) \
    X(epoll_pwait) X(nanosleep) X(clock_nanosleep) X(usleep) X(sleep) X(sem_wait) X(sem_timedwait) X(sem_clockwait)
/* clang-format on */

/* Make a function's number, its name, and the row of a list with its replacement. */
#define NUMBER(name) OF_##name,
#define NAME(name) #name,
#define OWN(name) {#name, (void *)own_##name},
enum {
    WATCHED(NUMBER) COUNT, /* the functions whose calls are counted, and their number */
    MOST = 64              /* the most libraries whose calls are counted */
};

/* The counts of the whole process. NOLINTBEGIN(cppcoreguidelines-avoid-non-const-global-variables) */
static atomic_bool counting;
static struct {
    _Atomic(char *) base;     /* the library's place in memory, or NULL behind the last one */
    const char *_Atomic name; /* the library's file */
    atomic_uint calls[COUNT]; /* by functions */
} libraries[MOST];
/* NOLINTEND(cppcoreguidelines-avoid-non-const-global-variables) */

/* Counts a library's call of a function. A new library gets the first free place, unless there is none. */
static void count_of_library(int function, const Dl_info *library) {
    for (size_t n = 0; n < MOST; n++) {
        char *base = NULL;
        bool is_new = atomic_compare_exchange_strong(&libraries[n].base, &base, (char *)library->dli_fbase);
        if (is_new) libraries[n].name = library->dli_fname;
        if (is_new || base == (char *)library->dli_fbase) {
            libraries[n].calls[function]++;
            return;
        }
    }
}

/* Counts a call of a function, by the address to which it returns. Leaves errno as it is. */
static void count(int function, void *caller) {
    Dl_info library;
    int before = errno;
    if (dladdr(caller, &library)) count_of_library(function, &library);
    errno = before;
}

/* Whether a socket reaches the real network, by its family. Leaves errno as it is. */
static bool is_real(int socket) {
    int family = AF_UNIX;
    int before = errno;
    socklen_t size = sizeof family;
    bool has_family = getsockopt(socket, SOL_SOCKET, SO_DOMAIN, &family, &size) == 0;
    errno = before;
    return has_family && family != AF_UNIX;
}

/* Defines `own_name`, which calls the C library's function with the same arguments: `declared` has their types, and `given` their names. If
   the condition is true during a run, the call is counted. */
#define CALL(name, is_counted, result, declared, given)                              \
    static result own_##name declared {                                              \
        if (counting && (is_counted)) count(OF_##name, __builtin_return_address(0)); \
        return name given;                                                           \
    }

/* Defines a function whose first argument is the socket `s`. A call is counted if this reaches the real network. */
#define OF_SOCKET(name, result, declared, given) CALL(name, is_real(s), result, declared, given)

/* Defines a function that waits. A call in the run's thread is counted if the wait may last. */
#define WAIT(name, is_long, declared, given) CALL(name, moment && (is_long), int, declared, given)

CALL(connect, true, int, (int s, const struct sockaddr *to, socklen_t n), (s, to, n))
CALL(bind, true, int, (int s, const struct sockaddr *to, socklen_t n), (s, to, n))
OF_SOCKET(listen, int, (int s, int n), (s, n))
OF_SOCKET(accept, int, (int s, struct sockaddr *from, socklen_t *n), (s, from, n))
OF_SOCKET(accept4, int, (int s, struct sockaddr *from, socklen_t *n, int flags), (s, from, n, flags))
OF_SOCKET(send, ssize_t, (int s, const void *data, size_t n, int flags), (s, data, n, flags))
OF_SOCKET(sendto, ssize_t, (int s, const void *data, size_t n, int flags, const struct sockaddr *to, socklen_t m), (s, data, n, flags, to, m))
OF_SOCKET(sendmsg, ssize_t, (int s, const struct msghdr *message, int flags), (s, message, flags))
OF_SOCKET(sendmmsg, int, (int s, struct mmsghdr *them, unsigned n, int flags), (s, them, n, flags))
OF_SOCKET(recv, ssize_t, (int s, void *data, size_t n, int flags), (s, data, n, flags))
OF_SOCKET(recvfrom, ssize_t, (int s, void *data, size_t n, int flags, struct sockaddr *from, socklen_t *m), (s, data, n, flags, from, m))
OF_SOCKET(recvmsg, ssize_t, (int s, struct msghdr *message, int flags), (s, message, flags))
OF_SOCKET(recvmmsg, int, (int s, struct mmsghdr *them, unsigned n, int flags, struct timespec *t), (s, them, n, flags, t))
CALL(getaddrinfo, n, int, (const char *n, const char *s, const struct addrinfo *h, struct addrinfo **to), (n, s, h, to))
CALL(getnameinfo, !(f & NI_NUMERICHOST), int, (const struct sockaddr *a, socklen_t n, char *h, socklen_t m, char *s, socklen_t o, int f),
     (a, n, h, m, s, o, f))
CALL(gethostbyname, true, struct hostent *, (const char *name), (name))
CALL(gethostbyname_r, true, int, (const char *s, struct hostent *h, char *to, size_t n, struct hostent **it, int *e), (s, h, to, n, it, e))
CALL(getifaddrs, true, int, (struct ifaddrs * *to), (to))
WAIT(poll, t, (struct pollfd * them, nfds_t n, int t), (them, n, t))
WAIT(ppoll, !t || t->tv_sec || t->tv_nsec, (struct pollfd * them, nfds_t n, const struct timespec *t, const sigset_t *m), (them, n, t, m))
WAIT(select, !t || t->tv_sec || t->tv_usec, (int n, fd_set *r, fd_set *w, fd_set *e, struct timeval *t), (n, r, w, e, t))
WAIT(pselect, !t || t->tv_sec || t->tv_nsec, (int n, fd_set *r, fd_set *w, fd_set *e, const struct timespec *t, const sigset_t *m),
     (n, r, w, e, t, m))
WAIT(epoll_wait, t, (int fd, struct epoll_event *them, int n, int t), (fd, them, n, t))
WAIT(epoll_pwait, t, (int fd, struct epoll_event *them, int n, int t, const sigset_t *m), (fd, them, n, t, m))
WAIT(nanosleep, true, (const struct timespec *t, struct timespec *left), (t, left))
WAIT(clock_nanosleep, true, (clockid_t clock, int flags, const struct timespec *t, struct timespec *left), (clock, flags, t, left))
WAIT(usleep, true, (useconds_t t), (t))
CALL(sleep, moment, unsigned, (unsigned t), (t))
WAIT(sem_wait, sem_trywait(it) || sem_post(it), (sem_t * it), (it))
WAIT(sem_timedwait, true, (sem_t * it, const struct timespec *until), (it, until))
WAIT(sem_clockwait, true, (sem_t * it, clockid_t clock, const struct timespec *until), (it, clock, until))

static void *own_dlsym(void *restrict library, const char *restrict name);

static const struct function OF_ALL[] = {
    {"getrandom", (void *)own_getrandom}, {"getentropy", (void *)own_getentropy}, {"dlsym", (void *)own_dlsym}, WATCHED(OWN){NULL, NULL}};
static const struct function OF_OPENSSL[] = {
    {"clock_gettime", (void *)simulated_clock}, {"gettimeofday", (void *)simulated_time_of_day}, {NULL, NULL}};

/* Returns the function above if a look-up by name would find the C library's. */
static void *own_dlsym(void *restrict library, const char *restrict name) {
    void *own = own_of(OF_ALL, name);
    bool is_of_c = own && dlsym(library, name) == dlsym(RTLD_DEFAULT, name);
    return is_of_c ? own : dlsym(library, name);
}

/* Gives the functions above to all libraries that are loaded now. */
void hinge_border(void) { rewrite_tables(OF_ALL, OF_OPENSSL); }

/* Draws OpenSSL's random numbers during a run, from the seed of hinge_seed(). OpenSSL's threads need no lock of Python for this, whose
   holder may wait for these threads. */
int hinge_random(unsigned char *to, int count) {
    draw(&drawn_by_openssl, to, (size_t)count);
    return 1;
}

void hinge_seed(uint64_t seed) { drawn_by_openssl = seed; }

/* Begins a run in this thread, or ends it if `place` is NULL. `place` has the ns since the run's beginning, and `epoch` is this beginning
   in ns since 1970. The seed is for the run's random numbers. */
void hinge_run(const int64_t *place, int64_t epoch, uint64_t seed) {
    moment = place;
    began = epoch;
    drawn = seed;
    counting = place != NULL;
}

/* Returns how often a library has called a function since the last question, with the names of both: at `place`, of all pairs. Returns ~0
   behind the last pair, from the first place without a library on. */
unsigned hinge_called(size_t place, const char **library, const char **function) {
    static const char *const names[] = {WATCHED(NAME)};
    if (place >= (size_t)MOST * COUNT) return ~0U;
    *library = libraries[place / COUNT].name;
    *function = names[place % COUNT];
    return *library ? atomic_exchange(&libraries[place / COUNT].calls[place % COUNT], 0) : ~0U;
}
