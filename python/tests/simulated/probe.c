/* What a process does or learns by itself, one kind a word: each prints one line, and ends only if time goes on for it. */
#include <cpuid.h>
#include <poll.h>
#include <pthread.h>
#include <sched.h>
#include <signal.h>
#include <stdio.h>
#include <string.h>
#include <sys/select.h>
#include <sys/syscall.h>
#include <sys/timerfd.h>
#include <sys/wait.h>
#include <time.h>
#include <unistd.h>
#include <x86intrin.h>

static volatile int flag;

static void *set_flag(void *unused) {
    sleep(1);
    flag = 1;
    return unused;
}

static void begin_flag(void) {
    pthread_t thread;
    pthread_create(&thread, NULL, set_flag, NULL);
}

static long long now(void) {
    struct timespec moment;
    clock_gettime(CLOCK_MONOTONIC, &moment);
    return moment.tv_sec * 1000000000LL + moment.tv_nsec;
}

static int second_timer(void) {
    int timer = timerfd_create(CLOCK_MONOTONIC, 0);
    struct itimerspec second = {.it_value = {1, 0}};
    timerfd_settime(timer, 0, &second, NULL);
    return timer;
}

/* Waits for another thread, giving its turn away. */
static void yields(void) {
    long count = 0;
    for (begin_flag(); !flag; count++) sched_yield();
    printf("yields %ld\n", count);
}

/* Waits for another thread, and asks nothing of the system. */
static void flags(void) {
    begin_flag();
    while (!flag) {}
    printf("flag\n");
}

static void polls(void) {
    long long begun = now();
    struct pollfd one = {second_timer(), POLLIN, 0};
    long count = 0;
    while (poll(&one, 1, 0) == 0) count++;
    printf("polls %ld %lld\n", count, now() - begun);
}

/* A loop of events that wakes each 10 ms and has nothing to do. */
static void waits(void) {
    long long begun = now();
    for (int i = 0; i < 400; i++) poll(NULL, 0, 10), now();
    printf("waits %lld\n", now() - begun);
}

/* As iperf3 paces its packets: select without waiting, and a look at the clock. */
static void selects(void) {
    long long until = now() + 40000000;
    long count = 0;
    for (; now() < until; count++) {
        fd_set none;
        struct timeval at_once = {0, 0};
        FD_ZERO(&none);
        select(0, &none, NULL, NULL, &at_once);
    }
    printf("selects %ld\n", count);
}

static void clocks(void) {
    long long until = now() + 100000000;
    long count = 0;
    while (now() < until) count++;
    printf("clocks %ld\n", count);
}

/* A program that computes and often reads the clock waits for nothing: no time may be given to it that matters. */
static void computes(void) {
    long long begun = now();
    volatile long sum = 0;
    for (int i = 0; i < 1000; i++) {
        for (int j = 0; j < 1000; j++) sum += j;
        now();
    }
    printf("computes %lld\n", now() - begun);
}

static void counter(void) {
    unsigned int core;
    unsigned long long one = __rdtsc(), two = __rdtscp(&core);
    printf("counter %llu %llu %u\n", one, two - one, core);
}

/* What cpuid says of rdrand, rdseed and this processor's number. Others than the first two calls of a program are answered. */
static void processor(void) {
    unsigned int a, b, c, d, e, f;
    for (int call = 0; call < 3; call++) getppid();
    __cpuid(1, a, b, c, d);
    __cpuid_count(7, 0, e, f, d, a);
    printf("processor rdrand %u rdseed %u number %u\n", c >> 30 & 1, f >> 18 & 1, b >> 24);
}

#define ALL(x) x(0) x(1) x(2) x(3) x(4) x(5) x(6) x(7) x(8) x(9) x(10) x(11) x(12) x(13) x(14) x(15)
#define SET(n) "movq %[value], %%xmm" #n "\n\t"
#define GET(n) "movq %%xmm" #n ", 8*" #n "(%[found])\n\t"
#define NAME(n) "xmm" #n,

/* A call of the system while all vector registers hold a value; how many of them don't hold it behind the call. */
static int lost_by(unsigned long value, long call, long one, long two, long *answer) {
    unsigned long found[16] = {0};
    int lost = 0;
    __asm__ volatile(ALL(SET) "syscall\n\t" ALL(GET)
                     : "=a"(*answer) : "a"(call), "D"(one), "S"(two), [value] "r"(value), [found] "r"(found) : ALL(NAME) "rcx", "r11", "memory");
    for (int i = 0; i < 16; i++) lost += found[i] != value;
    return lost;
}

static void on_signal(int number) {
    long answer;
    lost_by((unsigned long)number, SYS_getppid, 0, 0, &answer);
}

/* Calls, turns of other threads, a signal whose handler has values of its own, and a fork, both of whose processes look. */
static void *lose(void *thread) {
    long lost = 0, answer, self = syscall(SYS_gettid);
    for (unsigned long round = 1; round <= 100; round++) {
        unsigned long value = (unsigned long)self << 32 | round;
        lost += lost_by(value, SYS_getppid, 0, 0, &answer) + lost_by(value, SYS_sched_yield, 0, 0, &answer);
        lost += lost_by(value, SYS_tkill, self, SIGUSR1, &answer);
        int missed = lost_by(value, SYS_fork, 0, 0, &answer), status = 0;
        if (answer == 0) _exit(missed);
        waitpid((pid_t)answer, &status, 0);
        lost += missed + WEXITSTATUS(status);
    }
    return *(long *)thread = lost, NULL;
}

static void registers(void) {
    pthread_t threads[4];
    long lost[4], sum = 0;
    signal(SIGUSR1, on_signal);
    for (int i = 0; i < 4; i++) pthread_create(&threads[i], NULL, lose, &lost[i]);
    for (int i = 0; i < 4; i++) pthread_join(threads[i], NULL), sum += lost[i];
    printf("registers lost %ld\n", sum);
}

int main(int count, char **words) {
    static const struct { const char *name; void (*run)(void); } kinds[] = {
        {"yields", yields}, {"flag", flags}, {"polls", polls}, {"waits", waits}, {"selects", selects}, {"clocks", clocks}, {"computes", computes},
        {"counter", counter}, {"processor", processor}, {"registers", registers}};
    for (size_t i = 0; i < sizeof kinds / sizeof *kinds; i++)
        if (count == 2 && !strcmp(words[1], kinds[i].name)) return kinds[i].run(), 0;
    return 2;
}
