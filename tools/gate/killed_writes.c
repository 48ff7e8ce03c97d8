/* A preload that kills the process in its KILL_AT-th write to a file, of which the front half is written. Processes that it forks count on
   their own. */
#define _GNU_SOURCE
#include <dlfcn.h>
#include <signal.h>
#include <stdlib.h>
#include <sys/stat.h>
#include <sys/uio.h>
#include <unistd.h>

static int is_fatal(int file) {
    static long writes;
    struct stat found;
    const char *at = getenv("KILL_AT");
    return at && fstat(file, &found) == 0 && S_ISREG(found.st_mode) && ++writes == atol(at);
}

ssize_t write(int file, const void *bytes, size_t len) {
    static ssize_t (*real)(int, const void *, size_t);
    if (!real) real = (ssize_t(*)(int, const void *, size_t))dlsym(RTLD_NEXT, "write");
    if (!is_fatal(file)) return real(file, bytes, len);
    real(file, bytes, len / 2);
    kill(getpid(), SIGKILL);
    return -1;
}

ssize_t writev(int file, const struct iovec *parts, int count) {
    static ssize_t (*real)(int, const struct iovec *, int);
    if (!real) real = (ssize_t(*)(int, const struct iovec *, int))dlsym(RTLD_NEXT, "writev");
    if (!is_fatal(file)) return real(file, parts, count);
    real(file, parts, count / 2);
    kill(getpid(), SIGKILL);
    return -1;
}
