/* spins NUMBER: asks by the call of this number again and again, until another process has set a flag, after a second. Without a number it
   prints how many there are. Each must let time pass. */
#define _GNU_SOURCE
#include <arpa/inet.h>
#include <dirent.h>
#include <fcntl.h>
#include <linux/futex.h>
#include <sched.h>
#include <stdio.h>
#include <stdlib.h>
#include <string.h>
#include <sys/file.h>
#include <sys/ioctl.h>
#include <sys/mman.h>
#include <sys/msg.h>
#include <sys/resource.h>
#include <sys/sem.h>
#include <sys/socket.h>
#include <sys/stat.h>
#include <sys/syscall.h>
#include <sys/uio.h>
#include <sys/wait.h>
#include <time.h>
#include <unistd.h>

static volatile int *flag;
static int ends[2], queue, local, unused;
static char text[64];
static struct sockaddr_in nobody = {.sin_family = AF_INET};

static void by_open(void) { int file = open("/proc/self/comm", O_RDONLY); unused = (int)read(file, text, sizeof text), close(file); }
static void by_stat(void) { struct stat found; unused = stat("/nowhere", &found); }
static void by_pread(void) { unused = (int)pread(local, text, sizeof text, 0); }
static void by_write(void) { unused = (int)pwrite(local, "text", 4, 0); }
static void by_pipe(void) { unused = (int)read(ends[0], text, 1); }
static void by_ioctl(void) { unused = ioctl(ends[0], FIONREAD, &unused); }
static void by_connect(void) { int file = socket(AF_INET, SOCK_STREAM, 0); unused = connect(file, (void *)&nobody, sizeof nobody), close(file); }
static void by_send(void) { int file = socket(AF_INET, SOCK_DGRAM, 0); unused = (int)sendto(file, "", 1, 0, (void *)&nobody, sizeof nobody), close(file); }
static void by_folder(void) { DIR *folder = opendir("/dev/shm"); while (readdir(folder)) {} closedir(folder); }
static void by_lock(void) { int file = open("/dev/shm/held", O_RDWR); unused = flock(file, LOCK_EX | LOCK_NB), close(file); }
static void by_message(void) { unused = (int)msgrcv(queue, text, 8, 0, IPC_NOWAIT); }
static void by_futex(void) { unused = (int)syscall(SYS_futex, flag, FUTEX_WAIT, 1, NULL, NULL, 0); }
static void by_wake(void) { unused = (int)syscall(SYS_futex, flag, FUTEX_WAKE, 1, NULL, NULL, 0); }
static void by_sleep(void) { struct timespec none = {0, 0}; nanosleep(&none, NULL); }
static void by_madvise(void) { unused = madvise(text, 1, MADV_DONTNEED); }
static void by_priority(void) { unused = getpriority(PRIO_PROCESS, 0); }
static void by_pid(void) { unused = (int)syscall(SYS_getpid); }
static void by_rename(void) { unused = rename("/nowhere", "/dev/shm/there"); }
static void by_make(void) { close(open("/dev/shm/made", O_CREAT | O_EXCL | O_WRONLY, 0600)), unlink("/dev/shm/made"); }
static void by_map(void) { munmap(mmap(NULL, 4096, PROT_READ, MAP_PRIVATE | MAP_ANONYMOUS, -1, 0), 4096); }

static void (*const ways[])(void) = {by_open, by_stat, by_pread, by_write, by_pipe, by_ioctl, by_connect, by_send, by_folder, by_lock, by_message,
    by_futex, by_wake, by_sleep, by_madvise, by_priority, by_pid, by_rename, by_make, by_map};
enum { COUNT = sizeof ways / sizeof *ways };

int main(int count, char **words) {
    if (count < 2) return printf("%d\n", COUNT) < 0;
    nobody.sin_addr.s_addr = htonl(INADDR_LOOPBACK), nobody.sin_port = htons(9);
    flag = mmap(NULL, 4096, PROT_READ | PROT_WRITE, MAP_SHARED | MAP_ANONYMOUS, -1, 0);
    if (pipe2(ends, O_NONBLOCK)) return 2;
    queue = msgget(IPC_PRIVATE, 0600), local = open("/dev/shm/local", O_RDWR | O_CREAT, 0600);
    unused = flock(open("/dev/shm/held", O_RDWR | O_CREAT, 0600), LOCK_EX);
    if (!fork()) sleep(1), *flag = 1, _exit(0);
    while (!*flag) ways[atoi(words[1]) % COUNT]();
    while (wait(NULL) > 0) {}
    return 0;
}
