/* A packet file, a report, an index or a history as hinge-packets reads it: whatever its bytes are, it is refused by a status of its own, or
   its columns are as long as their head says. The first byte chooses the kind of file. */
#define _GNU_SOURCE
#include <fcntl.h>
#include <setjmp.h>
#include <stdlib.h>
#include <sys/mman.h>
#include <unistd.h>

#include "../../hosts/packets/columns.h"

enum { KINDS = 6, MOST_NUMBERS = 9, WORD = 8, ROWS = 3, MOST_ROWS = 4096 };

static const char PACKETS[] = "moment,target,number,src,dst,proto,sport,dport,len,word";
static const char REPORT[] = "event,row,flow,packet,at,start,due";
static jmp_buf refusal;

_Noreturn void leave_the_host(int status) {
    if (status != QUOTED && status != FAULT && status != BAD_HEADER && status != BAD_ROW && status != TOO_LONG) abort();
    longjmp(refusal, status);
}

/* Has a file without a name, which holds these bytes, be a descriptor. */
static void hold(int descriptor, const uint8_t *bytes, size_t size) {
    int file = memfd_create("columns", 0);
    if (file < 0 || write(file, bytes, size) != (ssize_t)size || lseek(file, 0, SEEK_SET) != 0 || dup2(file, descriptor) < 0) abort();
    close(file);
}

/* How many bytes stand behind the numbers of a head: items of tables, texts, and the rows of all columns. */
static uint64_t size_behind(int kind, const uint64_t *head) {
    switch (kind) {
    case 0: return WORD * head[1] + 2 * WORD * head[2] + (2 * WORD + 3 * 4) * head[0];
    case 1: return 3 * WORD * head[8];
    case 2: return head[1] ? (1 + 4 + 4 * WORD) * head[0] : 0;
    case 3: return 2 * WORD * head[0];
    default: return WORD * head[1] + 2 * WORD * head[2] + head[3] + head[4] + (7 * WORD + 4 * 4 + 1 + (kind == 5 ? 2 * WORD + 2 : 0)) * head[0];
    }
}

static void judge(int kind) {
    static const size_t numbers[KINDS] = {3, 9, 2, 1, 9, 9};
    uint64_t head[MOST_NUMBERS];
    ssize_t size = (ssize_t)(numbers[kind] * sizeof *head);
    if (pread(STDOUT_FILENO, head, (size_t)size, 0) != size) abort();
    if (head[0] > MOST_ROWS || (uint64_t)lseek(STDOUT_FILENO, 0, SEEK_END) != (uint64_t)size + size_behind(kind, head)) abort();
}

int LLVMFuzzerTestOneInput(const uint8_t *given, size_t size) {
    static const char *const words[KINDS][ROWS] = {{"packets", PACKETS},   {"sums", PACKETS}, {"report", REPORT, "3"},
                                                   {"index", "row,frame"}, {"history"},       {"net"}};
    static const int counts[KINDS] = {2, 2, 3, 2, 1, 1};
    if (!size) return 0;
    int kind = given[0] % KINDS;
    hold(STDIN_FILENO, given + 1, size - 1);
    hold(STDOUT_FILENO, given, 0);
    if (setjmp(refusal)) return 0;
    answer_file((char **)words[kind], counts[kind]);
    judge(kind);
    return 0;
}
