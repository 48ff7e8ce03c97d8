#define _GNU_SOURCE
#include "transcript.h"

#include <errno.h>
#include <fcntl.h>
#include <inttypes.h>
#include <sched.h>
#include <stdarg.h>
#include <stdio.h>
#include <stdlib.h>
#include <string.h>
#include <sys/file.h>
#include <sys/mman.h>
#include <sys/wait.h>
#include <unistd.h>

#include "basics.h"
#include "writer.h"

enum { BUFFER = 1 << 16, CLOSED = -1 };

struct transcript {
    struct page *page;
    const char *name; /* the file of its first part */
    uint64_t longest; /* bytes that a part should have at most */
    bool failed;      /* whether a part couldn't be written */
    int priority;     /* of the writers, or 0 */

    /* The present part. */
    pid_t writer;             /* the process that writes it */
    int pipe;                 /* the pipe to the writer, or CLOSED */
    uint64_t most;            /* bytes that its lines have at most */
    _Atomic uint64_t *spared; /* bytes by which the written lines are shorter */
    uint64_t submits;         /* the number of its packets */

    /* The records that haven't been handed to the writer yet. */
    unsigned char *records;
    size_t used; /* bytes of these records */
    size_t room; /* bytes for which there is room */
};

struct transcript *new_transcript(struct page *page) {
    struct transcript *transcript = allocate_zeros(sizeof *transcript);
    *transcript = (struct transcript){.page = page, .pipe = CLOSED, .records = allocate_zeros(BUFFER), .room = BUFFER};
    return transcript;
}

/* Hands all records to the writer. If this fails, they are lost, and the transcript has failed. */
static void hand_on(struct transcript *transcript) {
    size_t at = 0;
    while (at < transcript->used) {
        ssize_t done = write(transcript->pipe, transcript->records + at, transcript->used - at);
        if (done < 0) {
            transcript->failed = true;
            break;
        }
        at += (size_t)done;
    }
    transcript->used = 0;
}

/* Hands the last records to the writer if the program ends without ending the transcript. */
static void hand_on_last(int status, void *transcript) {
    (void)status;
    hand_on(transcript);
}

void prefer_writer(struct transcript *transcript, int priority) {
    transcript->priority = priority;
    if (priority && transcript->writer) sched_setscheduler(transcript->writer, SCHED_FIFO, &(struct sched_param){.sched_priority = priority});
}

/* Opens a part's file and empties it. A lock keeps other runs away from it until its writer ends. */
static int open_empty(const char *path) {
    int file = open(path, O_WRONLY | O_CREAT | O_CLOEXEC, 0666);
    if (file < 0) fail(path, strerror(errno));
    if (flock(file, LOCK_EX | LOCK_NB) < 0 && errno == EWOULDBLOCK) fail(path, "another run writes it");
    if (ftruncate(file, 0) < 0 && errno != EINVAL) fail(path, strerror(errno)); /* EINVAL: a pipe has no length */
    return file;
}

/* Starts the process that writes a part, so that a slow disk keeps no packet waiting. */
static void start_writer(struct transcript *transcript, const char *path) {
    int file = open_empty(path);
    int ends[2];
    transcript->spared = mmap(NULL, sizeof *transcript->spared, PROT_READ | PROT_WRITE, MAP_SHARED | MAP_ANONYMOUS, -1, 0);
    if (transcript->spared == MAP_FAILED || pipe2(ends, O_CLOEXEC) < 0) fail("the transcript", strerror(errno));
    transcript->writer = fork();
    if (transcript->writer < 0) fail("the transcript", strerror(errno));
    if (transcript->writer == 0) {
        close(ends[1]);
        write_part(ends[0], file, path, transcript->spared);
    }
    close(ends[0]);
    close(file);
    fcntl(ends[1], F_SETPIPE_SZ, (int)MEGABYTE);
    transcript->pipe = ends[1];
}

static void begin_part(struct transcript *transcript, const char *path) {
    start_writer(transcript, path);
    transcript->most = 0;
    transcript->submits = 0;
    transcript->page->parts++;
    prefer_writer(transcript, transcript->priority);
}

void open_transcript(struct transcript *transcript, const char *path, uint64_t most) {
    transcript->name = strdup(path);
    transcript->longest = most;
    on_exit(hand_on_last, transcript);
    begin_part(transcript, path);
}

void hand_on_transcript(struct transcript *transcript) {
    if (transcript->used > BUFFER / 2) hand_on(transcript);
}

bool transcript_is_long(const struct transcript *transcript) {
    if (transcript->pipe == CLOSED || transcript->submits == 0) return false;
    return transcript->most - *transcript->spared > transcript->longest;
}

/* Adds a record, whose body has two pieces, for the writer. */
static inline void put(struct transcript *transcript, enum kind kind, const void *first, size_t first_size, const void *second, size_t second_size) {
    size_t size = first_size + second_size;
    size_t whole = whole_size(size);
    if (transcript->pipe == CLOSED) return;
    if (whole > transcript->room - transcript->used) hand_on(transcript);
    if (whole > transcript->room) {
        transcript->records = reallocate(transcript->records, whole);
        transcript->room = whole;
    }
    struct record *record = (void *)(transcript->records + transcript->used);
    *record = (struct record){kind, size};
    memcpy(record->body, first, first_size);
    memcpy(record->body + first_size, second, second_size);
    transcript->used += whole;
    transcript->most += TIMES * whole;
}

static void end_part(struct transcript *transcript) {
    put(transcript, END, "", 0, "", 0);
    hand_on(transcript);
    close(transcript->pipe);
    munmap(transcript->spared, sizeof *transcript->spared);
    transcript->pipe = CLOSED;
}

void next_part(struct transcript *transcript) {
    char path[4096];
    end_part(transcript);
    snprintf(path, sizeof path, "%s.%" PRIu64, transcript->name, transcript->page->parts);
    begin_part(transcript, path);
}

bool close_transcript(struct transcript *transcript) {
    int status;
    if (transcript->pipe == CLOSED) return true;
    end_part(transcript);
    while (wait(&status) > 0)
        if (status != 0) transcript->failed = true;
    return !transcript->failed;
}

void keep_submit(struct transcript *transcript, const struct dn_packet *packet, const struct dn_fate *fate) {
    put(transcript, SUBMIT, packet, sizeof *packet, fate, sizeof *fate);
    transcript->submits++;
}

void keep_collect(struct transcript *transcript, uint64_t moment, const struct dn_delivery *list, uint64_t count) {
    put(transcript, COLLECT, &moment, sizeof moment, list, count * sizeof *list);
}

void keep_advance(struct transcript *transcript, uint64_t moment, uint64_t at) { put(transcript, ADVANCE, &moment, sizeof moment, &at, sizeof at); }

void keep_configure(struct transcript *transcript, const char *line, uint32_t status) {
    uint64_t number = status;
    put(transcript, CONFIGURE, &number, sizeof number, line, strlen(line));
}

void remark(struct transcript *transcript, const char *format, ...) {
    va_list words;
    char *text;
    if (transcript->pipe == CLOSED) return;
    va_start(words, format);
    int length = vasprintf(&text, format, words);
    va_end(words);
    if (length < 0) fail("the transcript", "out of memory");
    put(transcript, REMARK, text, (size_t)length, "", 0);
    free(text);
}

void remark_content(struct transcript *transcript, uint64_t content) { put(transcript, CONTENT, &content, sizeof content, "", 0); }
