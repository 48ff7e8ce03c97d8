/* A session of `dummynet live`, for hosts that are written in C: lines go to it, and its answers come back, a record at a time.
   docs/LIVE.md says what it answers. What fails ends the host with a line on standard error. Define _GNU_SOURCE before it. */
#ifndef SESSION_H
#define SESSION_H
#include <errno.h>
#include <fcntl.h>
#include <signal.h>
#include <stdbool.h>
#include <stdint.h>
#include <stdio.h>
#include <stdlib.h>
#include <string.h>
#include <sys/wait.h>
#include <unistd.h>

/* Lines that are written before their answers are read may have 4,096 bytes (PIPE_BUF), which any pipe holds. With more, the
   session can wait for room for its answers while the host waits for room for its lines. */
struct session {
    pid_t process;
    int lines;
    FILE *answers;
    FILE *transcript; /* keeps all that the session writes; NULL for none */
};

_Noreturn static inline void fail(const char *what) {
    fprintf(stderr, "%s: %s\n", program_invocation_short_name, what);
    exit(6);
}

_Noreturn static inline void fail_by_system(const char *what) {
    fprintf(stderr, "%s: %s: %s\n", program_invocation_short_name, what, strerror(errno));
    exit(6);
}

static inline bool begins(const char *text, const char *with) { return strncmp(text, with, strlen(with)) == 0; }

/* Reads numbers behind each other, a comma before each, and answers how many there were. */
static inline int numbers(const char *text, int most, uint64_t *found) {
    int count = 0;
    while (count < most && *text == ',') {
        char *end;
        found[count++] = strtoull(text + 1, &end, 10);
        text = end;
    }
    return count;
}

/* Writes lines, each with its line feed. */
static inline void session_say(struct session *session, const char *text, size_t len) {
    while (len > 0) {
        ssize_t done = write(session->lines, text, len);
        if (done < 0) fail_by_system("the session takes no more");
        text += done;
        len -= (size_t)done;
    }
}

/* The next record, without its line feed; it stands until the next call. */
static inline char *session_record(struct session *session) {
    static char *text;
    static size_t room;
    if (getline(&text, &room, session->answers) < 0) fail("the session ended");
    if (session->transcript) fputs(text, session->transcript);
    text[strcspn(text, "\n")] = 0;
    return text;
}

/* Starts the program that DUMMYNET names, or `dummynet` on the path, in a process group of its own: a ^C on the terminal is for
   the host alone, which then ends the session. */
static inline struct session session_start(FILE *transcript) {
    const char *program = getenv("DUMMYNET") ? getenv("DUMMYNET") : "dummynet";
    int in[2], out[2];
    if (pipe2(in, O_CLOEXEC) || pipe2(out, O_CLOEXEC)) fail_by_system("pipe");
    struct session made = {fork(), in[1], fdopen(out[0], "r"), transcript};
    if (made.process < 0 || !made.answers) fail_by_system("fork");
    if (made.process == 0) {
        setpgid(0, 0);
        dup2(in[0], STDIN_FILENO);
        dup2(out[1], STDOUT_FILENO);
        execlp(program, program, "live", (char *)NULL);
        fprintf(stderr, "%s: %s\n", program, strerror(errno));
        _exit(127);
    }
    close(in[0]);
    close(out[1]);
    signal(SIGPIPE, SIG_IGN); /* a session that has ended is told by a failed write */
    if (strcmp(session_record(&made), "dummynet-live,1") != 0) fail("the program begins no session");
    return made;
}

/* The text behind so many commas. */
static inline const char *behind(const char *text, int commas) {
    while (commas > 0 && *text != 0) commas -= *text++ == ',';
    return text;
}

/* Whether a configuration line has a word: blanks and what is behind a # are none. */
static inline bool has_words(const char *line, size_t len) {
    size_t at = 0;
    while (at < len && memchr(" \t\r", line[at], 3)) at++;
    return at < len && line[at] != '#';
}

/* Asks for what a configuration line of so many bytes says, as a file has it, without its line feed. Answers NULL, or else why it was
   refused, until the next call. The blank before it makes a configuration line of each: `next` and calls have other answers. */
static inline const char *session_configure_bytes(struct session *session, const char *line, size_t len) {
    if (memchr(line, '\n', len)) return "more than one line";
    if (!has_words(line, len)) return NULL; /* it would have no answer */
    session_say(session, " ", 1);
    session_say(session, line, len);
    session_say(session, "\n", 1);
    const char *answer = session_record(session);
    if (begins(answer, "#,bad")) return behind(answer, 4);
    answer = session_record(session);
    return begins(answer, "r,configured") || begins(answer, "r,deleted") ? NULL : behind(answer, 1);
}

/* The same of a text. */
static inline const char *session_configure(struct session *session, const char *line) { return session_configure_bytes(session, line, strlen(line)); }

/* Ends the session, keeps what it still says, and answers its status. */
static inline int session_end(struct session *session) {
    char rest[4096];
    size_t len;
    int status;
    close(session->lines);
    while ((len = fread(rest, 1, sizeof rest, session->answers)) > 0)
        if (session->transcript) fwrite(rest, 1, len, session->transcript);
    fclose(session->answers);
    if (session->transcript && (fflush(session->transcript) || ferror(session->transcript))) fail_by_system("the transcript");
    if (waitpid(session->process, &status, 0) < 0) fail_by_system("waitpid");
    return WIFEXITED(status) ? WEXITSTATUS(status) : 6;
}
#endif
