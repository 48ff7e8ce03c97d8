#define _GNU_SOURCE
#include "acts.h"

#include <errno.h>
#include <inttypes.h>
#include <limits.h>
#include <stdlib.h>
#include <string.h>
#include <unistd.h>

#include "host.h"

#define WORD "act "

enum { ALL_STOPS = 0 }; /* as the number of a `cont` */

/* A host of the net. */
struct net_host {
    char *name;
    int freeze;          /* the descriptor of cgroup.freeze */
    int kill;            /* the descriptor of cgroup.kill */
    int events;          /* the descriptor of cgroup.events */
    uint64_t *stops;     /* the numbers of the stops that last, in any order */
    size_t stop_count;   /* the number of these stops */
    struct done *done;   /* the acts that were done */
    size_t done_count;   /* the number of these acts */
    size_t answer_count; /* the number of these acts that next_done() has returned */
};

struct acts {
    struct net_host *hosts;
    size_t count;
};

struct acts *new_acts(void) {
    return allocate_zeros(sizeof(struct acts));
}

/* Returns the host with a name of `len` bytes, or NULL. */
static struct net_host *find_host(const struct acts *acts, const char *name, size_t len) {
    for (size_t i = 0; i < acts->count; i++) {
        struct net_host *host = &acts->hosts[i];
        if (strlen(host->name) == len && memcmp(host->name, name, len) == 0) return host;
    }
    return NULL;
}

bool add_host(struct acts *acts, const char *rest) {
    size_t len = strcspn(rest, " ");
    struct net_host host = {.name = strndup(rest, len)};
    if (!host.name) fail("the plan", "out of memory");
    rest += len;
    if (*rest == ' ') rest++;
    bool has_descriptors =
        take_int(&rest, 0, INT_MAX, &host.freeze) && take_int(&rest, 0, INT_MAX, &host.kill) && take_int(&rest, 0, INT_MAX, &host.events);
    if (!has_descriptors || *rest) return false;
    acts->hosts = reallocate(acts->hosts, (acts->count + 1) * sizeof *acts->hosts);
    acts->hosts[acts->count++] = host;
    return true;
}

/* An act, as its line describes it. */
struct act {
    bool (*work)(const struct act *act); /* the function of its word, which returns false with errno if the system refuses the act */
    struct net_host *host;
    const char *words; /* WORD HOST, in the line */
    int len;           /* the bytes of WORD HOST */
    uint64_t number;   /* the number of a stop */
};

static bool put(int descriptor, char digit) { return write(descriptor, &digit, 1) == 1; }

/* Adds a stop to the host's, and freezes the host. */
static bool stop(const struct act *act) {
    struct net_host *host = act->host;
    host->stops = reallocate(host->stops, (host->stop_count + 1) * sizeof *host->stops);
    host->stops[host->stop_count++] = act->number;
    return put(host->freeze, '1');
}

/* Lets the host continue, whose stops have ended. */
static bool cont(const struct act *act) { return put(act->host->freeze, '0'); }

/* Kills all processes of the host. They are frozen before, so that none of them sees the end of another. */
static bool kill_all(const struct act *act) {
    bool is_done = put(act->host->freeze, '1') && put(act->host->kill, '1');
    bool stays_frozen = act->host->stop_count > 0;
    return (stays_frozen || cont(act)) && is_done;
}

static const struct kind {
    const char *word;
    bool (*work)(const struct act *act);
} kinds[] = {{"stop ", stop}, {"cont ", cont}, {"kill ", kill_all}};

/* Returns the kind of an act with these words, or NULL. */
static const struct kind *find_kind(const char *words) {
    for (size_t i = 0; i < sizeof kinds / sizeof *kinds; i++)
        if (strncmp(words, kinds[i].word, strlen(kinds[i].word)) == 0) return &kinds[i];
    return NULL;
}

/* Reads a line `act WORD HOST N`. Returns false if it has another form, or if there is no such host. */
static bool read_act(const struct acts *acts, const char *line, struct act *act) {
    const char *words = line + strlen(WORD);
    const struct kind *kind = find_kind(words);
    if (!kind) return false;
    const char *name = words + strlen(kind->word);
    size_t name_len = strcspn(name, " ");
    const char *number = name + name_len;
    act->work = kind->work;
    act->host = find_host(acts, name, name_len);
    act->words = words;
    act->len = (int)(number - words);
    if (*number == ' ') number++;
    return act->host && take_number(&number, &act->number) && !*number;
}

static bool is_act(const char *line) { return strncmp(line, WORD, strlen(WORD)) == 0; }

const char *wrong_with_change(struct host *host, const char *line) {
    struct act act;
    if (!is_act(line)) return wrong_with_line(host->cuts, line);
    return read_act(host->acts, line, &act) ? NULL : "no line";
}

/* Removes a place from a host's stops, whose order doesn't matter. */
static void remove_stop(struct net_host *host, size_t place) {
    host->stop_count--;
    host->stops[place] = host->stops[host->stop_count];
}

/* Removes a host's stop with a number, or all stops. */
static void remove_stops(struct net_host *host, uint64_t number) {
    size_t place = 0;
    if (number == ALL_STOPS) host->stop_count = 0;
    while (place < host->stop_count) {
        if (host->stops[place] == number) remove_stop(host, place);
        else place++;
    }
}

/* Ends a host's stop with a number, or all stops, and returns whether the host then has to continue. It has to after its last stop, and after
   `cont HOST 0` even if no stop lasted. */
static bool end_stops(struct net_host *host, uint64_t number) {
    bool was_stopped = host->stop_count > 0;
    remove_stops(host, number);
    return number == ALL_STOPS || (was_stopped && host->stop_count == 0);
}

/* Whether no process runs on a host. */
static bool is_empty(const struct net_host *host) {
    char text[256];
    ssize_t len = pread(host->events, text, sizeof text - 1, 0);
    text[len > 0 ? len : 0] = 0;
    return strstr(text, "populated 0") != NULL;
}

static void note_done(struct net_host *host, struct done done) {
    host->done = reallocate(host->done, (host->done_count + 1) * sizeof *host->done);
    host->done[host->done_count++] = done;
}

const char *make_change(struct host *host, const char *line, uint64_t due) {
    struct act act;
    if (!is_act(line)) return follow(host->cuts, line);
    if (!read_act(host->acts, line, &act)) return "no line";
    if (act.work == cont && !end_stops(act.host, act.number)) return NULL;
    struct done done = {.met_nothing = act.work != cont && is_empty(act.host)};
    const char *wrong = act.work(&act) ? NULL : strerror(errno);
    done.moment = present(&host->clock);
    note_done(act.host, done);
    if (!wrong) remark(host->transcript, "#,late-act,%" PRIu64 "\n#,act,%.*s\n", done.moment - due, act.len, act.words);
    return wrong;
}

const struct done *next_done(struct acts *acts, const char *name) {
    struct net_host *host = find_host(acts, name, strlen(name));
    if (!host || host->done_count == 0) return NULL;
    if (host->answer_count < host->done_count) host->answer_count++;
    return &host->done[host->answer_count - 1];
}
