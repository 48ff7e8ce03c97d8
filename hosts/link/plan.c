#define _GNU_SOURCE
#include "plan.h"

#include <errno.h>
#include <inttypes.h>
#include <limits.h>
#include <sched.h>
#include <stdbool.h>
#include <stdio.h>
#include <stdlib.h>
#include <string.h>

#include "host.h"

enum { PRIORITY = 10 }; /* of the scheduler's first-in-first-out class */

/* Ends the program because of a wrong line. */
_Noreturn static void refuse(const char *line, const char *wrong) {
    fprintf(stderr, "hinge: %s: %s\n", line, wrong);
    exit(BAD_LINE);
}

static void refuse_wrong(struct host *host, const char *line) {
    const char *wrong = wrong_with_change(host, line);
    if (wrong) refuse(line, wrong);
}

/* Reads `transcript BYTES FILE`, a transcript whose parts should have at most BYTES. It is the first line, so that the file has all others. */
static bool read_transcript(struct host *host, const char *rest) {
    uint64_t most;
    if (!take_number(&rest, &most)) return false;
    open_transcript(host->transcript, rest, most);
    return true;
}

/* Reads `line LINE`, a configuration line from the beginning on. */
static bool read_line(struct host *host, const char *rest) {
    const char *wrong = wrong_with(host->links, rest);
    if (wrong) refuse(rest, wrong);
    follow(host->cuts, rest);
    return true;
}

/* Reads `at NS LINE`, a line that is followed at a moment. A line behind `main` was tried when it came. */
static bool read_change(struct host *host, const char *rest) {
    uint64_t moment;
    if (!take_number(&rest, &moment)) return false;
    if (!host->plan.base) refuse_wrong(host, rest);
    insert_line(host->changes, host->plan.base + moment, rest);
    return true;
}

/* Takes the number of a way's pipe from the front of a text. */
static bool take_pipe(const struct host *host, const char **rest, int *pipe) { return take_int(rest, 1, host->carrier.ways, pipe); }

/* Reads `outage NS PIPE LENGTH`, the beginning of an outage: if no packet waits for the pipe, a packet of this length that nobody sent
   enters it. */
static bool read_outage(struct host *host, const char *rest) {
    uint64_t moment;
    int pipe, length;
    if (!take_number(&rest, &moment) || !take_pipe(host, &rest, &pipe) || !take_int(&rest, 0, UINT16_MAX, &length)) return false;
    insert_outage(host->changes, host->plan.base + moment, pipe, (uint16_t)length);
    return true;
}

/* Reads `hold PIPE FROM TO`: packets that would leave between these moments, in ns, leave at the second. */
static bool read_hold(struct host *host, const char *rest) {
    int pipe;
    uint64_t from, to;
    if (!take_pipe(host, &rest, &pipe) || !take_number(&rest, &from) || !take_number(&rest, &to) || to < from) return false;
    add_hold(host->pacing, pipe, host->plan.base + from, host->plan.base + to);
    return true;
}

/* Reads `slots PIPE MS ..`, the ascending moments of a trace, of which the last isn't 0. */
static bool read_slots(struct host *host, const char *rest) {
    size_t count = 0, most = strlen(rest);
    uint64_t moment = 0;
    int pipe;
    if (!take_pipe(host, &rest, &pipe)) return false;
    uint32_t *moments = reallocate(NULL, (most + 1) * sizeof *moments);
    while (*rest) {
        uint64_t before = moment;
        if (!take_number(&rest, &moment) || moment < before || moment > UINT32_MAX) return false;
        moments[count++] = (uint32_t)moment;
    }
    if (moment == 0) return false;
    add_slots(host->pacing, pipe, moments, count);
    return true;
}

/* Reads `map RULE`, a rule that sends packets to a pipe or a queue, in read_rule()'s form. */
static bool read_map(struct host *host, const char *rest) {
    struct rule rule;
    if (!read_rule(rest, &rule)) return false;
    add_rule(&host->rules, &rule);
    return true;
}

static bool take_way(const struct host *host, const char **rest, int *way) { return take_int(rest, 0, host->carrier.ways - 1, way); }

/* Takes a chance, of 2^31. */
static bool take_chance(const char **rest, uint32_t *chance) {
    uint64_t number;
    if (!take_number(rest, &number) || number > UINT32_MAX) return false;
    *chance = (uint32_t)number;
    return true;
}

/* Reads `seed WAY N`, the seed of a way's random words. A link's ways have the same seed, which is remarked once, and draw apart. */
static bool read_seed(struct host *host, const char *rest) {
    int way;
    uint64_t seed;
    if (!take_way(host, &rest, &way) || !take_number(&rest, &seed)) return false;
    set_seed(host->losses, way, seed);
    if (way == 0) remark(host->transcript, "#,seed,%" PRIu64 "\n", seed);
    return true;
}

/* Reads `gilbert WAY TO_BAD TO_GOOD LOST_IN_GOOD LOST_IN_BAD`, the chances of a loss with two states. */
static bool read_gilbert(struct host *host, const char *rest) {
    int way;
    uint32_t chances[4];
    if (!take_way(host, &rest, &way)) return false;
    for (int i = 0; i < 4; i++)
        if (!take_chance(&rest, &chances[i])) return false;
    set_gilbert(host->losses, way, chances);
    return true;
}

/* Reads `list WAY N ..`, the numbers of a way's packets that are lost. */
static bool read_list(struct host *host, const char *rest) {
    int way;
    uint64_t packet;
    if (!take_way(host, &rest, &way)) return false;
    set_chosen(host->losses, way);
    while (*rest) {
        if (!take_number(&rest, &packet)) return false;
        add_fault(host->passes, way, IS_LOST, packet, 1);
    }
    return true;
}

/* Reads `fault WAY KIND N VALUE`, a fault of the packet N as in passes.h. */
static bool read_fault(struct host *host, const char *rest) {
    int way, kind, value;
    uint64_t packet;
    if (!take_way(host, &rest, &way) || !take_int(&rest, IS_LOST, FAULTS - 1, &kind) || !take_number(&rest, &packet)) return false;
    if (!take_int(&rest, 1, MOST_PIPE, &value)) return false;
    add_fault(host->passes, way, (enum fault)kind, packet, value);
    return true;
}

/* Reads `jitter WAY FIRST COUNT SEED`, the pipes of a second pass. */
static bool read_jitter(struct host *host, const char *rest) {
    int way, first, count;
    uint64_t seed;
    if (!take_way(host, &rest, &way) || !take_int(&rest, 1, MOST_PIPE, &first) || !take_int(&rest, 1, MOST_PIPE + 1 - first, &count)) return false;
    if (!take_number(&rest, &seed)) return false;
    set_jitter(host->passes, way, first, count, seed);
    return true;
}

/* Reads `WAY CHANCE SEED`, a chance that `set` gives to the way. */
static bool read_chance(struct host *host, const char *rest, void (*set)(struct passes *passes, int way, uint32_t chance, uint64_t seed)) {
    int way;
    uint32_t chance;
    uint64_t seed;
    if (!take_way(host, &rest, &way) || !take_chance(&rest, &chance) || !take_number(&rest, &seed)) return false;
    set(host->passes, way, chance, seed);
    return true;
}

/* Reads `duplicate WAY CHANCE SEED`, the chance that a packet enters twice. */
static bool read_copies(struct host *host, const char *rest) { return read_chance(host, rest, set_copies); }

/* Reads `corrupt WAY CHANCE SEED`, the chance that a packet leaves with a flipped bit. */
static bool read_corruption(struct host *host, const char *rest) { return read_chance(host, rest, set_corruption); }

/* Reads `switch WAY WAY ..`, the ways that end at a switch of frames. */
static bool read_switch(struct host *host, const char *rest) {
    int ways[MOST_PIPE];
    int count = 0;
    while (*rest) {
        if (count == MOST_PIPE || !take_way(host, &rest, &ways[count])) return false;
        count++;
    }
    return count > 0 && add_switch(host->switches, ways, count);
}

/* Reads `realtime`: this program runs before all others, if the system allows it. */
static bool read_realtime(struct host *host, const char *rest) {
    struct sched_param first = {.sched_priority = PRIORITY};
    bool is_allowed = sched_setscheduler(0, SCHED_FIFO | SCHED_RESET_ON_FORK, &first) == 0;
    host->page->realtime = is_allowed ? HAS_IT : NOT_ALLOWED;
    return *rest == 0;
}

/* Reads `simulated`: time passes only while all programs wait. So time stands while this program works, if it runs before all others. */
static bool read_simulated(struct host *host, const char *rest) {
    if (host->page->realtime == HAS_IT) host->clock.stands = true;
    return *rest == 0;
}

/* Reads `epoch NS`, the time of the moment 0 by the system's monotonic clock. */
static bool read_epoch(struct host *host, const char *rest) { return take_number(&rest, &host->clock.epoch) && !*rest; }

/* Moves a text behind a word at its front; false if the text begins otherwise. */
static bool take_word(const char **text, const char *word) {
    if (strncmp(*text, word, strlen(word)) != 0) return false;
    *text += strlen(word);
    return true;
}

/* Tries a line of the main command in advance. The pipe of a `hold` is paced from now on. */
static bool try_behind_main(struct host *host, const char *line) {
    int pipe;
    uint64_t moment;
    if (take_word(&line, "outage ")) return true;
    if (take_word(&line, "hold ")) {
        if (!take_pipe(host, &line, &pipe)) return false;
        pace(host->pacing, pipe);
        return true;
    }
    if (!take_word(&line, "at ") || !take_number(&line, &moment)) return false;
    refuse_wrong(host, line);
    return true;
}

/* Reads `main LINE`, a line `at`, `outage` or `hold` whose moments count from the main command's beginning, and keeps the line until then. */
static bool read_main(struct host *host, const char *rest) {
    struct plan *plan = &host->plan;
    if (!try_behind_main(host, rest)) return false;
    char *line = strdup(rest);
    if (!line) fail("the plan", "out of memory");
    plan->behind_main = reallocate(plan->behind_main, (plan->count + 1) * sizeof *plan->behind_main);
    plan->behind_main[plan->count++] = line;
    return true;
}

/* Reads `remark WORDS`, a remark for the transcript. */
static bool read_remark(struct host *host, const char *rest) {
    remark(host->transcript, "#,%s\n", rest);
    return true;
}

/* Reads `host NAME FREEZE KILL EVENTS`, a net's host with the descriptors of its cgroup's files, for acts. */
static bool read_host(struct host *host, const char *rest) { return add_host(host->acts, rest); }

/* Reads `control DESCRIPTOR`, a socket for messages while packets pass (control.h). */
static bool read_control(struct host *host, const char *rest) { return take_int(&rest, 1, INT_MAX, &host->control) && !*rest; }

/* Reads `contents`: the transcript gets a remark about each packet's content, which path audits need. */
static bool read_contents(struct host *host, const char *rest) {
    host->remarks_contents = true;
    return *rest == 0;
}

/* Reads a line of the plan, by the function of its first word. False if the line has a wrong word. */
static bool read_plan_line(struct host *host, const char *line) {
    /* clang-format off */
    static const struct { const char *word; bool (*read)(struct host *host, const char *rest); } kinds[] = {
        {"transcript ", read_transcript}, {"line ", read_line},     {"at ", read_change},         {"outage ", read_outage},
        {"map ", read_map},               {"seed ", read_seed},     {"gilbert ", read_gilbert},   {"list ", read_list},
        {"realtime", read_realtime},      {"epoch ", read_epoch},   {"remark ", read_remark},     {"contents", read_contents},
        {"hold ", read_hold},             {"slots ", read_slots},   {"control ", read_control},   {"jitter ", read_jitter},
        {"duplicate ", read_copies},      {"main ", read_main},     {"simulated", read_simulated}, {"switch ", read_switch},
        {"fault ", read_fault},           {"host ", read_host},     {"corrupt ", read_corruption},
    };
    /* clang-format on */
    for (size_t i = 0; i < sizeof kinds / sizeof *kinds; i++)
        if (take_word(&line, kinds[i].word)) return kinds[i].read(host, line);
    return false;
}

void begin_main(struct host *host, uint64_t moment) {
    struct plan *plan = &host->plan;
    plan->base = moment ? moment : 1; /* 0 is the links' beginning */
    if (host->remarks_contents) remark(host->transcript, "#,main,%" PRIu64 "\n", plan->base);
    for (size_t i = 0; i < plan->count; i++) {
        if (!read_plan_line(host, plan->behind_main[i])) refuse(plan->behind_main[i], "no line of a plan");
        free(plan->behind_main[i]);
    }
    plan->count = 0;
}

void read_plan(struct host *host) {
    char *line = NULL;
    size_t size = 0;
    while (getline(&line, &size, stdin) > 0) {
        line[strcspn(line, "\n")] = 0;
        if (!read_plan_line(host, line)) refuse(line, "no line of a plan");
    }
    if (ferror(stdin)) fail("the plan", strerror(errno));
    free(line);
    if (host->page->realtime == HAS_IT && !host->clock.stands) prefer_writer(host->transcript, PRIORITY - 1);
}
