#define _GNU_SOURCE
#include "cuts.h"

#include <stdlib.h>
#include <string.h>

#include "basics.h"

#define LOSS " plr "
#define LOSS_OF_ALL LOSS "1"
#define LEAST_LOSS LOSS "0.0000000005" /* loses only packets with WORD_OF_A_LOSS */

struct cut {
    uint64_t number;
    int proto; /* the protocol of the port, or 0 for all packets */
    int port;  /* the port, or 0 for all packets */
};

struct pipe {
    char *line;       /* its configuration line without the cuts, or NULL if it isn't configured */
    struct cut *cuts; /* the cuts that last, in any order */
    size_t count;     /* the number of these */
};

struct cuts {
    struct links *links;
    struct pacing *pacing;
    struct transcript *transcript;
    char *latest;        /* what followed_line() returns */
    int most;            /* the greatest number of a pipe */
    struct pipe pipes[]; /* by their numbers, which begin at 1 */
};

/* The kinds of lines: the forms in cuts.h, and lines for the links. */
enum line_kind { CUT_LINE, OPEN_LINE, HEAL_LINE, REMARK_LINE, LINKS_LINE };

struct cuts *new_cuts(struct links *links, struct pacing *pacing, struct transcript *transcript, int most) {
    struct cuts *cuts = allocate_zeros(sizeof *cuts + (size_t)(most + 1) * sizeof *cuts->pipes);
    *cuts = (struct cuts){.links = links, .pacing = pacing, .transcript = transcript, .most = most};
    return cuts;
}

static bool begins(const char *line, const char *word) { return strncmp(line, word, strlen(word)) == 0; }

static enum line_kind kind_of(const char *line) {
    if (begins(line, "cut ")) return CUT_LINE;
    if (begins(line, "open ")) return OPEN_LINE;
    if (begins(line, "heal ")) return HEAL_LINE;
    return begins(line, "remark ") ? REMARK_LINE : LINKS_LINE;
}

/* Reads a line `cut`, `open` or `heal`, and returns its pipe, or NULL if a word is wrong. The cut of `heal` has no number. */
static struct pipe *read_cut(struct cuts *cuts, const char *line, struct cut *cut) {
    int pipe;
    const char *rest = strchr(line, ' ') + 1;
    *cut = (struct cut){0};
    if (!take_int(&rest, 1, cuts->most, &pipe)) return NULL;
    if (kind_of(line) != HEAL_LINE && !take_number(&rest, &cut->number)) return NULL;
    if (*rest && (!take_int(&rest, 1, UINT8_MAX, &cut->proto) || !take_int(&rest, 1, UINT16_MAX, &cut->port))) return NULL;
    return *rest ? NULL : &cuts->pipes[pipe];
}

static bool is_of_all(const struct cut *cut) { return cut->proto == 0; }

/* Whether the cut of a port concerns a packet. */
static bool has_port(const struct cut *cut, const struct dn_packet *packet) {
    return cut->proto == packet->proto && (cut->port == packet->sport || cut->port == packet->dport);
}

/* Whether any cut of the pipe concerns all packets. */
static bool loses_all(const struct pipe *pipe) {
    size_t place = 0;
    while (place < pipe->count && !is_of_all(&pipe->cuts[place])) place++;
    return place < pipe->count;
}

/* Returns what a pipe's cuts lose: nothing, the packets of ports, or all packets. */
static enum extent extent_of_cuts(const struct pipe *pipe) {
    if (pipe->count == 0) return CUTS_NOTHING;
    return loses_all(pipe) ? CUTS_ALL : CUTS_PORT;
}

enum extent extent_of_cut(const struct cuts *cuts, int way, const struct dn_packet *packet) {
    const struct pipe *pipe = &cuts->pipes[way + 1];
    size_t place = 0;
    if (loses_all(pipe)) return CUTS_ALL;
    while (place < pipe->count && !has_port(&pipe->cuts[place], packet)) place++;
    return place < pipe->count ? CUTS_PORT : CUTS_NOTHING;
}

const char *wrong_with_line(struct cuts *cuts, const char *line) {
    struct cut cut;
    switch (kind_of(line)) {
    case LINKS_LINE: return wrong_with(cuts->links, line);
    case REMARK_LINE: return NULL;
    default: return read_cut(cuts, line, &cut) ? NULL : "no line";
    }
}

static char *copy_line(const char *line) {
    char *copy = strdup(line);
    if (!copy) fail("the links", "out of memory");
    return copy;
}

/* Removes all loss rates from a line. */
static void remove_losses(char *line) {
    char *loss = strstr(line, LOSS);
    while (loss) {
        const char *rest = loss + strlen(LOSS) + strcspn(loss + strlen(LOSS), " ");
        memmove(loss, rest, strlen(rest) + 1);
        loss = strstr(line, LOSS);
    }
}

/* Returns a pipe's line, as a copy, with the loss rate that the pipe's cuts need: 1, or any rate above 0 for cuts of ports. */
static char *line_with_cuts(const char *line, enum extent extent) {
    if (extent == CUTS_NOTHING || (extent == CUTS_PORT && strstr(line, LOSS))) return copy_line(line);
    const char *loss = extent == CUTS_ALL ? LOSS_OF_ALL : LEAST_LOSS;
    char *with_cuts = reallocate(NULL, strlen(line) + strlen(loss) + 1);
    memcpy(with_cuts, line, strlen(line) + 1);
    remove_losses(with_cuts);
    strcat(with_cuts, loss); /* NOLINT: there is room for the loss */
    return with_cuts;
}

/* Has the links obey a line, and keeps it as the latest one: the caller hands over its memory. */
static const char *obey_latest(struct cuts *cuts, char *line) {
    const char *wrong = obey(cuts->links, line);
    if (!wrong) note_configured(cuts->pacing, line);
    free(cuts->latest);
    cuts->latest = line;
    return wrong;
}

/* Has the links obey a pipe's line with its present cuts, if these change the line otherwise than the cuts before. */
static const char *obey_again(struct cuts *cuts, const struct pipe *pipe, enum extent before) {
    enum extent extent = extent_of_cuts(pipe);
    if (!pipe->line || extent == before) return NULL;
    if (extent != CUTS_ALL && before != CUTS_ALL && strstr(pipe->line, LOSS)) return NULL;
    return obey_latest(cuts, line_with_cuts(pipe->line, extent));
}

/* Returns the place of the cut with a number, or the number of cuts if there is none. */
static size_t place_of_cut(const struct pipe *pipe, uint64_t number) {
    size_t place = 0;
    while (place < pipe->count && pipe->cuts[place].number != number) place++;
    return place;
}

static void begin_cut(struct pipe *pipe, struct cut cut) {
    if (place_of_cut(pipe, cut.number) < pipe->count) return;
    pipe->cuts = reallocate(pipe->cuts, (pipe->count + 1) * sizeof *pipe->cuts);
    pipe->cuts[pipe->count++] = cut;
}

static void end_cut(struct pipe *pipe, uint64_t number) {
    size_t place = place_of_cut(pipe, number);
    if (place == pipe->count) return;
    pipe->count--;
    pipe->cuts[place] = pipe->cuts[pipe->count]; /* the order of cuts doesn't matter */
}

/* Ends all cuts, or the cuts of the same port as `healed`. */
static void end_cuts(struct pipe *pipe, const struct cut *healed) {
    size_t kept = 0;
    for (size_t i = 0; i < pipe->count; i++) {
        const struct cut *cut = &pipe->cuts[i];
        bool ends = is_of_all(healed) || (cut->proto == healed->proto && cut->port == healed->port);
        if (!ends) pipe->cuts[kept++] = *cut;
    }
    pipe->count = kept;
}

/* Follows a line `cut`, `open` or `heal`. */
static const char *follow_cut(struct cuts *cuts, const char *line) {
    struct cut cut;
    struct pipe *pipe = read_cut(cuts, line, &cut);
    enum line_kind kind = kind_of(line);
    enum extent before = extent_of_cuts(pipe);
    size_t count_before = pipe->count;
    if (kind == CUT_LINE) begin_cut(pipe, cut);
    else if (kind == OPEN_LINE) end_cut(pipe, cut.number);
    else end_cuts(pipe, &cut);
    const char *wrong = obey_again(cuts, pipe, before);
    bool does_nothing = kind == HEAL_LINE && pipe->count == count_before;
    if (!cuts->latest && pipe->line && !does_nothing) cuts->latest = line_with_cuts(pipe->line, extent_of_cuts(pipe));
    return wrong;
}

/* Returns the pipe that a line of the links configures or deletes, or NULL if the line is about something else. */
static struct pipe *target_of(struct cuts *cuts, const char *line, bool deletes) {
    int number;
    if (!begins(line, "pipe ")) return NULL;
    const char *rest = line + strlen(deletes ? "pipe delete " : "pipe ");
    return take_int(&rest, 1, cuts->most, &number) ? &cuts->pipes[number] : NULL;
}

/* Has the links obey a line of theirs, with the cuts of its pipe, and keeps the line without the cuts. */
static const char *follow_links_line(struct cuts *cuts, const char *typed) {
    const char *line = canonical_line(cuts->links, typed);
    bool deletes = begins(line, "pipe delete ");
    struct pipe *pipe = target_of(cuts, line, deletes);
    const char *wrong = obey_latest(cuts, pipe && !deletes ? line_with_cuts(line, extent_of_cuts(pipe)) : copy_line(line));
    if (pipe && !wrong) {
        free(pipe->line);
        pipe->line = deletes ? NULL : copy_line(line);
    }
    return wrong;
}

const char *follow(struct cuts *cuts, const char *line) {
    free(cuts->latest);
    cuts->latest = NULL;
    switch (kind_of(line)) {
    case LINKS_LINE: return follow_links_line(cuts, line);
    case REMARK_LINE: remark(cuts->transcript, "#,%s\n", line + strlen("remark ")); return NULL;
    default: return follow_cut(cuts, line);
    }
}

const char *followed_line(const struct cuts *cuts) { return cuts->latest; }

const char *line_behind_cut(struct cuts *cuts, const char *line) {
    struct cut cut;
    const struct pipe *pipe = kind_of(line) == OPEN_LINE ? read_cut(cuts, line, &cut) : NULL;
    return pipe ? pipe->line : NULL;
}
