#define _GNU_SOURCE
#include "links.h"

#include <errno.h>
#include <inttypes.h>
#include <stdio.h>
#include <stdlib.h>
#include <string.h>
#include <sys/random.h>

#include "basics.h"

/* What a configuration line is about. */
struct target {
    int kind;     /* DN_PIPE or DN_QUEUE */
    int number;   /* the number of the pipe or queue */
    bool deletes; /* whether the line deletes it */
};

/* The configuration line that a pipe or a queue has. */
struct held_line {
    int kind;   /* DN_PIPE or DN_QUEUE */
    int number; /* the number of the pipe or queue */
    char *text; /* NULL after its deletion */
};

struct links {
    struct transcript *transcript;
    struct dn_handle shaper;        /* the emulated links */
    struct dn_handle trial;         /* a shaper for wrong_with(), which tries the plan's lines before the start */
    struct held_line *lines;        /* in the order in which their pipes and queues were first configured */
    size_t line_count;              /* the number of lines */
    struct dn_delivery *deliveries; /* the packets of the last collect */
    uint64_t delivery_room;         /* the number of packets for which there is room */
    char wrong[DN_REASON_ROOM + 1]; /* the last result of wrong_by() */
    char canonical[400];            /* the last result of canonical_line(); the longest has some 220 bytes */
};

static void open_new(struct dn_handle *handle) {
    uint64_t key[2];
    if (getrandom(key, sizeof key, 0) != sizeof key) fail("getrandom", strerror(errno));
    if (dn_open_with_key(handle, DN_ORDERED, key[0], key[1]) != DN_OK) fail("the links", "out of memory");
}

struct links *open_links(struct transcript *transcript) {
    struct links *links = allocate_zeros(sizeof *links);
    links->transcript = transcript;
    links->delivery_room = 1024;
    links->deliveries = reallocate(NULL, links->delivery_room * sizeof *links->deliveries);
    open_new(&links->shaper);
    open_new(&links->trial);
    return links;
}

/* Reads the target of a line that was obeyed: `pipe 1 config ..`, `queue delete 2` or `queue 2 delete`, perhaps with `ipfw` before. */
static struct target target_of(const char *line) {
    char words[4][8] = {"", "", "", ""};
    sscanf(line, "%7s %7s %7s %7s", words[0], words[1], words[2], words[3]);
    int first = strcmp(words[0], "ipfw") == 0 ? 1 : 0;
    bool has_delete_first = strcmp(words[first + 1], "delete") == 0;
    const char *number = words[has_delete_first ? first + 2 : first + 1];
    return (struct target){
        .kind = strcmp(words[first], "queue") == 0 ? DN_QUEUE : DN_PIPE,
        .number = (int)strtol(number, NULL, 10),
        .deletes = has_delete_first || strcmp(words[first + 2], "delete") == 0,
    };
}

/* Returns the held line of a pipe or queue, which may be a new one without a text. */
static struct held_line *find_or_add_line(struct links *links, const struct target *target) {
    size_t place = 0;
    while (place < links->line_count && (links->lines[place].kind != target->kind || links->lines[place].number != target->number)) place++;
    if (place == links->line_count) {
        links->line_count++;
        links->lines = reallocate(links->lines, links->line_count * sizeof *links->lines);
        links->lines[place] = (struct held_line){.kind = target->kind, .number = target->number};
    }
    return &links->lines[place];
}

/* Keeps a line that was obeyed, or forgets the line of what it deleted. */
static void note_line(struct links *links, const char *line) {
    struct target target = target_of(line);
    struct held_line *held = find_or_add_line(links, &target);
    free(held->text);
    held->text = NULL;
    if (target.deletes) return;
    held->text = strdup(line);
    if (!held->text) fail("the links", "out of memory");
}

/* Returns what is wrong with a line by the library's status, or NULL: a text about a wrong word, or a refusal as in transcripts, in one
   word such as `no-such-pipe`. */
static const char *wrong_by(struct links *links, uint32_t status, const struct dn_fault *fault) {
    uint64_t length = 0;
    if (status == DN_OK) return NULL;
    if (status != DN_LINE && status > DN_NO_SUCH_QUEUE) fail("the links", "out of memory");
    dn_reason(status, fault, (uint8_t *)links->wrong, DN_REASON_ROOM, &length);
    links->wrong[length] = 0;
    if (status == DN_LINE) return links->wrong;
    for (char *letter = links->wrong; *letter; letter++)
        if (*letter == ' ') *letter = '-';
    return links->wrong;
}

static uint32_t configure(struct dn_handle *handle, const char *line, struct dn_fault *fault) {
    return dn_configure(handle, (const uint8_t *)line, strlen(line), fault);
}

const char *wrong_with(struct links *links, const char *line) {
    struct dn_fault fault;
    uint32_t status = configure(&links->trial, line, &fault);
    return wrong_by(links, status, &fault);
}

const char *canonical_line(struct links *links, const char *line) {
    static const char front[] = "c,0,configure,";
    char *text = links->canonical;
    struct dn_fault fault;
    uint64_t length = 0;
    uint32_t status = dn_configure_text(0, (const uint8_t *)line, strlen(line), DN_OK, &fault, (uint8_t *)text, sizeof links->canonical, &length);
    char *end = memchr(text, '\n', status == DN_OK ? length : 0);
    if (!end) return line;
    *end = 0;
    return text + strlen(front);
}

/* Gives the links a line, which the transcript keeps unless a word is wrong. Returns what is wrong with the line, or NULL. */
static const char *configure_links(struct links *links, const char *line) {
    struct dn_fault fault;
    struct transcript *transcript = links->transcript;
    uint32_t status = configure(&links->shaper, line, &fault);
    const char *wrong = wrong_by(links, status, &fault);
    if (status != DN_LINE) keep_configure(transcript, line, status);
    return wrong;
}

const char *obey(struct links *links, const char *line) {
    const char *wrong = configure_links(links, line);
    if (!wrong) note_line(links, line);
    return wrong;
}

void advance(struct links *links, uint64_t moment) {
    uint64_t at;
    if (dn_advance(&links->shaper, moment, &at) != DN_OK) fail("the links", "no moment can be told any more");
    keep_advance(links->transcript, moment, at);
}

void submit(struct links *links, const struct dn_packet *packet, struct dn_fate *fate) {
    if (dn_submit(&links->shaper, packet, fate) != DN_OK) fail("the links", "out of memory");
    keep_submit(links->transcript, packet, fate);
}

/* Collects the packets that are due at a moment, with room for all of them, and returns their number. */
static uint64_t collect_all(struct links *links, uint64_t moment, const struct dn_delivery **list) {
    uint64_t count;
    uint32_t status = dn_collect(&links->shaper, moment, links->deliveries, links->delivery_room, &count);
    while (status == DN_ROOM) {
        links->delivery_room = count + count / 2;
        links->deliveries = reallocate(links->deliveries, links->delivery_room * sizeof *links->deliveries);
        status = dn_collect(&links->shaper, moment, links->deliveries, links->delivery_room, &count);
    }
    if (status != DN_OK) fail("the links", "out of memory");
    *list = links->deliveries;
    return count;
}

uint64_t collect(struct links *links, uint64_t moment, const struct dn_delivery **list) {
    uint64_t count = collect_all(links, moment, list);
    keep_collect(links->transcript, moment, *list, count);
    return count;
}

uint64_t collect_rest(struct links *links, const struct dn_delivery **list) { return collect_all(links, DN_LAST_MOMENT, list); }

uint64_t wake(struct links *links) {
    uint64_t moment;
    if (dn_wake(&links->shaper, &moment) != DN_OK) fail("the links", "closed");
    return moment;
}

/* Returns the flows of all pipes and queues, which the caller frees, and their number. */
static struct dn_flow *show_flows(struct links *links, uint64_t *count) {
    uint64_t room = 1024;
    struct dn_flow *flows = reallocate(NULL, room * sizeof *flows);
    while (dn_show(&links->shaper, flows, room, count) == DN_ROOM) {
        room = *count;
        flows = reallocate(flows, room * sizeof *flows);
    }
    return flows;
}

bool has_waiting(struct links *links, int pipe) {
    uint64_t count;
    struct dn_flow *flows = show_flows(links, &count);
    uint64_t waiting = 0;
    for (uint64_t i = 0; i < count; i++)
        if (flows[i].pipe == pipe) waiting += flows[i].queued;
    free(flows);
    return waiting > 0;
}

/* Gives new links the lines of a kind. */
static void configure_again(struct links *links, int kind) {
    for (size_t i = 0; i < links->line_count; i++)
        if (links->lines[i].kind == kind && links->lines[i].text) configure_links(links, links->lines[i].text);
}

void begin_next_part(struct links *links) {
    next_part(links->transcript);
    dn_close(&links->shaper);
    open_new(&links->shaper);
    configure_again(links, DN_PIPE); /* a queue needs its pipe */
    configure_again(links, DN_QUEUE);
}
