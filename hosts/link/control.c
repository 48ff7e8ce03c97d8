#define _GNU_SOURCE
#include "control.h"

#include <inttypes.h>
#include <stdio.h>
#include <string.h>
#include <sys/socket.h>

#include "host.h"

#define LONGEST 4096 /* bytes of a message */

/* The lines behind the first one of an answer. */
struct answer {
    const char *lines; /* NULL if there are none */
    char text[2 * LONGEST];
};

/* Follows a line at once, and returns NULL, or why it is refused. The links don't get a line with a wrong word, since a transcript's lines
   have to be readable. They decide themselves about a refusal, which is one word like `no-such-pipe`: the trial of all the plan's lines
   knows other pipes. */
static const char *obey_now(struct host *host, const char *line, uint64_t moment) {
    const char *wrong = wrong_with_change(host, line);
    if (wrong && strchr(wrong, ' ')) return wrong;
    catch_up(host->pacing, moment);
    advance(host->links, moment);
    return make_change(host, line, moment);
}

/* Has a line followed later, and returns NULL, or why it is refused. */
static const char *obey_later(struct host *host, const char *rest, uint64_t moment, struct answer *answer) {
    uint64_t later;
    if (!take_number(&rest, &later)) return "no line";
    const char *wrong = wrong_with_change(host, rest);
    if (wrong) return wrong;
    insert_line(host->changes, moment + later, rest);
    answer->lines = line_behind_cut(host->cuts, rest);
    return NULL;
}

/* Begins a cut and has it end later, or does neither. The answer has the lines that the pipe has during the cut and behind it. */
static const char *obey_outage(struct host *host, const char *rest, uint64_t moment, struct answer *answer) {
    char end[LONGEST];
    uint64_t length;
    if (!take_number(&rest, &length) || strncmp(rest, "cut ", strlen("cut ")) != 0) return "no line";
    const char *wrong = wrong_with_line(host->cuts, rest);
    if (!wrong) wrong = obey_now(host, rest, moment);
    if (wrong) return wrong;
    snprintf(end, sizeof end, "open %s", rest + strlen("cut "));
    insert_line(host->changes, moment + length, end);
    const char *during = followed_line(host->cuts);
    const char *behind = line_behind_cut(host->cuts, end);
    snprintf(answer->text, sizeof answer->text, "%s\n%s", during ? during : "", behind ? behind : "");
    answer->lines = answer->text;
    return NULL;
}

/* Answers when a host's next act was done. */
static const char *answer_act(struct host *host, const char *name, struct answer *answer) {
    const struct done *done = next_done(host->acts, name);
    if (!done) return "no line";
    snprintf(answer->text, sizeof answer->text, "%" PRIu64 "%s", done->moment, done->met_nothing ? " nothing" : "");
    answer->lines = answer->text;
    return NULL;
}

/* Moves a message behind a word at its front; false if the message begins otherwise. */
static bool take_word(const char **message, const char *word) {
    if (strncmp(*message, word, strlen(word)) != 0) return false;
    *message += strlen(word);
    return true;
}

/* Obeys a message, adds the lines of its answer, and returns NULL, or why the message is refused. */
static const char *obey_message(struct host *host, const char *message, uint64_t moment, struct answer *answer) {
    if (take_word(&message, "line ")) {
        const char *wrong = obey_now(host, message, moment);
        if (!wrong) answer->lines = followed_line(host->cuts);
        return wrong;
    }
    if (take_word(&message, "at ")) return obey_later(host, message, moment, answer);
    if (take_word(&message, "acted ")) return answer_act(host, message, answer);
    if (take_word(&message, "outage ")) return obey_outage(host, message, moment, answer);
    if (strcmp(message, "moment") == 0) return NULL;
    if (strcmp(message, "main") != 0) return "no line";
    begin_main(host, moment);
    return NULL;
}

static void send_answer(const struct host *host, uint64_t moment, const char *wrong, const char *lines) {
    char text[2 * LONGEST + 160];
    int size;
    if (!lines) lines = "";
    if (wrong) size = snprintf(text, sizeof text, "%" PRIu64 " %s\n%s", moment, wrong, lines);
    else size = snprintf(text, sizeof text, "%" PRIu64 "\n%s", moment, lines);
    send(host->control, text, (size_t)size, MSG_DONTWAIT | MSG_NOSIGNAL);
}

void take_control(struct host *host) {
    char message[LONGEST];
    struct answer answer;
    while (true) {
        ssize_t len = recv(host->control, message, sizeof message - 1, MSG_DONTWAIT);
        if (len <= 0) return;
        message[len] = 0;
        answer.lines = NULL;
        uint64_t moment = now(&host->clock);
        make_changes(host, moment);
        const char *wrong = obey_message(host, message, moment, &answer);
        send_answer(host, moment, wrong, answer.lines);
    }
}
