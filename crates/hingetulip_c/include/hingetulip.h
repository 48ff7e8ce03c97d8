/*
 * hingetulip.h: the link emulator dummynet, as ipfw(8) configures it, in the caller's own process.
 *
 * Handles. A handle is closed where it is {0}, as in `struct dn_handle h = {0};`, and the library has no other state, of a
 * thread neither. One thread at a time uses a handle, which may pass to another one by a lock, by a thread's start or by its end.
 * Handles don't know of one another. An open handle isn't copied, and its fields are the library's alone. What a handle owns is
 * let go by dn_close, or by dn_open on it again.
 *
 * Moments are in nanoseconds, from 0 to DN_LAST_MOMENT, on a clock of the caller's own. A call at an earlier moment than the
 * last call counts as one at the last, and the reply says which moment counted.
 *
 * Each call answers an enum dn_status. Under DN_OK all that the call tells is written; under every other status what the
 * caller handed in is as it was, but for what that status is said to write, and the handle stands as it stood, but for the
 * three refusals of dn_configure, which count as calls and change nothing else, and for an audit's, which is closed. Where two
 * statuses fit, a call answers that of a number, a line or the room for fates before DN_CLOSED.
 *
 * No pointer may be NULL, also that of a list of no items. No two pointers of a call may overlap in what they point to: one
 * variable doesn't take two results, and a result isn't written over what the call reads.
 *
 * Later versions change no function, no struct and no number of this one: what they add has a name of its own, or takes the
 * place of a field `reserved`, which is 0 in what the caller hands in, else DN_BAD_RESERVED, and is written as 0.
 */
#ifndef HINGETULIP_H
#define HINGETULIP_H

#include <stdbool.h>
#include <stddef.h>
#include <stdint.h>

#ifdef __cplusplus
extern "C" {
#endif

/* The version of this header: its three numbers, as major * 1000000 + minor * 1000 + patch. */
#define DN_VERSION 2000000u

/* The last moment of a call: 2^62 ns. */
#define DN_LAST_MOMENT ((uint64_t)1 << 62)

/* What dn_wake tells where nothing waits and nothing is under way. */
#define DN_NEVER UINT64_MAX

/* The first line of a history file, and the last line behind its entries, which has their count. */
#define DN_HISTORY_FRONT "dummynet-history,3\n"
#define DN_HISTORY_END "end,%llu\n"

/* The most bytes of a history file that `dummynet audit` reads unless it is asked to read more. */
#define DN_HISTORY_LIMIT ((size_t)268435456)

/* The most bytes that dn_reason writes. */
#define DN_REASON_ROOM ((size_t)128)

enum dn_status {
    DN_OK = 0,
    DN_EXHAUSTED = 1,       /* the handle answered 2^62 calls before: nothing changes any more */
    DN_NO_SUCH_PIPE = 2,    /* refused: the queue's pipe isn't configured, or there is no such pipe to delete */
    DN_PIPE_HAS_QUEUES = 3, /* refused: a configured queue names the pipe that is to be deleted */
    DN_NO_SUCH_QUEUE = 4,   /* refused: there is no such queue to delete */
    DN_CLOSED = 5,          /* the handle is closed */
    DN_MEMORY = 6,          /* memory was refused; the same call may be made again, except dn_audit_feed and dn_audit_finish */
    DN_ROOM = 7,            /* the list is too short: *count is a length that is enough */
    DN_LINE = 8,            /* the line is no command: *fault says what is wrong, and where */
    DN_BAD_MOMENT = 9,      /* a moment above DN_LAST_MOMENT */
    DN_BAD_RULE = 10,       /* no enum dn_rule */
    DN_BAD_KIND = 11,       /* no enum dn_kind */
    DN_BAD_NUMBER = 12,     /* a pipe or a queue numbered 0 */
    DN_BAD_LENGTH = 13,     /* a packet of 0 bytes */
    DN_BAD_RESERVED = 14,   /* a field `reserved` that isn't 0 */
    DN_NEW_FLOW = 19,       /* the packet's flow is new, so that no room was made for it; 15 to 18 are hingetulip_service.h's */
    DN_BAD_CALLER = 20,     /* the number of a history's caller isn't in 0 to 15 */
    DN_BAD_OUTCOME = 21,    /* no enum dn_outcome, or no status by which dn_configure answers a command */
    DN_BAD_ROW = 22,        /* a row of a packet file is none: *row and *field say where */
    DN_TOO_LONG = 23,       /* a history file is longer than its limit */
    DN_BAD_RECORD = 24      /* a record of a history file is none or is missing: *record says which */
};

/* How the due moments of the packets on one link follow one another. */
enum dn_rule {
    DN_ORDERED = 0, /* a packet is due no sooner than the one before it */
    DN_FREE = 1     /* a packet is due when its bits and the pipe's delay have passed, whatever is before it */
};

/* What a packet is sent to. */
enum dn_kind { DN_PIPE = 0, DN_QUEUE = 1 };

/* What became of a packet. */
enum dn_outcome {
    DN_QUEUED = 0,   /* it was accepted, and a dn_collect will give it */
    DN_LOST = 1,     /* it was lost by the loss rate (plr) */
    DN_FULL = 2,     /* its queue was full */
    DN_NO_TARGET = 3 /* its pipe or queue isn't configured */
};

/* What is wrong with a line. */
enum dn_fault_kind {
    DN_NOT_UTF8 = 0,      /* it is no UTF-8 */
    DN_UNKNOWN_WORD = 1,  /* this word is no keyword here */
    DN_MISSING_VALUE = 2, /* the line ends behind this word, or this `mask` has no field */
    DN_NOT_A_NUMBER = 3,  /* this word isn't written as the number that is asked for */
    DN_OUT_OF_RANGE = 4,  /* this word is a number outside its range */
    DN_LEFT_OUT = 5,      /* ipfw(8) has this word, and this library leaves it out */
    DN_NEEDS_PIPE = 6     /* the line of a queue, which this word begins, doesn't name its pipe */
};

/* What a call of a history asked for: one of dn_configure, dn_submit, dn_advance, dn_collect or dn_show. */
enum dn_call { DN_CONFIGURE = 0, DN_SUBMIT = 1, DN_ADVANCE = 2, DN_COLLECT = 3, DN_SHOW = 4 };

/* What the reply to a call of a history tells. A history that isn't lawful can have any reply to any call. */
enum dn_reply {
    DN_REFUSED = 0,    /* only its status, which isn't DN_OK */
    DN_CONFIGURED = 1, /* a configuration was obeyed */
    DN_DELETED = 2,    /* a delete was obeyed */
    DN_FATE = 3,       /* what became of a packet */
    DN_CLOCK = 4,      /* where the clock stands */
    DN_DELIVERIES = 5, /* where the clock stands, and the packets that are due */
    DN_FLOWS = 6       /* the states of flows */
};

/* What an audit finds of a history. */
enum dn_finding {
    DN_LAWFUL = 0, /* each reply is the emulator's after the calls before it */
    DN_DIFFERS = 1 /* an entry has another reply */
};

struct dn_handle {
    void *at;
    bool open;
};

/* The handle of an audit, by the same rules. */
struct dn_audit {
    void *at;
    bool open;
};

struct dn_fault {
    uint64_t word; /* the word that the fault concerns, from 1; 0 under DN_NOT_UTF8 */
    uint32_t kind; /* an enum dn_fault_kind */
    uint32_t reserved;
};

/* A packet that arrives. Addresses are IPv4, the first number in the highest byte: 10.0.0.1 is 0x0a000001. */
struct dn_packet {
    uint64_t moment; /* when it arrives, ns, at most DN_LAST_MOMENT */
    uint32_t src;
    uint32_t dst;
    uint32_t word;   /* a random word: the packet is lost where its low 31 bits are below the loss rate times 2^31. A zeroed packet's word
                        is 0, which every loss rate above 0 loses: draw one anew for each packet. */
    uint16_t sport;
    uint16_t dport;
    uint16_t length; /* bytes, from 1 */
    uint16_t number; /* the number of the pipe or the queue, from 1 */
    uint8_t kind;    /* an enum dn_kind */
    uint8_t proto;   /* the protocol, as in the IP header: 6 TCP, 17 UDP */
    uint16_t reserved;
};

struct dn_fate {
    uint64_t at;      /* the moment that counted, ns */
    uint64_t flow;    /* the packet's flow, from 0 in order of first sight; 0 under DN_NO_TARGET */
    uint64_t packet;  /* the packet's number: how many were accepted before it; 0 where it wasn't accepted */
    uint32_t outcome; /* an enum dn_outcome */
    uint32_t reserved;
};

/* A packet that leaves the emulator. */
struct dn_delivery {
    uint64_t due;    /* when it leaves, ns */
    uint64_t packet; /* its number, as dn_submit told it */
    uint64_t flow;
    uint64_t start;  /* when its transmission began, ns */
    uint64_t reserved;
};

/* The state of a flow: what waits in its queue, and the counts of its packets so far. */
struct dn_flow {
    uint64_t flow;
    uint64_t queued;    /* packets in the queue */
    uint64_t bytes;     /* bytes in the queue */
    uint64_t lost;      /* packets lost by the loss rate */
    uint64_t full;      /* packets that found the queue full */
    uint64_t started;   /* packets whose transmission has begun */
    uint64_t discarded; /* packets that a delete took out of the queue */
    uint32_t src;       /* the flow's addresses, ports and protocol, as the mask keeps them */
    uint32_t dst;
    uint16_t sport;
    uint16_t dport;
    uint16_t number; /* of the pipe or the queue to which the packets were sent */
    uint16_t pipe;   /* the number of the pipe that carries them */
    uint8_t kind;    /* an enum dn_kind */
    uint8_t proto;
    uint16_t reserved;
    uint32_t reserved2;
};

/* A call of a history, and the reply to it. */
struct dn_entry {
    struct dn_packet packet; /* of DN_SUBMIT; of DN_ADVANCE and DN_COLLECT `moment` alone, and else 0 */
    struct dn_fate fate;     /* under DN_FATE; under DN_CLOCK and DN_DELIVERIES `at` alone, where the clock stands, and else 0 */
    uint64_t caller;         /* who made the call, from 0 to 15 */
    uint64_t line;           /* where the line of DN_CONFIGURE begins in the list of lines, in bytes */
    uint64_t size;           /* how many bytes it has; 0 for other calls */
    uint64_t first;          /* where the items of its reply begin: under DN_FLOWS in the list of flows, else in that of deliveries */
    uint64_t count;          /* how many they are; 0 but under DN_DELIVERIES and DN_FLOWS */
    uint32_t status;         /* under DN_REFUSED DN_EXHAUSTED or a refusal of dn_configure, else DN_OK */
    uint8_t call;            /* an enum dn_call */
    uint8_t reply;           /* an enum dn_reply */
    uint16_t reserved;
};

/* The rule of a history, and how long the lists are that it is read into. */
struct dn_history {
    uint64_t entries;
    uint64_t bytes; /* of all lines */
    uint64_t deliveries;
    uint64_t flows;
    uint32_t rule; /* an enum dn_rule */
    uint32_t reserved;
};

/* What was found of a history. */
struct dn_verdict {
    uint64_t entries; /* the entries of the history, each a call and its reply */
    uint64_t first;   /* the first of them whose reply differs, from 0; 0 under DN_LAWFUL */
    uint32_t finding; /* an enum dn_finding */
    uint32_t reserved;
};

/* The version of the library, as DN_VERSION. */
uint32_t dn_version(void);

/* Opens a handle under an enum dn_rule: it has no pipe, no queue, no packet, and its clock stands at 0. What the handle held
   is let go. DN_BAD_RULE: the handle is as it was. DN_MEMORY: the handle is closed. */
uint32_t dn_open(struct dn_handle *handle, uint32_t rule);

/* The same with a secret of 128 bits, its upper and its lower half: without it nobody can choose packets whose flows are slow to
   find. dn_open's is known, for packets that no stranger chooses. No answer depends on it; draw it anew, by getentropy. */
uint32_t dn_open_with_key(struct dn_handle *handle, uint32_t rule, uint64_t high, uint64_t low);

/* Closes a handle, and lets go what it held. DN_CLOSED: it was closed. */
uint32_t dn_close(struct dn_handle *handle);

/* Obeys a line of a configuration, as `pipe 1 config bw 8Mbit/s delay 20`: `length` bytes of UTF-8, which need no 0 behind
   them. A line without words is answered DN_OK and changes nothing. Only DN_LINE writes *fault. A delete names no moment, and acts
   at that of the last call that names one: it discards also packets that could have started since. Call dn_advance before it
   if that matters. */
uint32_t dn_configure(struct dn_handle *handle, const uint8_t *line, size_t length, struct dn_fault *fault);

/* A packet arrives. DN_OK writes *fate. */
uint32_t dn_submit(struct dn_handle *handle, const struct dn_packet *packet, struct dn_fate *fate);

/* The first `count` packets arrive one after the other, as by dn_submit, until one isn't answered DN_OK, whose status is the
   answer. *done is always written: how many were answered DN_OK, whose fates stand in the first places of `fates`; the others
   are as they were. With `room` below `count` the answer is DN_ROOM, and no packet arrives. */
uint32_t dn_submit_many(struct dn_handle *handle, const struct dn_packet *packets, size_t count, struct dn_fate *fates, size_t room,
                        uint64_t *done);

/* Makes room for a packet to come, whose moment, length and word may be any in range. DN_OK: dn_submit doesn't answer DN_MEMORY to a
   packet to the same pipe or queue with the same addresses, ports and protocol, if at most dn_advance, dn_collect, dn_show, dn_wake,
   dn_reserve and, for packets of other flows, dn_submit are called before it. DN_NEW_FLOW: no packet of its flow came before, or the
   handle answered 2^62 calls. It changes nothing else, and counts as no call. */
uint32_t dn_reserve(struct dn_handle *handle, const struct dn_packet *packet);

/* Moves the clock. DN_OK writes *at: where the clock stands, ns. */
uint32_t dn_advance(struct dn_handle *handle, uint64_t moment, uint64_t *at);

/* Moves the clock, and takes the packets that are due, in the order in which they are due. DN_OK: *count of them stand in the
   first places of `list`, which has `room` places; the others are as they were. DN_ROOM: nothing happened, and with *count places
   the call is answered; that can be more than comes, since it counts all packets that wait or are under way. */
uint32_t dn_collect(struct dn_handle *handle, uint64_t moment, struct dn_delivery *list, size_t room, uint64_t *count);

/* Tells the state of all flows, in the order of their numbers. DN_OK: *count of them stand in the first places of `list`; the
   others are as they were. DN_ROOM: there are *count flows, more than `room` places. */
uint32_t dn_show(struct dn_handle *handle, struct dn_flow *list, size_t room, uint64_t *count);

/* When to collect: DN_OK writes *moment, the first moment at which a packet is due or its transmission begins, if no other call
   comes, or DN_NEVER. Each dn_collect before it gives nothing. It changes nothing, and counts as no call. */
uint32_t dn_wake(struct dn_handle *handle, uint64_t *moment);

/* Says in words why a call of either header was answered by the status, as `no such pipe`, or under DN_LINE what is wrong with the line,
   as `word 5: bad number`. The fault is what the call wrote; it is read under DN_LINE alone, and one at the word 0 is written without its
   word, as `bad number`. A number that is no status is written as `status 99`, and one that is no kind of a fault as `fault 99`. The call uses
   no handle and no memory. DN_OK: the first *length bytes of `text`, which has `room` bytes, are the words, with no 0 behind them, and the
   others are as they were. DN_ROOM: the words have *length bytes, which is more than `room`. */
uint32_t dn_reason(uint32_t status, const struct dn_fault *fault, uint8_t *text, size_t room, uint64_t *length);

/* The next four write a call and its answer as lines of a history file, which `dummynet audit` checks. They use no handle. DN_OK: the
   first *length bytes of `text`, which has `room` bytes, are these lines, and the others are as they were. DN_ROOM: the lines have
   *length bytes, which is more than `room`. DN_MEMORY: nothing is written. A history has callers 0 to 15, and a handle's is 0. */

/* A dn_configure of the line, `size` bytes, that was answered by `status`: DN_OK, DN_EXHAUSTED or one of its three refusals, else
   DN_BAD_OUTCOME. The line is written in its canonical form. One without words is no call: *length is 0. DN_LINE is as of
   dn_configure, and alone writes *fault. */
uint32_t dn_configure_text(uint64_t caller, const uint8_t *line, size_t size, uint32_t status, struct dn_fault *fault, uint8_t *text,
                           size_t room, uint64_t *length);

/* A dn_submit of the packet that was answered by the fate. `packet` of a fate is read under DN_QUEUED alone, and `flow` isn't read under
   DN_NO_TARGET. */
uint32_t dn_submit_text(uint64_t caller, const struct dn_packet *packet, const struct dn_fate *fate, uint8_t *text, size_t room,
                        uint64_t *length);

/* A dn_advance to the moment, which wrote `at`. */
uint32_t dn_advance_text(uint64_t caller, uint64_t moment, uint64_t at, uint8_t *text, size_t room, uint64_t *length);

/* A dn_collect at the moment, which wrote the first `count` places of `list`. The clock was at `at` after it, as a dn_advance to 0
   tells. */
uint32_t dn_collect_text(uint64_t caller, uint64_t moment, uint64_t at, const struct dn_delivery *list, size_t count, uint8_t *text,
                         size_t room, uint64_t *length);

/* Reads packets off the text of a packet file behind its header: `length` bytes, which are whole lines or go on to the file's end. It uses
   no handle. DN_OK: the first *count places of `packets`, which has `room` places, are the rows of the first *used bytes, whatever follows
   them. The others are as they were. The call stops at a full list, or before a row that isn't written plainly or in quotes, or has no line
   feed at its end; a further call reads the rest. A text that begins with any other row gets DN_OK or DN_MEMORY, if `room` isn't 0. Else it
   is read only whole. DN_ROOM: it has *count rows. DN_BAD_ROW: *row is the first bad row of the text, from 1, and *field its first bad
   field, 0 if it hasn't ten; no packet is written. */
uint32_t dn_read_packets(const uint8_t *text, size_t length, struct dn_packet *packets, size_t room, uint64_t *count, uint64_t *used,
                         uint64_t *row, uint64_t *field);

/* Reads the whole text of a history file, `length` bytes, or of the transcript of a live session, into lists. The call uses no handle, and
   doesn't ask whether the replies are the emulator's. DN_OK writes *history, and as many first places of each list as it says; the others are
   as they were. `entries` are the calls in order, and name parts of the other lists: `lines` are the configuration lines in canonical form, one
   behind the other with nothing between them, and `deliveries` and `flows` are what the replies list. DN_ROOM writes *history: a list has fewer
   places than it says. DN_BAD_RECORD: *record is the first bad record of the text, from 1, or the number that a missing one would have.
   DN_MEMORY: nothing is written. The call takes about as much memory as the lists that it writes have. */
uint32_t dn_read_history(const uint8_t *text, size_t length, struct dn_entry *entries, size_t entry_room, uint8_t *lines, size_t line_room,
                         struct dn_delivery *deliveries, size_t delivery_room, struct dn_flow *flows, size_t flow_room,
                         struct dn_history *history, uint64_t *record);

/* The next five audit a history file, or the transcript of a live session, as `dummynet audit` does: they make its calls again, and compare
   each reply with the one in the file. Of a file that is written as the library writes it they keep neither text nor entries. No verdict
   depends on the secret, or on the parts in which the text comes. */

/* Opens an audit of a file of at most `limit` bytes, as DN_HISTORY_LIMIT. What the handle held is let go. DN_MEMORY: the handle is
   closed. */
uint32_t dn_audit_open(struct dn_audit *audit, size_t limit);

/* The same with a secret of 128 bits, as for dn_open_with_key, for a history that a stranger wrote. */
uint32_t dn_audit_open_with_key(struct dn_audit *audit, size_t limit, uint64_t high, uint64_t low);

/* Takes the next `length` bytes of the file, which may be any part of it. Under every status but DN_OK the audit has ended: the handle is
   closed. DN_TOO_LONG: the bytes so far are more than the limit. */
uint32_t dn_audit_feed(struct dn_audit *audit, const uint8_t *text, size_t length);

/* The file ends where the bytes that were fed end. DN_OK writes *verdict. DN_BAD_RECORD: *record is the first bad record of the file, from
   1, or the number that a missing one would have; it comes before any verdict. The audit has ended, whatever the status: the
   handle is closed. */
uint32_t dn_audit_finish(struct dn_audit *audit, struct dn_verdict *verdict, uint64_t *record);

/* Closes an audit that isn't finished, and lets go what it held. DN_CLOSED: it was closed. */
uint32_t dn_audit_close(struct dn_audit *audit);

#ifdef __cplusplus
}
#endif

#endif
