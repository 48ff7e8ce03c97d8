/* Rules that send packets to pipes and queues: for each packet the first rule that fits decides. */
#pragma once
#include "dissect.h"

enum { MOST_PIPE = 65535 }; /* the greatest number of a pipe or queue */

struct net {
    struct address address;
    struct address mask;
};

/* Ports from the low one to the high one. */
struct span {
    int low;
    int high;
};

enum { ANY = -1 }; /* a protocol or a DSCP that fits all packets */

struct rule {
    int way;    /* the direction of a link whose packets the rule is for, as carrier.h numbers ways */
    int kind;   /* DN_PIPE or DN_QUEUE */
    int number; /* the number of the pipe or queue */
    int proto;  /* an IP protocol, or ANY */
    int dscp;   /* a DSCP, or ANY */
    struct net src;
    struct net dst;
    struct span sport;
    struct span dport;
};

struct rules {
    struct rule *list;
    size_t count;
    uint64_t *met; /* the bits of the page for rules that a packet met, or NULL */
};

/* Reads a rule: `WAY KIND NUMBER PROTO DSCP SRC MASK DST MASK SPORT SPORT DPORT DPORT`. KIND is 0 for a pipe and 1 for a queue, PROTO and
   DSCP are -1 for any, an address has 32 hex digits, and the ports of a span are its lowest and its highest. False if a word is wrong or
   missing. */
bool read_rule(const char *text, struct rule *rule);

void add_rule(struct rules *rules, const struct rule *rule);

/* Sends a packet to the pipe of its way, whose number is the way's plus 1. */
void classify_plainly(int way, struct dn_packet *packet);

/* Sends a packet to the pipe or queue of the first rule that fits, otherwise to the pipe of its way. */
void classify(const struct rules *rules, int way, const struct headers *headers, struct dn_packet *packet);
