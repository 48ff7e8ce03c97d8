#include "rules.h"

#include <limits.h>
#include <stdlib.h>
#include <string.h>

#include "basics.h"
#include "page.h"

/* Takes an IPv6 address from the front of a text: 32 hex digits. */
static bool take_address(const char **text, struct address *address) {
    char high[17] = "", low[17] = "";
    if (strspn(*text, "0123456789abcdef") != 32) return false;
    memcpy(high, *text, 16);
    memcpy(low, *text + 16, 16);
    *address = (struct address){strtoull(high, NULL, 16), strtoull(low, NULL, 16)};
    *text += 32;
    if (**text == ' ') ++*text;
    return true;
}

static bool take_net(const char **text, struct net *net) { return take_address(text, &net->address) && take_address(text, &net->mask); }

static bool take_span(const char **text, struct span *span) {
    return take_int(text, 0, UINT16_MAX, &span->low) && take_int(text, 0, UINT16_MAX, &span->high);
}

bool read_rule(const char *text, struct rule *rule) {
    return take_int(&text, 0, INT_MAX, &rule->way) && take_int(&text, DN_PIPE, DN_QUEUE, &rule->kind) &&
           take_int(&text, 1, MOST_PIPE, &rule->number) && take_int(&text, ANY, UINT8_MAX, &rule->proto) &&
           take_int(&text, ANY, UINT8_MAX, &rule->dscp) && take_net(&text, &rule->src) && take_net(&text, &rule->dst) &&
           take_span(&text, &rule->sport) && take_span(&text, &rule->dport);
}

void add_rule(struct rules *rules, const struct rule *rule) {
    rules->list = reallocate(rules->list, (rules->count + 1) * sizeof *rules->list);
    rules->list[rules->count++] = *rule;
}

static bool in_net(struct address address, struct net net) {
    return (address.high & net.mask.high) == net.address.high && (address.low & net.mask.low) == net.address.low;
}

static bool in_span(int port, struct span span) { return port >= span.low && port <= span.high; }

static bool fits(const struct rule *rule, int way, const struct headers *headers, const struct dn_packet *packet) {
    return rule->way == way && (rule->proto == ANY || rule->proto == packet->proto) && (rule->dscp == ANY || rule->dscp == headers->dscp) &&
           in_net(headers->src, rule->src) && in_net(headers->dst, rule->dst) && in_span(packet->sport, rule->sport) &&
           in_span(packet->dport, rule->dport);
}

void classify_plainly(int way, struct dn_packet *packet) {
    packet->kind = DN_PIPE;
    packet->number = (uint16_t)(way + 1);
}

void classify(const struct rules *rules, int way, const struct headers *headers, struct dn_packet *packet) {
    size_t place = 0;
    while (place < rules->count && !fits(&rules->list[place], way, headers, packet)) place++;
    classify_plainly(way, packet);
    if (place == rules->count) return;
    if (rules->met && place < 64 * (size_t)MET) rules->met[place / 64] |= (uint64_t)1 << place % 64;
    packet->kind = (uint8_t)rules->list[place].kind;
    packet->number = (uint16_t)rules->list[place].number;
}
