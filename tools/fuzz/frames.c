/* A switch of four ports beside the simplest one that can be: a list of where each sender was heard last. Each four bytes are a frame:
   its port, who sends it, to whom, and the time since the one before. */
#include <stdint.h>
#include <stdlib.h>
#include <string.h>

#include "../../hosts/link/basics.h"
#include "../../hosts/link/carrier.h"
#include "../../hosts/link/frames.h"
#include "../../hosts/link/switches.h"

enum { PORTS = 4, HOSTS = 8, STEP = 2 }; /* the first of the hosts is a group; s that a frame waits for each unit of its time */

#define AGE (300 * SECOND)

struct heard {
    int way;
    uint64_t moment;
    int is_known;
};

static void put_mac(unsigned char *mac, int host) {
    static const unsigned char front[MAC] = {2, 0x48, 0, 0, 0, 0}, group[MAC] = {1, 0, 0x5e, 0, 0, 1};
    memcpy(mac, host ? front : group, MAC);
    mac[MAC - 1] = (unsigned char)(mac[MAC - 1] + host);
}

static int wanted(const struct heard *to, int host, int way, uint64_t moment) {
    if (!host || !to->is_known || moment > to->moment + AGE) return TO_ALL;
    return to->way == way ? TO_NONE : back(to->way);
}

static void see_all_others(const struct switches *switches, int way) {
    int seen = 0;
    for (int other = other_way(switches, way, NO_WAY); other != NO_WAY; other = other_way(switches, way, other)) {
        if (other == back(way) || !ends_at_switch(switches, back(other)) || seen++ == PORTS) abort();
    }
    if (seen != PORTS - 1) abort();
}

int LLVMFuzzerTestOneInput(const uint8_t *given, size_t size) {
    static uint64_t moment;
    static struct switches *switches;
    struct heard heard[HOSTS] = {0};
    const int ways[PORTS] = {0, 2, 4, 6};
    if (!switches) {
        switches = new_switches(2 * PORTS);
        if (!add_switch(switches, ways, PORTS) || add_switch(switches, ways, 1)) abort();
    }
    moment += 2 * AGE; /* what an earlier input has said is forgotten */
    for (; size >= 4; given += 4, size -= 4) {
        unsigned char frame[2 * MAC];
        int way = 2 * (given[0] % PORTS), from = given[1] % HOSTS, to = given[2] % HOSTS;
        moment += (uint64_t)given[3] * STEP * SECOND;
        put_mac(frame, to), put_mac(frame + MAC, from);
        if (from) heard[from] = (struct heard){way, moment, 1};
        if (next_way(switches, way, frame, moment) != wanted(&heard[to], to, way, moment)) abort();
        see_all_others(switches, way);
    }
    return 0;
}
