/* hinge-link: emulated links, each between two ends, in the process of `hinge run`'s, `hinge net`'s or `hinge udp`'s choosing.

     hinge-link tun END END [END END ..] PAGE < PLAN
     hinge-link udp FRONT ADDRESS PORT PAGE < PLAN
     hinge-link END END [END END ..] PAGE < PLAN

   END, FRONT and PAGE are descriptors. Each link has two ENDs, which are interfaces, or -1 at a switch; those of the first link are the
   client's and the server's. Without `tun` an END may be anything that keeps packets whole, such as the sockets in tests. FRONT is a bound
   UDP socket, for a server at ADDRESS and PORT. PAGE is the page of counts. PLAN is text that says what to emulate (plan.h).

   A link has two ways, one for each direction. A packet from the first end passes on way 0 and through pipe 1, unless a rule says
   otherwise, and a packet from the second end on way 1 through pipe 2. The second link has ways 2 and 3 and pipes 3 and 4, and so on. The
   pipes are of one shaper of libhingetulip. A transcript keeps each call with its reply, which `dummynet audit` judges. SIGTERM ends the
   program. tools/release/hosts builds it. */
#define _GNU_SOURCE
#include <errno.h>
#include <fcntl.h>
#include <hingetulip.h>
#include <signal.h>
#include <string.h>
#include <sys/prctl.h>
#include <sys/signalfd.h>
#include <unistd.h>

#include "control.h"
#include "host.h"
#include "leaving.h"
#include "ways.h"

#define USAGE "hinge-link tun END END [END END ..] PAGE < PLAN, or hinge-link udp FRONT ADDRESS PORT PAGE < PLAN"

/* Blocks SIGTERM and returns a descriptor that can be read once the signal has come. The waits poll it together with the interfaces, since
   a ppoll that lets signals in doesn't do so while an interface has packets. */
static int signal_descriptor(void) {
    sigset_t signals;
    sigemptyset(&signals);
    sigaddset(&signals, SIGTERM);
    sigprocmask(SIG_BLOCK, &signals, NULL);
    signal(SIGINT, SIG_IGN);
    signal(SIGXFSZ, SIG_IGN);
    signal(SIGPIPE, SIG_IGN);
    int descriptor = signalfd(-1, &signals, SFD_CLOEXEC);
    if (descriptor < 0) fail("signalfd", strerror(errno));
    return descriptor;
}

/* Receives and sends what a wait has brought, of which packets are due at `due`. Between two ways, packets leave that have become due
   meanwhile. */
static void turn(struct host *host, const struct wait *wait, uint64_t due) {
    uint64_t moment = wait->punctual ? host->clock.last : now(&host->clock);
    host->page->turns++;
    if (wait->slept) host->page->wakes++;
    note_wait(host->unread, moment, wait);
    if (host->carrier.look_after) host->carrier.look_after(host->carrier.state, moment);
    make_changes(host, moment);
    for (int i = 0; i < wait->count; i++) {
        receive_packets(host, wait->ready[i]);
        if (i + 1 == wait->count || due > host->clock.last) continue;
        send_due_packets(host);
        due = wake(host->links);
    }
    if (due <= host->clock.last) send_due_packets(host);
    remark_lateness(host, moment, false);
    host->page->moment = moment;
}

/* Takes turns until the signal has come, or returns false if an interface has gone. */
static bool run(struct host *host, struct waits *waits) {
    while (true) {
        uint64_t due = wake(host->links);
        uint64_t change = next_change(host->changes);
        if (due == DN_NEVER && transcript_is_long(host->transcript)) {
            discard_held(host->held);
            begin_next_part(host->links);
        }
        struct wait wait = wait_until(waits, change < due ? change : due);
        if (wait.end != PACKETS_OR_MOMENT) return wait.end == SIGNAL;
        turn(host, &wait, due);
        if (wait.control) take_control(host);
        hand_on_transcript(host->transcript);
    }
}

/* Returns the numbers that these words are. */
static int *read_descriptors(int count, char **words) {
    int *descriptors = reallocate(NULL, (size_t)count * sizeof *descriptors);
    for (int i = 0; i < count; i++) descriptors[i] = number_of(words[i]);
    return descriptors;
}

/* Opens /dev/null under the numbers of closed standard streams. Another file under such a number would be read as the plan, or get
   messages. */
static void hold_streams(void) {
    int file = 0;
    while (file >= 0 && file <= STDERR_FILENO) file = open("/dev/null", O_WRONLY | O_CLOEXEC);
    if (file >= 0) close(file);
}

/* Opens the page and the carrier that the command line names. */
static void open_carrier(struct host *host, int count, char **words) {
    bool is_tun = strcmp(words[1], "tun") == 0;
    bool is_udp = count == 6 && strcmp(words[1], "udp") == 0;
    int first_end = is_tun ? 2 : 1;
    int ends = is_udp ? 2 : count - 1 - first_end;
    if (ends < 2 || ends % 2) fail("usage", USAGE);
    host->page = open_page(number_of(words[count - 1]), ends);
    host->rules.met = met_of(host->page, ends);
    if (is_udp) host->carrier = udp_carrier(number_of(words[2]), words[3], words[4], host->page, &host->clock);
    else if (is_tun) host->carrier = tun_carrier(ends, read_descriptors(ends, words + first_end));
    else host->carrier = plain_carrier(ends, read_descriptors(ends, words + first_end));
}

int main(int count, char **words) {
    hold_streams();
    if (count < 4) fail("usage", USAGE);
    struct host host = {0};
    open_carrier(&host, count, words);
    int signals = signal_descriptor();
    prctl(PR_SET_PDEATHSIG, SIGTERM);
    prctl(PR_SET_TIMERSLACK, 1); /* otherwise the system may wake this program 50 us after a moment */
    make_parts(&host, host.carrier.ways);
    read_plan(&host);
    begin_ways(&host);
    host.unread = begin_unread(host.carrier.ways, &host.clock);
    bool spins = host.page->realtime == HAS_IT && !host.clock.stands;
    struct waits *waits = new_waits(&host.clock, host.carrier.polled, host.carrier.ways, signals, host.control, spins);
    host.page->state = RUNNING;
    bool is_whole = run(&host, waits);
    remark_lateness(&host, now(&host.clock), true);
    count_remaining(&host);
    if (host.carrier.end) host.carrier.end(host.carrier.state);
    bool is_kept = close_transcript(host.transcript);
    if (!is_whole) fail("an interface", "is gone");
    if (!is_kept) return REFUSED;
    host.page->state = ENDED_WELL;
    return 0;
}
