"""The host of a link by the clock: moments, and a machine with other work. The host for several links, its moments, and its remarks for
an audit along a path."""

import os
import re
import subprocess
import tempfile
import time
import unittest
from contextlib import suppress
from pathlib import Path
from unittest import mock

from hinge.events.link_words import link_event
from hinge.run.page import NOT_ALLOWED
from hinge.run.plan import Plan
from hinge.run.summary import void
from linked import (
    AT_ONCE,
    CLIENT,
    SEEDS,
    SERVER,
    Linked,
    audited,
    crowded,
    found,
    ip4,
    ip6,
    needs,
    needs_host,
    plan_of,
    stopped,
    udp,
    until,
    with_lines,
)


@needs_host
class OfTime(unittest.TestCase):
    def timeline(self, plan: Plan, text: str) -> str:
        with tempfile.NamedTemporaryFile("w") as file:
            file.write(text)
            file.flush()
            plan.timeline(file.name)
        return plan.text(1)

    def test_a_change_and_an_outage(self) -> None:
        link = Linked(self.timeline(plan_of("pipe 1 config delay 0"), "0.2s up outage 2s\n3s pipe delete 1\n"))
        until(lambda: link.page.read().ways[0]["held"] == 1)  # the packet of the outage
        link.near.send(udp(1))
        link.far.recv(100)
        until(lambda: link.page.read()["moment"] >= 3 * 10**9)  # it has made the delete
        link.near.send(udp(1))
        until(lambda: link.came() == 2)
        ended = link.end()
        assert (ended.status, ended.counts.ways[0]["no_target"], ended.counts.ways[0]["sent"]) == (0, 1, 1)
        assert "c,0,advance,2200000000\nr,advanced,2200000000\n" in ended.history
        assert int(found(r"^d,1,.*,(\d+)$", ended.history)[0]) >= 2_200_000_000

    def test_each_change_is_made_at_its_moment(self) -> None:
        """No packet that the host reads in between moves the links past a change."""
        moments = [300_000_000 + 500_000 * number for number in range(600)]
        changes = "".join(f"at {moment} pipe 2 config delay {number}\n" for number, moment in enumerate(moments, 1))
        link = Linked(f"{SEEDS}line pipe 1 config\nline pipe 2 config\n{changes}")
        for end in (link.near, link.far):
            end.setblocking(False)
        while link.page.read()["moment"] <= moments[-1]:
            for act in (lambda: link.near.send(udp(1)), lambda: link.far.recv(100)):
                with suppress(BlockingIOError):
                    for _ in range(AT_ONCE):
                        act()
        made = found(r"^r,advanced,(\d+)\nc,0,configure,pipe 2 config delay", link.end().history)
        assert [int(moment) for moment in made] == moments

    def test_its_lateness_is_remarked(self) -> None:
        """A stopped host is late, and the greatest value of its page appears in a remark, which the audit ignores."""
        link = Linked(SEEDS + "line pipe 1 config delay 20\n")
        link.near.send(udp(1))
        until(lambda: link.came() == 1)
        with stopped(link.process.pid):
            time.sleep(0.1)
        link.far.recv(100)
        ended = link.end()
        remarks = [list(map(int, text.split(","))) for text in found(r"^#,late,(.*)$", ended.history)]
        most = [max(column) for column in zip(*remarks)][1:]
        assert most == [way[f"{kind}_most"] for way in ended.counts.ways for kind in ("late", "unread")]
        assert most[0] > 0
        assert found(r"^#,seed,(\d+)$", ended.history) == [SEEDS.split()[2]]

    def test_a_delete_discards(self) -> None:
        link, lines = with_lines(f"{SEEDS}line pipe 1 config bw 8bit/s\n")
        for _ in range(5):
            link.near.send(udp(1, 1000))
        until(lambda: link.came() == 5)
        assert lines.ask("line pipe delete 1").wrong == ""
        up = link.end().counts.ways[0]
        assert (up["came"], up["sent"], up["discarded"]) == (5, 0, 4)  # one is on its way

    def test_a_long_transcript_goes_on_in_parts(self) -> None:
        plan = plan_of("pipe 1 config delay 5", "queue 2 config pipe 1 weight 7")
        plan.rule("=> queue 2")
        link = Linked(plan.text(1), most=1)
        for number in range(3):
            link.near.send(udp(number))
            link.far.recv(100)
        until(lambda: link.page.read()["parts"] == 4)
        ended = link.end()
        parts = [link.transcript, *(f"{link.transcript}.{number}" for number in (1, 2, 3))]
        assert [audited(part).split()[0] for part in parts] == ["lawful"] * 4
        texts = [open(part).read() for part in parts]
        assert [text.count("submit") for text in texts] == [1, 1, 1, 0]
        assert [found("c,0,configure,(.*)", text) for text in texts] == [
            ["pipe 1 config delay 5", "queue 2 config pipe 1 weight 7"]
        ] * 4
        assert ended.status == 0
        assert ended.counts.ways[0]["sent"] == 3
        assert sorted(os.listdir(link.folder.name)) == sorted(map(os.path.basename, parts))

    def test_a_deleted_queue_is_in_no_later_part(self) -> None:
        """Both forms of the line delete a queue. One number belongs to a pipe, too, which stays."""
        queues = "".join(f"line queue {number} config pipe 1 weight {number}\n" for number in (1, 2, 23))
        deletes = "at 100000000 queue delete 2\nat 110000000 ipfw queue 23 delete\n"
        link = Linked(f"{SEEDS}line pipe 1 config delay 5\nline pipe 2 config\n{queues}{deletes}", most=1)
        until(lambda: link.page.read()["moment"] >= 110_000_000)
        link.near.send(udp(1))
        link.far.recv(100)
        until(lambda: link.page.read()["parts"] == 2)
        link.end()
        last = open(f"{link.transcript}.1").read()
        assert found("c,0,configure,(.*)", last) == ["pipe 1 config delay 5", "pipe 2 config", "queue 1 config pipe 1"]

    def test_an_outage_where_a_thousand_flows_wait(self) -> None:
        """The outage begins with the second packet of a flow, rather than with a packet without a sender."""
        for begin in (6 * 10**8, 6 * 10**9, 6 * 10**10):  # the later ones for a machine that is busy until then
            link = Linked(f"{SEEDS}line pipe 1 config bw 1bit/s mask dst-port 0xffff\noutage {begin} 1 9000\n")
            for port in [*range(1, 1101), 1100]:
                link.near.send(ip4(CLIENT, SERVER, 17, 1, port, 40))
            until(lambda: link.came() == 1101)
            was_in_time = link.page.read()["moment"] < begin
            until(lambda: link.page.read()["moment"] >= begin)
            ended = link.end()
            if was_in_time:
                break
        assert (ended.status, ended.counts.ways[0]["came"], found("submit,.*,0.0.0.0,255,", ended.history)) == (0, 1101, [])


@needs_host
def test_it_reports_that_it_had_no_processor() -> None:
    link = Linked(SEEDS + "line pipe 1 config delay 1\n")
    with crowded(link.process.pid):
        for number in range(40):
            link.near.send(udp(number))
            time.sleep(0.03)
        until(lambda: link.page.read().ways[0]["sent"] == 40)
    counts = link.end().counts
    assert re.search(r"up: the p99 of `(late|unread)`, [\d.]+ ms, is above the limit of 1 ms", "\n".join(void(counts, [0, 0], 1.0)))
    assert max(counts.ways[0].unread.most, counts.ways[0].late.most) > 1_000_000


COUNTER = """
#define _GNU_SOURCE
#include <dlfcn.h>
#include <poll.h>
#include <stdio.h>
#include <stdlib.h>
#include <sys/epoll.h>
#include <sys/syscall.h>
#include <time.h>
#include <unistd.h>
static unsigned long reads, timed;
int clock_gettime(clockid_t clock, struct timespec *at) { reads++; return (int)syscall(SYS_clock_gettime, clock, at); }
int epoll_wait(int polling, struct epoll_event *told, int most, int timeout) {
    timed += timeout > 0;
    return ((int (*)(int, struct epoll_event *, int, int))dlsym(RTLD_NEXT, "epoll_wait"))(polling, told, most, timeout);
}
int ppoll(struct pollfd *polled, nfds_t count, const struct timespec *timeout, const sigset_t *mask) {
    timed += timeout && (timeout->tv_sec || timeout->tv_nsec);
    int (*next)(struct pollfd *, nfds_t, const struct timespec *, const sigset_t *);
    *(void **)&next = dlsym(RTLD_NEXT, "ppoll");
    return next(polled, count, timeout, mask);
}
__attribute__((destructor)) static void tell(void) {
    FILE *file = fopen(getenv("CLOCK_READS"), "w");
    if (file) fprintf(file, "%lu %lu", reads, timed), fclose(file);
}
"""


@needs_host
class OfManyLinks(unittest.TestCase):
    """Three links of one host: ends 0 and 1, 2 and 3, 4 and 5."""

    def test_each_way_has_its_pipe_and_its_counts(self) -> None:
        link = Linked("".join(f"seed {way} 1\nline pipe {way + 1} config delay {10 * (6 - way)}\n" for way in range(6)), links=3)
        for way in range(6):
            link.ends[way].send(udp(way))
        self.assertEqual([link.ends[way ^ 1].recv(99) for way in range(6)], [udp(way) for way in range(6)])
        ended = link.end()
        self.assertEqual(found(r"^c,0,submit,pipe,(\d),", ended.history), [*"123456"])
        dues = [
            int(due) - int(begun)
            for begun, due in sorted(found(r"^d,\d+,\d+,(\d+),(\d+)$", ended.history), key=lambda one: int(one[0]))
        ]
        self.assertEqual(dues, [10**7 * (6 - way) for way in range(6)])
        self.assertEqual([(way["came"], way["sent"], sum(way.unread.bins)) for way in ended.counts.ways], [(1, 1, 1)] * 6)

    def test_what_a_plan_says_of_a_link_is_of_that_alone(self) -> None:
        """Of three links, the second has a loss, an outage and a change."""
        plan = Plan(1500, 3)
        for number in range(3):
            plan.link("pipe 1 config", number), plan.link("pipe 2 config", number)
        plan.loss("up:list:1", 1)
        for number, words in ((1, "down outage 1h lossy"), (2, "pipe 1 config delay 3")):
            plan.changes.add(plan.happenings(link_event(words, "", link=number), 10**6, plan.changes))
        link = Linked(plan.text(1), links=3)
        until(lambda: link.page.read()["moment"] >= 10**6)
        for number in range(2):
            for way in range(6):
                link.ends[way].send(udp(number))
        until(lambda: [way["came"] for way in link.page.read().ways] == [2] * 6)
        ended = link.end()
        self.assertEqual([way["lost"] for way in ended.counts.ways], [0, 0, 1, 2, 0, 0])
        self.assertEqual(found(r"^c,0,configure,(pipe \d config delay.*)", ended.history), ["pipe 5 config delay 3"])

    def test_moments_begin_at_the_epoch(self) -> None:
        epoch = time.monotonic_ns() - 5 * 10**9
        link = Linked(f"epoch {epoch}\nline pipe 1 config\n")
        link.near.send(udp(1))
        link.far.recv(99)
        ended, after = link.end(), time.monotonic_ns() - epoch
        [moment] = found(r"^c,0,submit,.*,(\d+)$", ended.history)
        self.assertTrue(5 * 10**9 < int(moment) < after, moment)

    def test_a_packet_is_known_again(self) -> None:
        """Behind a host only the time to live, the class and the checksums differ."""
        link = Linked("contents\nremark pipe,1,a,b\nline pipe 1 config\n")
        first, second = udp(1, 60), udp(1, 59) + b"x"
        again = bytes([0x45, 3]) + first[2:8] + bytes([63]) + first[9:10] + b"?!" + first[12:26] + b"?!" + first[28:]
        other = ip6("fd08::1", "fd08::2", 17, first[20:])
        further = bytes([0x60, 0x30]) + other[2:7] + bytes([9]) + other[8:]
        for packet in (first, again, second, other, further):
            link.near.send(packet), link.far.recv(99)
        ended = link.end()
        one, two, three, four, five = found(r"^#,content,([0-9a-f]{16})$", ended.history)
        self.assertEqual((one, four, len({one, three, four}), ended.history.count("#,pipe,1,a,b\n")), (two, five, 3, 1))


@needs_host
@needs("cc")
class OfItsClock(unittest.TestCase):
    def counted(self, *plan: str) -> tuple[int, int, int]:
        """Sends 100 packets one after the other; returns the numbers of clock readings, of waits with a timeout, and of turns."""
        with tempfile.TemporaryDirectory() as name:
            counter, told = Path(name, "counter.so"), Path(name, "reads")
            subprocess.run(["cc", "-shared", "-fPIC", "-x", "c", "-", "-o", str(counter)], input=COUNTER, text=True, check=True)
            with mock.patch.dict(os.environ, {"LD_PRELOAD": str(counter), "CLOCK_READS": str(told)}):
                link = Linked("\n".join(["line pipe 1 config delay 1", "line pipe 2 config bw 10Mbit/s delay 1", *plan, ""]))
            for number in range(50):
                link.near.send(udp(number)), link.far.recv(99)
                link.far.send(udp(number)), link.near.recv(99)
            counts = link.end().counts
            if "realtime" in plan and counts["realtime"] == NOT_ALLOWED:
                self.skipTest("this user may not put a program before the others")
            turns = counts["turns"]
            reads, timed = map(int, told.read_text().split())
        return reads, timed, turns

    def test_it_is_read_twice_a_turn(self) -> None:
        """The host reads the clock after the wait, and again at a read or write: a packet that arrives by itself needs a turn to
        arrive and a turn to leave. No wait has a timeout, to which the system gives a slack of a thousandth."""
        reads, timed, turns = self.counted()
        self.assertLessEqual(reads, 2 * turns + 5)
        self.assertGreater(reads, 2 * turns - 50)
        self.assertEqual(timed, 0)

    def test_in_a_simulated_machine_it_is_read_once_a_turn(self) -> None:
        reads, timed, turns = self.counted("realtime", "simulated")
        self.assertLessEqual(reads, turns + 5)
        self.assertEqual((timed, turns < 500), (0, True))

    def test_before_all_others_it_polls_before_a_moment(self) -> None:
        """Without polling, a packet that arrives by itself needs a turn to arrive and a turn to leave. The machine's load decides
        how many turns are added."""
        self.assertGreater(self.counted("realtime")[2], self.counted()[2])
