"""The host with a recorded trace and with outages: each packet leaves at its moment, whatever its length."""

import random
import socket
import time
import unittest
from collections import deque
from typing import Iterator

from linked import AT_ONCE, SEEDS, Linked, found, ip4, needs_host, stopped, until

MS = 1_000_000  # ns
SLOT = 1500  # bytes
Passage = tuple[int, int, int, int]  # moment, bytes, start, due


def passages(history: str) -> list[Passage]:
    """Returns pipe 1's delivered packets in the order of their arrival, without packets that nobody sent."""
    came = {
        int(number): (int(moment), int(length))
        for length, moment, number in found_all(
            r"^c,0,submit,pipe,1,[\d.]+,[\d.]+,17,\d+,\d+,(\d+),\d+,(\d+)\nr,queued,\d+,\d+,(\d+)$", history
        )
    }
    left = {int(number): (int(start), int(due)) for number, start, due in found_all(r"^d,(\d+),\d+,(\d+),(\d+)$", history)}
    return [(*came[number], *left[number]) for number in sorted(came) if number in left]


def found_all(pattern: str, text: str) -> list[tuple[str, ...]]:
    return [tuple(one) for one in found(pattern, text)]


def passed(link: Linked) -> int:
    """Returns the packets that left, including those that the far end's small buffer discarded."""
    up = link.page.read().ways[0]
    return up["sent"] + up["refused"]


def opportunities(moments: list[int]) -> Iterator[int]:
    """Yields the moments of a repeated trace, in ns."""
    base = 0
    while True:
        yield from (base + moment * MS for moment in moments)
        base += moments[-1] * MS


def by_opportunities(packets: list[Passage], moments: list[int]) -> list[int]:
    """Returns each packet's moment of leaving: each opportunity carries this many bytes of the waiting packets, and what nobody
    uses is lost."""
    left = []
    waiting = deque[list[int]]()
    coming = deque(packets)
    for moment in opportunities(moments):
        while coming and coming[0][0] <= moment:
            waiting.append([coming.popleft()[1]])
        room = SLOT
        while waiting and room:
            taken = min(room, waiting[0][0])
            waiting[0][0], room = waiting[0][0] - taken, room - taken
            if not waiting[0][0]:
                waiting.popleft(), left.append(moment)
        if not coming and not waiting:
            return left
    return left


@needs_host
class OfTraces(unittest.TestCase):
    def dues(self, moments: list[int], sizes: list[int], gaps: list[float]) -> list[Passage]:
        link = Linked(f"{SEEDS}slots 1 {' '.join(map(str, moments))}\nline pipe 1 config queue 1000\n")
        for size, gap in zip(sizes, gaps):
            link.near.send(ip4("10.8.0.1", "10.8.0.2", 17, 1, 2, size))
            time.sleep(gap)
        until(lambda: passed(link) == len(sizes))
        ended = link.end()
        return passages(ended.history)

    def close(self, told: list[Passage], moments: list[int]) -> None:
        """Asserts that moments agree: a rate is in whole bit/s, so that a packet ends some ns late and never early, and one that
        shares a moment takes 1 ns or more."""
        wanted = by_opportunities(told, moments)
        self.assertEqual(len(wanted), len(told))
        for (_, length, start, due), moment in zip(told, wanted):
            self.assertGreaterEqual(due, moment)
            self.assertLessEqual(due - moment, 1000 + (moment - start) * (moment - start) / (length * 8e9) * 1.01)

    def test_full_packets_leave_one_at_each_moment(self) -> None:
        for moments in ([1], [10], [3, 3, 3, 20]):
            self.close(self.dues(moments, [SLOT] * 20, [0.0] * 20), moments)

    def test_packets_of_any_length_share_a_moment_and_go_on_in_the_next(self) -> None:
        rng = random.Random(7)
        for _ in range(3):
            moments = sorted(rng.randrange(60) for _ in range(40)) + [60]
            sizes = [rng.choice((40, 576, 1200, 1500, 4000)) for _ in range(150)]
            self.close(self.dues(moments, sizes, [rng.choice((0, 0, 0, 0.005)) for _ in sizes]), moments)

    def constant(self) -> str:
        """Returns the history of packets at 12 Mbit/s that wait while their host is stopped."""
        link = Linked(f"{SEEDS}slots 1 1\nline pipe 1 config queue 1000\n")
        link.near.setsockopt(socket.SOL_SOCKET, socket.SO_SNDBUF, 2**20)
        with stopped(link.process.pid):
            for _ in range(AT_ONCE):
                link.near.send(ip4("10.8.0.1", "10.8.0.2", 17, 1, 2, SLOT))
        until(lambda: passed(link) == AT_ONCE)
        return link.end().history

    def test_a_constant_trace_takes_no_lines(self) -> None:
        """At 12 Mbit/s, packets that wait for each other keep a single rate."""
        histories = (self.constant() for _ in range(5))  # a host without a processor between two packets lets the link run empty
        history = next(one for one in histories if sum(start == moment for moment, _, start, _ in passages(one)) == 1)
        self.assertLessEqual(len(found("^c,0,configure,.*", history)), 4)

    def test_losses_and_a_full_queue_take_no_moments(self) -> None:
        link = Linked(f"{SEEDS}list 0 2 4\nslots 1 5\nline pipe 1 config queue 3 plr 0.5\n")
        for number in range(12):
            link.near.send(ip4("10.8.0.1", "10.8.0.2", 17, 1, number, SLOT))
        until(lambda: sum(link.page.read().ways[0][kind] for kind in ("sent", "full", "lost")) == 12)
        ended = link.end()
        self.close(passages(ended.history), [5])


@needs_host
class OfOutages(unittest.TestCase):
    def test_nothing_leaves_in_an_outage_whatever_the_length_of_packets(self) -> None:
        """Packets that start in an outage leave at its end, as exactly as a rate in whole bit/s allows. The outage begins with or
        without waiting packets."""
        begin, end = 100 * MS, 350 * MS
        for size in (40, 100, 800, 1200, 1500):
            for greedy in (True, False):
                link = Linked(
                    f"{SEEDS}hold 1 {begin} {end}\nline pipe 1 config bw 2000000bit/s queue 1000\noutage {begin} 1" " 1500\n"
                )
                if not greedy:
                    until(lambda: link.page.read()["moment"] >= begin)
                count = min(900, 2_000_000 // 8 // 5 // size) if greedy else 5
                for _ in range(count):
                    link.near.send(ip4("10.8.0.1", "10.8.0.2", 17, 1, 2, size))
                until(lambda: passed(link) == count)
                ended = link.end()
                told = passages(ended.history)
                transmission = -(-size * 8 * 10**9 // 2_000_000)
                held = [(start, due) for _, _, start, due in told if begin <= start < end]
                self.assertLessEqual(len(held), 1)
                late = max((due - end for _, due in held), default=0)
                self.assertTrue(0 <= late <= (end - begin) ** 2 / (size * 8e9) + 1, (size, greedy, late))
                self.assertTrue(greedy or not held)
                self.assertEqual({due - start for _, _, start, due in told if not begin <= start < end}, {transmission})

    def test_a_moment_of_a_trace_at_which_it_ends_is_used(self) -> None:
        """The repeated trace has moments at 5 and 10 ms, and the outage ends at one of the first kind."""
        end = 405 * MS
        link = Linked(f"{SEEDS}slots 1 5 10\nhold 1 0 {end}\nline pipe 1 config\n")
        for _ in range(2):
            link.near.send(ip4("10.8.0.1", "10.8.0.2", 17, 1, 2, SLOT))
        until(lambda: passed(link) == 2)
        ended = link.end()
        told = passages(ended.history)
        self.assertLess(max(moment for moment, *_ in told), end)
        for (*_, due), wanted in zip(told, (end, end + 5 * MS)):
            self.assertTrue(wanted <= due < wanted + MS, told)

    def test_a_change_of_the_line_holds_behind_the_outage(self) -> None:
        link = Linked(
            f"{SEEDS}hold 1 0 {100 * MS}\nline pipe 1 config bw 2000000bit/s\noutage 0 1 1500\nat {50 * MS} pipe 1"
            " config bw 1000000bit/s delay 3\n"
        )
        for _ in range(3):
            link.near.send(ip4("10.8.0.1", "10.8.0.2", 17, 1, 2, 1000))
        until(lambda: link.page.read().ways[0]["sent"] == 3)
        ended = link.end()
        self.assertEqual([due - start for _, _, start, due in passages(ended.history)], [8 * MS + 3 * MS] * 3)
        self.assertGreaterEqual(passages(ended.history)[0][2], 100 * MS)
