"""Pauses of processes find what a single order of calls hides. They repeat, and the link doesn't pause."""

import argparse
import sys
import unittest
from collections.abc import Iterable

from hinge.simulated.pauses import MOST_GIVEN, Paused, drawn_pauses, given, pauses_of
from hinge.simulated.time_options import pauses_word
from machines import HERE, LINK, Simulated, needs, packets_of

ONCE = """take() { if [ ! -e lock ]; then echo > lock; echo $1 >> took; fi; }
          rm -f lock took; take a & take b & wait; test $(wc -l < took) = 1"""
SEEDS = range(1, 21)
MANY = range(1, 201)  # as many find a fault as a program's calls decide, and so its variables: none of 20 sometimes did


class OfWords(unittest.TestCase):
    def test_words(self) -> None:
        for word in ("drawn", "1034-16ms", "9+1ns,1034-16.5ms"):
            self.assertEqual(pauses_word(word), word)
        many = ",".join(f"{call}+1s" for call in range(257))
        for word in ("", "3", "1/20", "9*1s", "9+1s,", "9+1s,8", "9+1s,9-2s", "9+9999999h", many):
            self.assertRaises(argparse.ArgumentTypeError, pauses_word, word)

    def test_pauses_one_by_one(self) -> None:
        pauses = pauses_of("20+1ms,9-5ns", 1)
        self.assertEqual(list(pauses.lines())[1:], ["9 before 5", "20 behind 1000000"])

    def test_what_is_drawn_is_the_seeds(self) -> None:
        self.assertIsNone(pauses_of(None, 1))
        self.assertEqual(pauses_of("drawn", 1), pauses_of("drawn", 1))
        self.assertEqual(len({tuple(drawn_pauses(seed)) for seed in SEEDS}), len(SEEDS))

    def test_drawn_pauses_are_for_programs_of_any_size(self) -> None:
        """Some seeds pause among the first few calls, some reach a million calls, and each pause can be requested separately."""
        for pauses in map(tuple, map(drawn_pauses, SEEDS)):
            self.assertEqual(given(",".join(one.word() for one in pauses)), pauses)
            self.assertTrue(4 <= sum(one.call <= 100 for one in pauses) <= 45)  # many where they are between calls
            self.assertEqual(len(pauses), MOST_GIVEN)
        self.assertGreater(max(max(drawn_pauses(seed)).call for seed in SEEDS), 10**6)


START = """import json, os, sys
file = os.open("there", os.O_WRONLY | os.O_CREAT)
for n in range(10):
    os.getpid(), os.stat("."), os.write(file, b"x")
"""
THREADS = """import os, threading
one = threading.Thread(target=lambda: None)
one.start()
one.join()
for n in range(200): os.getpid()
"""
# Two threads look for a job and then take one.
JOBS = """import os, threading
threading.excepthook, jobs = lambda _: os._exit(1), [0] * 20
def work():
    while jobs: os.stat("."), jobs.pop()
for _ in range(2): threading.Thread(target=work).start()
"""


def first_two(outcomes: "Iterable[object]") -> "set[object]":
    """Returns the outcomes up to the second different one."""
    found: set[object] = set()
    for outcome in outcomes:
        found.add(outcome)
        if len(found) == 2:
            break
    return found


class OfPauses(Simulated):
    @needs("bash", "cc")
    def test_drawn_pauses_find_faults(self) -> None:
        """The faults: two processes create one file, jobs without a lock, and a signal whose handler runs before the call that
        waits for the signal."""
        wakes = str(self.folder / self.compiled((HERE / "wakes.c").read_text()))
        for words in (["bash", "-c", ONCE], [sys.executable, "-c", JOBS], [wakes]):
            self.assertEqual(self.run_by(1, "--", *words).status, 0, words)
            self.assertEqual(first_two(self.run_by(seed, "--pauses", "drawn", "--", *words).status for seed in MANY), {0, 1}, words)

    def calls_of(self, program: str) -> int:
        """Returns how many calls of a Python program may pause."""
        return int(self.run_by(1, "--pauses", "1000000-1ns", "--", sys.executable, "-c", program).summary["pauses"]["calls"])

    def test_calls_whose_order_nobody_can_tell(self) -> None:
        """Calls at the start, and calls of a process that shares its memory with no other process, aren't paused."""
        none, some, threads = (self.calls_of(program) for program in ("pass", START, THREADS))
        self.assertLess(none, 100)
        self.assertTrue(20 <= some - none < 60, (none, some))
        self.assertGreater(threads, 200)

    @needs("bash")
    def test_pauses_that_are_named_again(self) -> None:
        """A run with another run's pauses, listed one by one, equals that run."""
        one = self.run_by(1, "--pauses", "drawn", *LINK, "--", "bash", "-c", ONCE)
        word = ",".join(Paused(**pause).given().word() for pause in one.summary["pauses"]["first"])
        other = self.run_by(1, "--pauses", word, *LINK, "--", "bash", "-c", ONCE)
        self.assertEqual(other.summary["pauses"]["first"], one.summary["pauses"]["first"])
        self.assertEqual((other.out, other.summary["simulated"]), (one.out, one.summary["simulated"]))
        self.assertEqual(other.history, one.history)

    @needs("ping")
    def test_the_link_does_not_pause(self) -> None:
        """Each packet is under way for the same time as without pauses, whenever its program sends it."""
        links = ["--up", "10Mbit/s 20ms", "--down", "10Mbit/s 20ms"]
        ran = self.run_by(1, "--pauses", "drawn", *links, "--", "ping", "-c", "20", "server")
        self.assertEqual(ran.status, 0, ran.err)
        packets = packets_of(ran.history)
        self.assertEqual({packet.due - packet.came for packet in packets if packet.size == 84}, {20_067_200})
        self.assertLess(ran.summary["up"]["late_max_ms"], 0.001)  # two looks at the clock, where a pause is some us at least
        pauses = ran.summary["pauses"]
        self.assertGreater(pauses["count"], 0)
        self.assertEqual(pauses["count"], len(pauses["first"]))
