"""Causes beside the links that make a net's run void: late acts, waits for a processor, and a machine that slept."""

import re
import time
import unittest
from unittest import mock

from linked import needs_rooms, run

from hinge.events.forms import WORDS
from hinge.events.idle import idle_events
from hinge.events.kinds import PlannedAct, Moment
from hinge.net.acts import FinishedAct
from hinge.net.description import read_description
from hinge.net.net_plan import NetPlan
from hinge.run.verdict import Awaited, Waits, late_acts, verdict, waited_of
from hinge.run.page import ENDED_WELL, HEAD, WAY, Counts, Page, asleep
from hinge.run.summary import NAMES, void
from hinge.run.words import Wrong
from in_a_folder import InAFolder

MS = 10**6


def done(word: str, asked: int, late: float, of_main: bool = True) -> FinishedAct:
    """Returns an act that was due this many ms after the main command's start at 1 s."""
    return FinishedAct(round((asked + late + 1000 * of_main) * MS), PlannedAct(Moment(asked * MS, of_main, ""), word, "a"))


def ran(*came: int) -> Counts:
    """Returns a run of a second with this number of packets each way."""
    ways = [number for count in came for number in (count, *[0] * (WAY - 1))]
    return Counts((*({"state": ENDED_WELL, "moment": 1000 * MS}.get(name, 0) for name in HEAD), *ways))


class OfActs(unittest.TestCase):
    def test_those_that_are_late(self) -> None:
        acts = [done("kill", 100, 19.9), done("restart", 300, 20.1), done("stop", 500, 33.25, False), done("cont", 700, 0)]
        said = [*late_acts(acts, 1000 * MS, 20)]
        self.assertEqual(said, ["2 of 4 acts on hosts were late by over 20 ms (`stop a` 33.250 ms)"])
        self.assertEqual([*late_acts(acts, 1000 * MS, 34)], [])
        self.assertEqual([*late_acts([], None, 1)], [])

    def test_those_in_another_order(self) -> None:
        acts = [done("kill", 100, 15), done("stop", 110, 3), done("cont", 120, 0)]
        self.assertEqual([*late_acts(acts, 1000 * MS, 20)], ["`kill a` came behind `stop a`, which was to come 10 ms later"])


def test_moments_and_packets() -> None:
    awaited = Awaited([(1000 * MS, "1s up 5ms"), (1001 * MS, "1.001s up 6ms")], [(0, 5), (0, 6), (1, 1)])
    wanted = ["not yet when the run ended: `1.001s up 6ms`", "chosen, but never came: packet 6 of up, packet 1 of down"]
    assert [*awaited.missed(ran(5, 0), NAMES)] == wanted
    assert [*awaited.missed(ran(6, 0), NAMES)] == [wanted[0], "chosen, but never came: packet 1 of down"]
    assert [*Awaited(awaited.moments[:1], [(0, 5)]).missed(ran(5, 0), NAMES)] == []
    many = Awaited([(2000 * MS, f"{second}s down 1ms") for second in range(2, 9)])
    assert re.search("`5s down 1ms` and 3 more$", [*many.missed(ran(5, 0), NAMES)][0])
    for limit, void_lines, warnings in ((20.0, wanted, []), (None, [], [f"CAUTION, {line}" for line in wanted])):
        told = verdict(ran(5, 0), [0, 0], "", limit, lambda _: [], awaited=awaited)
        assert (told.void, told.cautions) == (void_lines, warnings)


class OfIdleEvents(InAFolder):
    NET = "host a sleep 9\nhost b sleep 9\nmain c sleep 1\nlink a c 5ms\nlink b c 5ms\nlink b c 5ms\n"

    def idle(self, *lines: str, is_open: bool = False) -> "list[str]":
        """Returns the events in these lines without an effect, each with the event that covers it."""
        file = self.folder / "idle.net"
        file.write_text(self.NET + "".join(f"at {line}\n" for line in lines))
        events = NetPlan(read_description(str(file)), 1500, 1).events
        return [f"{one.event.words} / {other.event.words}" for one, other in idle_events(events, is_open)]

    def test_faults_within_others(self) -> None:
        for one, other, is_idle in (
            ("1s cut a from c 3s", "2s cut a 1s", True),
            ("1s cut a 3s", "2s a c outage 2s lossy", True),
            ("1s a c up outage 3s lossy", "2s cut a down 1s", False),
            ("1s a c up outage 3s lossy", "2s cut a up 1s", True),
            ("1s b c outage 3s lossy", "2s cut b 1s", False),  # which is cut from c by its second link too
            ("1s cut a 3s", "2s cut a 3s", False),
            ("1s cut a 3s", "2s a c outage 1s", False),
            ("1s a c outage 3s", "2s a c down outage 1s", True),
            ("1s kill a 3s", "2s kill a 2s", True),
            ("1s kill a", "2s kill a 2s", True),
            ("1s kill a 3s", "3s kill a 2s", False),
            ("1s stop a 3s", "2s stop a 1s", True),
            ("1s stop a 3s", "2s kill a 1s", False),
            ("1s kill a 3s", "1s stop a 2s", True),
            ("1s kill a 3s", "2s stop a 4s", False),
            ("1s cut a 3s", "2s cut a tcp port 80 1s", True),
            ("1s cut a tcp port 80 3s", "2s cut a up tcp port 80 1s", True),
            ("1s cut a tcp port 80 3s", "2s cut a udp port 80 1s", False),
            ("1s cut a tcp port 80 3s", "2s cut a 1s", False),
            ("1s restart a", "1000ms restart a", True),
            ("1s restart a", "1001ms restart a", False),
            ("1s kill a 3s", "start+2s kill a 1s", False),  # whose moments can't be compared
        ):
            first, second = one.split(" ", 1)[1], other.split(" ", 1)[1]
            self.assertEqual(self.idle(one, other), [f"{second} / {first}"] if is_idle else [], (one, other))

    def test_faults_within_several_others(self) -> None:
        """Each pair of other faults leaves a gap, and of equal faults the first counts."""
        for first, second, third, wanted in (
            ("1s cut a 2s", "2500ms cut a 2s", "2s cut a 2s", "cut a 2s / cut a 2s"),
            ("1s kill a 2s", "2500ms kill a 2s", "2s kill a 1s", "kill a 1s / kill a 2s"),
            ("1s kill a 2s", "2500ms stop a 2s", "2s stop a 1s", "stop a 1s / kill a 2s"),
            ("1s cut a 1s", "2s cut a 2s", "1500ms cut a 1s", ""),
            ("1s cut a 1s", "3s cut a 2s", "1500ms cut a 2s", ""),
            ("1s cut a", "2s heal a", "3s cut a 1s", ""),
            ("1s cut a", "2s cut a", "3s heal a", "cut a / cut a"),
        ):
            self.assertEqual(self.idle(first, second, third), [wanted] if wanted else [], (first, second, third))

    def test_no_word_is_silently_without_effect(self) -> None:
        """Each word names a host or link that doesn't exist, repeats another at its moment, or ends nothing: the kit refuses or
        reports it."""
        self.NET = f"{self.NET}disk a data\n"
        endings = {name: word.ending for name, word in WORDS.items()}
        begun = {end: name for name, end in endings.items() if end}
        of_hosts = [f"{word} a{' +2s' if word == 'skew' else ''}" for word in WORDS]
        self.assertRaisesRegex(Wrong, "'corrupt': of a whole run", self.idle, "1s a c 5ms corrupt 1%")
        for words in [*of_hosts, "a c outage 1s", "a c outage 1s lossy", "a c 6ms", "a c pipe 1 config delay 6"]:
            word = words.split()[0]
            before = [f"1s {begun[word]} a"] if word in begun else []
            self.assertRaisesRegex(Wrong, "no (host|such|link)", self.idle, *before, "2s " + re.sub(r"\ba\b", "z", words))
            try:
                told = self.idle(*before, f"2s {words}", f"2s {words}")
            except Wrong as wrong:
                told = re.findall("goes on then|leave one of them out", str(wrong))
            self.assertTrue(told, words)
            for end in begun:
                if WORDS[end].none and endings.get(word) != end:
                    self.assertRaisesRegex(Wrong, "goes on then", self.idle, f"1s {words}", f"2s {end} a")

    def test_what_ends_earlier_covers_nothing_behind(self) -> None:
        self.assertEqual(self.idle("1s stop a 4s", "2s cont a", "3s stop a 1s"), [])
        self.assertEqual(self.idle("1s kill a 9s", "2s restart a", "3s stop a 1s"), [])
        self.assertEqual(self.idle("1s cut a 9s", "2s heal a", "3s cut a tcp port 80 1s"), [])
        self.assertEqual(self.idle("1s cut a tcp port 80 9s", "2s heal a tcp port 80", "3s cut a tcp port 80 1s"), [])
        self.assertEqual(self.idle("1s kill a 3s", "2s stop a 1s", is_open=True), [])

    def test_runs_tell_them_with_rules_queues_and_traces_that_meet_nothing(self) -> None:
        (self.folder / "late.trace").write_text("100,1000000\n200,2000000\n")
        lines = [
            *("line a c queue 1 config pipe 1", "line a c queue 2 config pipe 1", "line b c queue 1 config pipe 1"),
            *("map a c udp up => queue 1", "map a c icmp up => queue 2", f"trace b c 2 {self.folder / 'late.trace'}"),
            *("at 100ms kill b 800ms", "at 200ms kill b 100ms", "nemesis stop-one every 300ms for 100ms until 300ms of b", ""),
        ]
        net = self.NET.replace("sleep 1", "ping -c 1 a") + "\n".join(lines)
        told = [
            "not yet when the run ended: `the first row of ",
            "changed nothing: `at 0.2s kill b 100ms`, beside `at 0.1s kill b 800ms`\n",
            "changed nothing: `at 0.3s stop b 0.1s`, beside `at 0.1s kill b 800ms`\n",
            "met no packet: `map a c udp up => queue 1`\n",
            "no rule names: `line b c queue 1 config pipe 1`\n",
        ]
        done = self.net(net.replace("ping -c 1 a", "ping -c 1 a; sleep 1"))
        self.assertEqual(done.returncode, 0, done.stderr)
        for line in told:
            self.assertIn(f"CAUTION, {line}", done.stderr)
        self.assertNotIn("icmp", done.stderr)
        done = self.net(net.replace("ping -c 1 a", "ping -c 1 a; sleep 1"), "--late", "10s")
        self.assertEqual(done.returncode, 75, done.stderr)
        for line in told:
            kind = "void: " if line in told[:2] else "CAUTION, "
            self.assertIn(f"{kind}{line}", done.stderr)


class OfWaits(unittest.TestCase):
    def waits(self, ran: float, *totals: float) -> Waits:
        waits = Waits()
        waits.begun -= ran
        for total in totals:
            waits.add("a", total, 1.0)
        return waits

    def test_a_part_of_the_time_and_a_second(self) -> None:
        self.assertRegex(self.waits(10, 50, 120).over(60)[0], "^programs of a waited 120 ms of 10.0 s for a processor")
        for waits, limit in ((self.waits(10, 50, 120), 71), (self.waits(13, 50, 120), 60), (self.waits(10), 1)):
            self.assertEqual(waits.over(limit), [])

    def test_a_command_that_begins_again_counts_from_nothing(self) -> None:
        self.assertEqual(self.waits(1, 500, 100, 150).totals, {"a": 650})

    def test_many_hosts(self) -> None:
        waits = self.waits(1)
        for host in range(7):
            waits.add(f"h{host}", 500 + host, 1.0)
        self.assertEqual(
            [line[:15] for line in waits.over(20)], [*(f"programs of h{host} "[:15] for host in (6, 5, 4, 3)), "so did those of"]
        )

    def test_what_the_system_tells(self) -> None:
        self.assertGreaterEqual(waited_of(1) or 0, 0)
        self.assertIsNone(waited_of(2**22 + 1))


def test_a_machine_that_was_suspended() -> None:
    numbers = (ENDED_WELL, *[0] * (len(HEAD) - 1), *[0] * 2 * WAY)
    assert void(Counts(numbers, 9 * MS), [0, 0], None) == []
    assert void(Counts(numbers, 1500 * MS), [0, 0], None) == ["this machine was suspended for 1.500 s"]
    begun = time.monotonic_ns()
    page, clock = Page(), time.clock_gettime_ns
    slept = page.read().slept
    with mock.patch("time.clock_gettime_ns", lambda which: clock(which) + 3 * 10**9 * (which == time.CLOCK_BOOTTIME)):
        more = page.read().slept - 3 * 10**9
    awake, took = asleep(), time.monotonic_ns() - begun  # two readings of clocks are no longer apart
    assert max(abs(slept), abs(more), -awake) <= took


@needs_rooms
class OfNets(InAFolder):
    def test_a_program_that_waits(self) -> None:
        """Twenty programs that spin at once wait for each other, on any number of processors."""
        (self.folder / "spin.sh").write_text("for n in $(seq 20); do timeout 3 sh -c 'while :; do :; done' & done; wait\n")
        done = self.net(f"host a taskset 1 sh {self.folder}/spin.sh\nmain b sleep 3\nlink a b 5ms\n", "--late", "50ms")
        self.assertEqual(done.returncode, 75, done.stderr)
        self.assertRegex(done.stderr, "void: programs of a waited [0-9]+ ms of [0-9.]+ s for a processor")
        self.assertGreater(self.summary()["waited_ms"]["a"], 1000)
        done = run("--late", "50ms", "--json", self.folder / "json", "--", "taskset", "1", "sh", self.folder / "spin.sh")
        self.assertEqual(done.returncode, 75, done.stderr)
        self.assertRegex(done.stderr, "void: programs of client waited [0-9]+ ms of [0-9.]+ s for a processor")
