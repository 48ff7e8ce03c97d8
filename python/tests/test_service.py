"""A service against values worked out by hand, and eight threads that share one, whose history `dummynet audit` finds lawful."""

import re
import resource
import signal
import sys
from concurrent.futures import ThreadPoolExecutor
from random import Random
from time import sleep
from unittest import mock

import hingetulip
from hingetulip import ClosedError, InUseError, LineError, Outcome, RangeError, RefusedError, Service, Shaper
from hingetulip import history_file, service
from simulated_hosts import TOP, audited
from with_folder import WithFolder

HEADER = TOP / "crates" / "hingetulip_c" / "include" / "hingetulip_service.h"
LINE = "pipe 1 config bw 8Mbit/s delay 20ms queue 1"
MS = 1_000_000
THREADS, CALLS = 8, 400


class OneCaller(WithFolder):
    def setUp(self) -> None:
        super().setUp()
        self.service = Service(1)
        self.addCleanup(self.service.close)
        (self.caller,) = self.service.callers
        self.caller.configure(LINE)

    def test_refusals(self) -> None:
        with self.assertRaises(LineError) as raised:
            self.caller.configure("pipe 1 config bw 8Mbps")
        self.assertEqual((5, "bad number"), (raised.exception.word, raised.exception.kind))
        for call in (lambda: self.caller.configure("queue 1 config pipe 9"), lambda: self.caller.configure("pipe 9 delete")):
            self.assertRaises(RefusedError, call)
        for call in (
            lambda: self.caller.submit(2**62 + 1, 1, pipe=1),
            lambda: self.caller.submit(0, 0, pipe=1),
            lambda: self.caller.submit(0, 1, pipe=0),
            lambda: self.caller.submit(0, 65536, pipe=1),
            lambda: self.caller.advance(-1),
            lambda: self.caller.collect(2**62 + 1),
        ):
            self.assertRaises(RangeError, call)
        self.assertRaises(TypeError, lambda: self.caller.submit(0, 1))
        for count in (0, -1, 16, 10**9):
            self.assertRaises(RangeError, Service, count)
        self.service.close()
        self.service.close()
        for call in (
            lambda: self.caller.advance(0),
            lambda: self.caller.configure(LINE),
            lambda: self.caller.collect(0),
            self.caller.show,
            self.caller.wake,
            self.service.take,
        ):
            self.assertRaises(ClosedError, call)

    def test_a_full_disk(self) -> None:
        path = self.folder / "history"
        self.service.history(path)
        limits = resource.getrlimit(resource.RLIMIT_FSIZE)
        before = signal.signal(signal.SIGXFSZ, signal.SIG_IGN)
        resource.setrlimit(resource.RLIMIT_FSIZE, (100, limits[1]))
        try:
            for moment in range(3000):
                self.caller.advance(moment)
            self.assertRaises(OSError, self.service.take)
            self.caller.advance(3000)
            self.assertRaises(OSError, self.service.close)
            self.assertFalse(self.service.closed)
            self.assertRaises(OSError, self.service.close)
        finally:
            resource.setrlimit(resource.RLIMIT_FSIZE, limits)
            signal.signal(signal.SIGXFSZ, before)
        self.service.close()
        self.assertTrue(self.service.closed)
        self.assertEqual("lawful 3002\n", audited(path))

    def test_a_signal_in_a_call(self) -> None:
        seen = {InUseError: 0, int: 0}

        def handler(*_: object) -> None:
            try:
                self.caller.advance(0)
                seen[int] += 1
            except InUseError:
                seen[InUseError] += 1

        before = signal.signal(signal.SIGALRM, handler)
        signal.setitimer(signal.ITIMER_REAL, 0.0005, 0.0005)
        try:
            for _ in range(10**6):
                self.caller.submit(0, 1000, pipe=1)
                if seen[InUseError] > 2:
                    break
        finally:
            signal.setitimer(signal.ITIMER_REAL, 0)
            signal.signal(signal.SIGALRM, before)
        self.assertGreater(seen[InUseError], 2)
        with self.caller._turn:
            self.assertRaises(InUseError, self.service.close)
            self.service.__del__()
        self.assertEqual(5, self.caller.advance(5))

    def test_history(self) -> None:
        path = self.folder / "history"
        self.service.history(path)
        self.assertRaises(ValueError, self.service.history, path)
        self.assertEqual([1, 0], [self.service.take(), self.service.take()])
        taken = path.read_text()
        self.assertEqual(taken, "dummynet-history,3\nc,0,configure,pipe 1 config bw 8000000bit/s delay 20 queue 1\nr,configured\n")
        self.caller.submit(0, 1000, pipe=1, src=0x0A000001, word=3)
        self.service.close()
        self.assertEqual(path.read_text(), f"{taken}c,0,submit,pipe,1,10.0.0.1,0.0.0.0,0,0,0,1000,3,0\nr,queued,0,0,0\nend,2\n")

    def test_an_entry_longer_than_the_room(self) -> None:
        self.caller.configure("pipe 1 config bw 8Mbit/s")
        for number in range(45):
            self.caller.submit(0, 100, pipe=1)
        self.assertEqual(45, len(self.caller.collect(10_000 * MS)))
        path = self.folder / "history"
        self.service.history(path)
        self.service._text = (service.c_char * 16)()
        self.service.close()
        self.assertEqual(45, path.read_text().count("\nd,"))


def test_two_callers_by_turns() -> None:
    rng = Random(1)
    lines = (
        "pipe 1 config bw 8Mbit/s delay 20ms queue 5 mask src-ip 3",
        "pipe 2 config bw 1Mbit/s delay 3ms",
        "queue 1 config pipe 2 weight 3 mask dst-port 1",
    )
    with Service(2) as opened, Shaper() as shaper:
        for line in lines:
            opened.callers[0].configure(line)
            shaper.configure(line)
        for turn in range(600):
            caller, moment = rng.choice(opened.callers), turn * MS // 2
            packet = dict(
                rng.choice(({"pipe": 1}, {"queue": 1}, {"queue": 2})), src=rng.randrange(4), dport=rng.randrange(2), word=0
            )
            assert shaper.submit(moment, 1000, **packet) == caller.submit(moment, 1000, **packet)
            assert shaper.wake() == rng.choice(opened.callers).wake()
            if turn % 7 == 0:
                assert shaper.show() == caller.show()
                assert shaper.advance(moment - 1 if turn else 0) == caller.advance(moment - 1 if turn else 0)
            if turn % 5 == 0:
                assert shaper.collect(moment) == caller.collect(moment)


def test_from_one_to_fifteen() -> None:
    for count in (1, 15):
        with Service(count) as opened:
            assert list(range(count)) == [caller.number for caller in opened.callers]
            assert list(range(count)) == [caller.advance(caller.number) for caller in opened.callers]
        assert opened.closed


def test_a_busy_service_is_tried_at_once_and_then_after_rests() -> None:
    statuses = iter([service.BUSY] * 6 + [16])
    with mock.patch.object(service, "sleep") as sleep:
        assert 16 == service.retried(lambda *_: next(statuses), 1, 2)
    assert [mock.call(0)] * 4 + [mock.call(20e-6)] * 2 == sleep.mock_calls


def test_statuses() -> None:
    statuses = dict(re.findall(r"(DN_\w+) = (\d+)", HEADER.read_text()))
    assert {
        "DN_BUSY": str(service.BUSY),
        "DN_BAD_COUNT": "16",
        "DN_UNWRITTEN": "17",
        "DN_NO_ENTRY": str(service.NO_ENTRY),
    } == statuses
    front = f'#define DN_HISTORY_FRONT "{history_file.FRONT.decode().strip()}\\n"'
    assert front in HEADER.with_name("hingetulip.h").read_text()  # which the header of services includes


def work(shared: Service, number: int) -> int:
    """Calls by a caller that two threads share, and how many packets were queued less those that came."""
    caller, rng = shared.callers[number // 2], Random(number)
    under_way = 0
    for turn in range(CALLS):
        chosen = rng.random()
        if chosen < 0.1:
            caller.wake()
            shown = caller.show()
            assert [flow.flow for flow in shown] == list(range(len(shown)))
        elif chosen < 0.7:
            under_way += caller.submit(turn * MS, rng.randint(1, 1500), pipe=rng.randint(1, 2)).outcome is Outcome.QUEUED
        else:
            under_way -= len(caller.collect(turn * MS))
    return under_way


class Threads(WithFolder):
    def test_a_lawful_history(self) -> None:
        with Service(THREADS // 2) as shared:
            path = self.folder / "history"
            shared.history(path)
            for line in ("pipe 1 config bw 8Mbit/s delay 20ms queue 10", "pipe 2 config bw 1Mbit/s plr 0.1 queue 5"):
                shared.callers[0].configure(line)
            with ThreadPoolExecutor(THREADS) as pool:
                working = [pool.submit(work, shared, number) for number in range(THREADS)]
                while not all(one.done() for one in working):
                    shared.take()
            left = len(shared.callers[-1].collect(hingetulip.LAST_MOMENT))
            self.assertEqual(left, sum(one.result() for one in working))
            shared.close()
            entries = THREADS * CALLS + 3
            self.assertEqual(f"lawful {entries}\n", audited(path))

    def test_a_call_of_a_caller_keeps_pythons_lock(self) -> None:
        """Another thread would get on in one of so many calls, if a call released the lock."""
        turns, is_over = 0, False

        def beside() -> None:
            nonlocal turns
            while not is_over:
                turns += 1
                sleep(0)  # releases the lock

        interval = sys.getswitchinterval()
        self.addCleanup(sys.setswitchinterval, interval)
        sys.setswitchinterval(1000)
        with Service(1) as shared, ThreadPoolExecutor(1) as pool:
            other = pool.submit(beside)
            while turns == 0:
                sleep(0)
            before = turns
            for at in range(20_000):
                shared.callers[0].advance(at)
            after, is_over = turns, True
            other.result()
        self.assertEqual(before, after)
