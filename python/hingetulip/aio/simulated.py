"""Replaces Python's clock and random numbers in a run's threads: by the simulated time, and by numbers from the seed."""

from __future__ import annotations

import datetime
import posix
import random
import struct
import sys
import threading
import time
import uuid
from contextlib import ExitStack, contextmanager
from typing import TYPE_CHECKING, Any, Iterator, Optional

from hingetulip.aio.border import border
from hingetulip.aio.datagram import NS
from hingetulip.aio.host import here
from hingetulip.aio.openssl import random_of_openssl
from hingetulip.aio.refusals import RealTimeError
from hingetulip.aio.switched import Either, Function, own_of, switched

if TYPE_CHECKING:
    from hingetulip.aio.loop import Loop

UUIDS: Any = getattr(uuid, "_uuid", None)  # the module in C, which some systems lack
ONE = threading.Lock()  # held by the process's single run, which counts the real calls in the whole process
REAL = (time.CLOCK_REALTIME, getattr(time, "CLOCK_TAI", time.CLOCK_REALTIME))  # clocks that count from 1970
OFTEN = 100  # the number of looks at the clock in a step of the loop from which on a run measures the real time
LONG = 20  # the real s from then on after which the run assumes that code waits for the clock, which stands still meanwhile
STILL = (
    "code has asked for the time again and again, and it stands still until that code gives it way: write `await asyncio.sleep(..)`"
)
own_time = own_of(time, "monotonic")
TICKS_TO_1970 = 0x01B21DD213814000  # a UUID's time counts ticks of 100 ns since 1582
MOST_OF_4, MOST_OF_2 = 2**32 - 1, 2**16 - 1  # the greatest numbers in 4 and 2 bytes
STEADY = (
    "monotonic",
    "perf_counter",
    "process_time",
    "thread_time",
)  # clocks that begin with the run, and that computations don't move


@contextmanager
def simulated(loop: Loop, source: random.Random) -> Iterator[None]:
    """Makes `time`, `datetime.now` and OpenSSL's clock return the simulated time, and draws the numbers of `random`, `secrets`,
    `os.urandom`, OpenSSL and NumPy from `source`, within the context. RuntimeError: another run is under way."""
    if not ONE.acquire(blocking=False):
        raise RuntimeError("another run of simulated time is under way in this process, in another thread or around this one")
    try:
        with _patched(loop, source):
            yield
    finally:
        ONE.release()


def offset() -> float:
    """Returns how far the current host's clock is ahead, in seconds, and counts this look at the clock; 0 if no host is current."""
    host = here.get(None)
    if host is None:
        return 0
    host.looks += 1
    if host.skew is not None:
        host.skew.met += 1
    return host.offset + host.drift * host.net.loop.time()


class TimeFunctions:
    """Makes the run's version of each function for the time, from `own`, the system's version."""

    def __init__(self, loop: Loop) -> None:
        self.clock = loop.clock
        self.start = loop.net.start

    def count_look(self) -> None:
        """Counts a look at the clock. RealTimeError: code keeps asking for the time within a single step of the loop."""
        clock = self.clock
        clock.asked += 1
        if clock.asked == OFTEN:
            clock.asked_since = own_time()
        elif clock.asked > OFTEN and own_time() - clock.asked_since > LONG:
            raise RealTimeError(STILL)

    def now(self) -> int:
        """Returns the ns since the run's beginning."""
        self.count_look()
        return self.clock.now

    def ns(self) -> int:
        """Returns the ns since 1970 on the current host."""
        return round((self.start + offset()) * NS) + self.now()

    def steady_seconds(self) -> float:
        """Returns the seconds since the run's beginning."""
        self.count_look()
        return self.clock.seconds

    def seconds(self) -> float:
        """Returns the seconds since 1970 on the current host."""
        return self.start + offset() + self.steady_seconds()

    def of_clock(self, clock: int) -> float:
        """Returns the seconds of a clock, from 1970 or from the run's beginning."""
        return self.seconds() if clock in REAL else self.steady_seconds()

    def ns_of_clock(self, clock: int) -> int:
        """Returns the ns of a clock, from 1970 or from the run's beginning."""
        return self.ns() if clock in REAL else self.now()

    def at(self, own: Function) -> Function:
        """Returns a function of a moment in seconds, by default the current moment."""
        return lambda seconds=None: own(self.seconds() if seconds is None else seconds)

    def asctime(self, own: Function) -> Function:
        """Returns `time.asctime`, by default for the current moment."""
        return lambda *arguments: own(*(arguments or (time.localtime(),)))

    def strftime(self, own: Function) -> Function:
        """Returns `time.strftime`, by default for the current moment."""
        return lambda form, *arguments: own(form, *(arguments or (time.localtime(),)))

    def datetime_now(self, own: Function) -> Function:
        """Returns `datetime.now`."""

        def now(kind: Any, tz: Optional[datetime.tzinfo] = None) -> Any:
            seconds, ns = divmod(self.ns(), NS)
            return kind.fromtimestamp(seconds, tz).replace(microsecond=ns // 1000)

        return now

    def utcnow(self, own: Function) -> Function:
        """Returns `datetime.utcnow`."""

        def utcnow(kind: Any) -> Any:
            return kind.now(datetime.timezone.utc).replace(tzinfo=None)

        return utcnow

    def functions(self) -> dict[tuple[Any, str], Either]:
        """Returns the makers of all these functions, by module or class and name."""
        of_time: dict[str, Either] = {
            "time": lambda own: self.seconds,
            "time_ns": lambda own: self.ns,
            **dict.fromkeys(STEADY, lambda own: self.steady_seconds),
            **{f"{name}_ns": lambda own: self.now for name in STEADY},
            "clock_gettime": lambda own: self.of_clock,
            "clock_gettime_ns": lambda own: self.ns_of_clock,
            **dict.fromkeys(("localtime", "gmtime", "ctime"), self.at),
            "strftime": self.strftime,
            "asctime": self.asctime,
        }
        of_datetime = {(datetime.datetime, "now"): self.datetime_now, (datetime.datetime, "utcnow"): self.utcnow}
        return {(time, name): make for name, make in of_time.items()} | of_datetime


def bytes_from(source: random.Random) -> Either:
    """Returns a maker of functions for random bytes, such as `os.urandom`, which draw from `source`."""
    return lambda own: lambda count, *flags, **keywords: source.randbytes(count)


def uuid_from(times: TimeFunctions, source: random.Random) -> Either:
    """Returns a maker of the function that generates UUIDs from the time: from the simulated time and from `source`. The system's
    library would ask a daemon."""

    def generate() -> tuple[bytes, int]:
        ticks = times.ns() // 100 + TICKS_TO_1970
        node = source.getrandbits(48) | 1 << 40
        sequence = source.getrandbits(14) | 1 << 15
        head = struct.pack(">IHHH", ticks & MOST_OF_4, ticks >> 32 & MOST_OF_2, ticks >> 48 | 1 << 12, sequence)
        return head + node.to_bytes(6, "big"), 0

    return lambda own: generate


def process_times(seconds: float) -> posix.times_result:
    """Returns the result of `os.times`: `seconds` since the run's beginning, all in this process."""
    return posix.times_result((seconds, 0.0, 0.0, 0.0, seconds))


@contextmanager
def state_of_numpy(source: random.Random) -> Iterator[None]:
    """Seeds NumPy's global generator within the context, if NumPy is loaded."""
    numpy: Any = sys.modules.get("numpy.random")
    if numpy is None:
        yield
        return
    state = numpy.get_state()
    numpy.seed(source.getrandbits(32))
    try:
        yield
    finally:
        numpy.set_state(state)


@contextmanager
def _patched(loop: Loop, source: random.Random) -> Iterator[None]:
    """Replaces the functions for time and random numbers within the context."""
    times = TimeFunctions(loop)
    state = random.getstate()
    of_c = random.Random(f"C {loop.net.seed}")  # a separate source, so that loading NumPy or C code changes no other number
    random.seed(source.getrandbits(64))
    try:
        with ExitStack() as stack:
            stack.enter_context(random_of_openssl(source.getrandbits(64)))
            stack.enter_context(state_of_numpy(of_c))
            stack.enter_context(border(loop.clock, round(loop.net.start * NS), of_c))
            functions = times.functions()
            functions[posix, "urandom"] = functions[posix, "getrandom"] = bytes_from(source)
            functions[posix, "times"] = lambda own: lambda: process_times(times.steady_seconds())
            if UUIDS is not None:
                functions[UUIDS, "generate_time_safe"] = uuid_from(times, of_c)
            stack.enter_context(switched(functions))
            yield
    finally:
        random.setstate(state)
