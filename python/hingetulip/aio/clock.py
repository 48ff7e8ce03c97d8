"""The loop's substitute for a selector: instead of waiting for sockets, it moves the clock to the next timer or link event."""

from __future__ import annotations

import asyncio
import math
import threading
from ctypes import addressof, c_int64
from typing import TYPE_CHECKING, NoReturn, Optional, Sequence

from hingetulip.aio.datagram import NS
from hingetulip.aio.waiting import waiting
from hingetulip.library import LAST_MOMENT

if TYPE_CHECKING:
    from hingetulip.aio.loop import Loop

EXACT = 2**22 * NS  # ns: until this moment, a float of seconds distinguishes each ns
MOST_STEPS = 100_000  # the most steps of the loop at a single moment


def other_threads() -> str:
    """Returns a hint about the process's other threads, for which a simulated clock doesn't wait; an empty text without any."""
    names = [thread.name for thread in threading.enumerate() if thread is not threading.current_thread()]
    return f" Other threads run ({', '.join(names)}), and simulated time waits for none." if names else ""


class Stuck(RuntimeError):
    """Raised if no event can happen any more, or if tasks let no time pass. The message lists the waiting tasks, and the places in
    the code where they wait."""


class Clock:
    """The simulated clock, which the loop uses as its selector."""

    def __init__(self, loop: Loop) -> None:
        self.loop = loop
        self.net = loop.net
        self.descriptors = loop.descriptors
        self.now: int = 0  # ns since the beginning of the simulated time
        self.seconds: float = 0.0  # the same moment in s
        self.steps = 0  # how many steps the loop has made at this moment
        self.asked = 0  # how often code has asked for the time in this step of the loop
        self.asked_since = 0.0  # the real s at which code had asked often
        self.looks = 0  # how often the loop's thread has looked for something in this step, without a result or a wait
        self.memory = memoryview(bytearray(8)).cast("q")  # `now`, for C code
        self.place = addressof(c_int64.from_buffer(self.memory))

    def select(self, timeout: Optional[float]) -> Sequence[asyncio.Handle]:
        """Moves the clock to the next event, at most by `timeout` seconds, and delivers the datagrams that are due. Returns the
        handles of ready descriptors. Without `timeout`, the loop has no timer.

        Stuck: no event can happen, or the loop makes too many steps at this moment. RealTimeError: a thread of the run
        waited for something real for too long.
        """
        net, descriptors, baton = self.net, self.descriptors, self.loop.baton
        self.asked = 0
        self.looks = 0
        if (baton.members or baton.lost) and baton.step():
            timeout = 0
        waits = descriptors.readers or descriptors.writers
        if waits and descriptors.ready():
            timeout = 0
        if timeout != 0 and baton.members and baton.pauses_clock():
            return ()
        wake = net.wake() if net.changed else net.next_moment
        if baton.members:
            wake = min(wake, baton.until())
        if timeout is None:
            self._move(wake)
        elif timeout > 0:
            timer = self.now + (round(timeout * NS) or 1)
            self._move(timer if timer < wake else wake)
        else:
            self.steps += 1
            if self.steps > MOST_STEPS:
                self._refuse_steps()
        if wake <= self.now:
            net.deliver()
        return descriptors.ready() if waits else ()

    def close(self) -> None:
        """Does nothing. The loop expects that a selector has this method."""

    def _move(self, moment: int) -> None:
        """Moves the clock to a later moment. Stuck: the moment is NEVER, as no event can happen any more."""
        if moment > LAST_MOMENT:
            raise Stuck(
                f"at {self.now / NS:.9f} s nothing can happen any more: no timer runs, and no packet is under way."
                f"{other_threads()}{waiting(self.loop)}"
            )
        if moment > self.now:
            self.now = moment
            self.seconds = moment / NS
            self.steps = 0
            if moment >= EXACT:
                self.loop.resolve(math.ulp(self.seconds))
            self.memory[0] = moment

    def _refuse_steps(self) -> NoReturn:
        """Raises Stuck, since the loop is always busy, and time can't pass."""
        self.steps = 0
        raise Stuck(
            f"the loop made {MOST_STEPS} steps at {self.now / NS:.9f} s: a task asks again and again without a timer.{waiting(self.loop)}"
        )
