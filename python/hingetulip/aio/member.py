"""Describes a member, a thread of a run that waits for its turn, and pauses for real time."""

from __future__ import annotations

import functools
import os
import posix
import socket
import struct
import time
from typing import Any, Callable, Optional

from hingetulip.aio.datagram import NS
from hingetulip.aio.switched import own_of
from hingetulip.library import NEVER

Ready = Callable[[], bool]  # returns whether a condition is true
LONGEST = 20.0  # real s that a run waits for a thread of the system, or a process
PATIENCE = 1  # real s in which a thread must end when its network is closed
IDLE = 0.01  # s of processor time in a second of PATIENCE, below which the process counts as waiting
own_time, own_read = own_of(time, "monotonic"), own_of(posix, "read")


class MemberEnd(SystemExit):
    """Raised in a waiting thread when its network is closed, so that the thread ends."""


def quiet(hook: Callable[[Any], object]) -> Callable[[Any], object]:
    """Returns a hook for unhandled exceptions in threads that ignores `MemberEnd`."""
    return lambda arguments: None if arguments.exc_type is MemberEnd else hook(arguments)


def bounded_pipe(seconds: float = PATIENCE) -> tuple[int, int]:
    """Returns the descriptors of a pipe whose reads end after `seconds`. The run uses such reads as waits, since C code's sleeps
    and waits for descriptors would count as real calls, and reads don't."""
    reader, writer = socket.socketpair()
    reader.setsockopt(socket.SOL_SOCKET, socket.SO_RCVTIMEO, struct.pack("@ll", int(seconds), round(seconds % 1 * 1e6)))
    return reader.detach(), writer.detach()


@functools.lru_cache(None)
def pipe_of_pauses() -> tuple[int, int]:
    """Returns the pipe for `pause`, to which nobody writes."""
    return bounded_pipe(IDLE)


def pause() -> None:
    """Waits for IDLE in real time."""
    try:
        own_read(pipe_of_pauses()[0], 1)
    except BlockingIOError:
        pass


class Member:
    """A thread in a run, with the condition for which it waits."""

    def __init__(self) -> None:
        self.ready: Ready = lambda: True  # the condition
        self.until = NEVER  # the ns at which the wait times out
        self.held = 0.0  # the real s until which the clock stands still for this thread
        self.native_id = ""  # the thread's number in the system
        self.polled = -1  # the ns at which the thread last asked for descriptors without a wait
        self.is_ready = False  # whether the condition was true at the thread's last turn
        self.has_ended = False
        self.is_gone: Ready = lambda: True  # returns whether the system has released the thread
        self.turn = os.pipe()  # a byte in it begins the thread's turn

    def hold(self, seconds: Optional[float]) -> None:
        """Stops the clock during the next wait, for at most `seconds` of real time, since a process may end the wait."""
        self.held = own_time() + min(LONGEST, LONGEST if seconds is None else seconds)

    def is_held(self) -> bool:
        """Returns whether the clock stands still for this thread."""
        return bool(own_time() < self.held)

    def polling_wait(self, now: int) -> float:
        """Records that the thread asks for descriptors without a wait, and returns the s that it waits nevertheless: 1 ns if it
        asks again at the same moment, since a loop until a deadline would never end otherwise."""
        is_again = self.polled == now
        self.polled = now
        return 1 / NS if is_again else 0.0
