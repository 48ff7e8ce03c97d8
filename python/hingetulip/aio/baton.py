"""The baton of a run's threads. A single thread runs at a time, and yields instead of waiting, so that the simulated clock
advances."""

from __future__ import annotations

import contextvars
import math
import os
import sys
import threading
import time
import traceback
from typing import TYPE_CHECKING, Any, Callable, Optional
from unittest import mock

from hingetulip.aio.border import joining, leave
from hingetulip.aio.datagram import NS
from hingetulip.aio.member import IDLE, LONGEST, PATIENCE, MemberEnd, Member, Ready, bounded_pipe, own_read, own_time, pause, quiet
from hingetulip.aio.refusals import ALLOWED, BLOCKS, HANGS, RealTimeError
from hingetulip.aio.switched import Function, of_run, own_of
from hingetulip.library import NEVER

if TYPE_CHECKING:
    from hingetulip.aio.loop import Loop

Really = Callable[[], Optional[bool]]  # a real wait, and whether it succeeded; None if it can't succeed

MOST_TURNS = 100_000  # the most steps in which the loop's own thread lets other threads run during one wait
MOST_LOOKS = 10_000  # the most looks of the loop's own thread in one step, at something that only another step can change
own_process_time = own_of(time, "process_time")


class Baton:
    """The threads that a run's code started (members). The loop's thread lets each run in turn, until that thread waits or ends."""

    def __init__(self, loop: Loop) -> None:
        self.loop = loop
        self.back = bounded_pipe()  # a member writes a byte to it when it waits or ends
        self.is_closing = False  # whether each member ends at its next turn
        self.is_leaving = False  # whether members continue outside the run, instead of ending
        self.lost: Optional[
            str
        ] = None  # once a member has left the run without ending: the error, or an empty text if there is none
        self.members: dict[int, Member] = {}  # the threads, by their identifiers in Python

    def start(self, own: Function, member: Member, function: Function, arguments: Any = (), keywords: Any = {}) -> Any:
        """Starts a thread that calls `function`, and returns the result of `own`, the system's function for starting a thread. The
        thread's first turn is in the loop's next step."""
        context = contextvars.copy_context()
        joined = os.pipe()  # the thread writes a byte to it once it is a member

        def body() -> None:
            of_run.add(threading.get_ident())
            self.members[threading.get_ident()] = member
            member.native_id = str(threading.get_native_id())
            for join in joining:
                join()
            os.write(joined[1], b".")
            own_read(member.turn[0], 1)
            try:
                if not self.is_closing:
                    context.run(function, *arguments, **keywords)
            finally:
                member.has_ended = True
                of_run.discard(threading.get_ident())
                os.write(self.back[1], b".")

        result = own(body)
        own_read(joined[0], 1)
        for end in joined:
            os.close(end)
        return result

    def wait(
        self, ready: Ready, seconds: Optional[float] = None, really: Optional[Really] = None, is_of_process: bool = False
    ) -> bool:
        """Yields until the condition `ready` is true, for at most `seconds`; returns whether the condition is true. With
        `is_of_process`, the clock stands still while processes of the run exist, since they may make the condition true.

        The loop's thread can't yield: it lets the members run as long as they can, and then returns the result of `really`, a wait
        in real time. RealTimeError: there is no such wait, or the wait can't succeed.
        """
        if ready():
            return True
        if seconds is not None and seconds <= 0:
            return False
        member = self.member()
        if member is not None:
            if is_of_process and self.loop.net.real_uses.has_processes():
                member.hold(seconds)
            return self._yield(member, ready, seconds)
        until = own_time() + (LONGEST if seconds is None else seconds)
        for _ in range(MOST_TURNS):
            if not self.turns() and not (own_time() < until and self.pauses_clock()):
                break
            if ready():
                return True
        result = None if really is None else really()
        if result is None:
            raise RealTimeError(self.lost or BLOCKS + ALLOWED)
        return result

    def _yield(self, member: Member, ready: Ready, seconds: Optional[float]) -> bool:
        """Lets other threads run until the member's condition is true or its time is over; returns whether the condition is true.
        Ended: the network is being closed."""
        member.ready = ready
        member.until = NEVER
        if seconds is not None:
            member.until = self.loop.clock.now + (round(seconds * NS) or 1)  # the rest of a wait in floats may be less than a ns
        if not self.is_closing:
            os.write(self.back[1], b".")
            own_read(member.turn[0], 1)
        member.held = 0
        if self.is_leaving:
            return self._wait_outside(member, ready, seconds)
        if self.is_closing:
            raise MemberEnd
        return member.is_ready

    def _wait_outside(self, member: Member, ready: Ready, seconds: Optional[float]) -> bool:
        """Continues a wait outside the run, as an ordinary thread; returns whether the condition is true. If this thread ended
        instead, a pool's processes that it should end would remain."""
        of_run.discard(threading.get_ident())
        leave()
        until = own_time() + (math.inf if seconds is None else seconds)
        member.has_ended = True
        member.is_gone = lambda: True
        self.lost = self.lost or ""
        os.write(self.back[1], b".")
        while not (is_ready := ready()) and own_time() < until:
            pause()
        return is_ready

    def member(self) -> Optional[Member]:
        """Returns the current thread as a member; None in the loop's thread."""
        return self.members.get(threading.get_ident())

    def pauses_clock(self) -> bool:
        """Lets a short real time pass if a member waits for a process. Returns whether the clock must stand still for that member:
        not if another member's wait ends within the next ns."""
        if not any(member.is_held() for member in self.members.values()):
            return False
        pause()
        return self.until() > self.loop.clock.now + 1

    def look(self) -> None:
        """Counts an unsuccessful look of the loop's thread. RealTimeError: the thread looks again and again, as if waiting."""
        self.loop.clock.looks += 1
        if self.loop.clock.looks > MOST_LOOKS:
            raise RealTimeError(BLOCKS + ALLOWED)

    def step(self) -> bool:
        """Lets the members run in turn, as `turns` does. RealTimeError: a member waited for something real for too long."""
        if not self.lost or self.loop.net.closing:
            return self.turns()
        raise RealTimeError(self.lost)

    def turns(self) -> bool:
        """Lets each member run whose condition is true or whose time is over; returns whether any member ran."""
        has_turned = False
        for ident, member in list(self.members.items()):
            member.is_ready = member.ready()
            if member.is_ready or self.is_closing or self.loop.clock.now >= member.until:
                self._turn(ident, member)
                has_turned = True
        return has_turned

    def _comes_back(self) -> bool:
        """Returns whether the member that runs yields or ends in time. Seconds in which the process computes count only if the
        network is being closed."""
        seconds = 0
        while seconds < (PATIENCE if self.is_closing else LONGEST):
            processor_time = own_process_time()
            try:
                return bool(own_read(self.back[0], 1))
            except BlockingIOError:
                is_idle = own_process_time() - processor_time < IDLE
                if self.is_closing or is_idle:
                    seconds += PATIENCE
        return False

    def _lose(self, ident: int) -> None:
        """Removes a member, which continues as an ordinary thread. If the network is open, the run ends at its next step, since it
        can't continue without the thread. An error here would leave the code that started the thread half done."""
        del self.members[ident]
        of_run.discard(ident)
        self.lost = self.lost or ""
        if not self.is_closing:
            self.is_closing = True
            place = "".join(traceback.format_stack(sys._current_frames().get(ident), 3))
            self.lost = f"{HANGS}{ALLOWED}\n{place}"

    def _turn(self, ident: int, member: Member) -> None:
        """Lets a member run until it yields or ends, and removes a member that ends."""
        os.write(member.turn[1], b".")
        if not self._comes_back():
            self._lose(ident)
        elif member.has_ended:
            del self.members[ident]
            for end in member.turn:
                os.close(end)
            while not member.is_gone():
                os.stat("/")  # lets the other thread go on and, unlike a wait for a lock, doesn't count as a real call

    def until(self) -> int:
        """Returns the first moment in ns at which a member's wait times out, or NEVER."""
        return min((member.until for member in self.members.values()), default=NEVER)

    def close(self) -> None:
        """Ends each member at the call in which it waits. If processes of the run still exist, the members continue outside the run
        instead, as ordinary threads."""
        self.is_closing = True
        self.is_leaving = self.loop.net.real_uses.has_processes()
        with mock.patch.object(threading, "excepthook", quiet(threading.excepthook)):
            self.turns()
        if self.lost is None:
            for end in self.back:
                os.close(end)
