"""Replaces the system's functions for threads and locks in a run: they yield to other threads instead of waiting."""

from __future__ import annotations

import _thread
import math
from typing import TYPE_CHECKING, Any, Callable, Optional

from hingetulip.aio.datagram import NS
from hingetulip.aio.member import LONGEST, Member
from hingetulip.aio.refusals import ALLOWED, SLEEP, RealTimeError
from hingetulip.aio.switched import Function

if TYPE_CHECKING:
    from hingetulip.aio.baton import Baton, Really


class ThreadFunctions:
    """Makes the run's version of each function for threads and locks from `own`, the system's version."""

    def __init__(self, baton: Baton) -> None:
        self.baton = baton

    def sleep(self, own: Function) -> Function:
        """Returns `time.sleep`, which the loop's thread may only call with 0 seconds."""

        def sleep(seconds: float) -> None:
            if self.baton.member() is not None:
                self.baton.wait(lambda: False, max(seconds, 1 / NS))
            elif seconds:
                raise RealTimeError(SLEEP + ALLOWED)
            elif not self.baton.turns():
                self.baton.look()

        return sleep

    def start_new_thread(self, own: Function) -> Function:
        """Returns `_thread.start_new_thread`, for code that starts threads without `threading`, and for older Pythons."""
        return lambda *arguments: self.baton.start(lambda body: own(body, ()), Member(), *arguments)

    def start_joinable_thread(self, own: Function) -> Function:
        """Returns the function that starts `threading`'s threads from Python 3.13 on."""

        def start(function: Function, handle: Any = None, daemon: bool = True) -> Any:
            member = Member()
            own_handle = self.baton.start(lambda body: own(body, handle=handle, daemon=daemon), member, function)
            member.is_gone = own_handle.is_done
            return own_handle

        return start

    def join(self, own: Function) -> Function:
        """Returns the `join` of threads that `start_joinable_thread` started."""

        def join(handle: Any, timeout: Optional[float] = None) -> None:
            own(handle, 0)  # refuses a thread that never began
            really = self.really(lambda seconds: bool(own(handle, seconds) or handle.is_done()), timeout)
            self.baton.wait(handle.is_done, timeout, really)

        return join

    def set_sentinel(self, own: Function) -> Function:
        """Returns the function of older Pythons for a lock that the system releases once the thread is gone."""

        def sentinel() -> Any:
            lock = own()
            member = self.baton.member()
            if member is not None:
                member.is_gone = lambda: not lock.locked()
            return lock

        return sentinel

    def really(self, wait: Callable[[float], bool], timeout: Optional[float], is_of_process: bool = False) -> Really:
        """Returns the loop thread's real wait for a thread outside the run, or for a process if the run has no threads.

        `wait` waits for at most some real seconds, and returns whether it succeeded. The result is None if no thread or process can
        end the wait, or if a wait without `timeout` took too long.
        """

        def really() -> Optional[bool]:
            has_others = _thread._count() > len(self.baton.members)
            if not has_others and (self.baton.members or not is_of_process):
                return None
            if timeout is not None and timeout < LONGEST:
                return wait(timeout)
            return wait(LONGEST) or None

        return really

    def acquire(self, own: Function, is_of_process: bool = False) -> Function:
        """Returns a lock's `acquire`, which waits until another thread or process releases the lock."""

        def acquire(lock: Any, blocking: bool = True, timeout: Optional[float] = None, *, block: bool = True) -> bool:
            if own(lock, False):
                return True
            if not (blocking and block):
                return False
            seconds = None if timeout == -1 else timeout
            really = self.really(lambda most: bool(own(lock, True, most)), seconds, is_of_process)
            return self.baton.wait(lambda: bool(own(lock, False)), seconds, really, is_of_process)

        return acquire

    def acquire_again(self, own: Function) -> Function:
        """Returns the `acquire` of a reentrant lock. The waiting thread makes the system's call itself, since the caller becomes
        the owner."""

        def is_free(lock: Any) -> bool:
            return own(lock, False) and not lock.release()

        def acquire(lock: Any, blocking: bool = True, timeout: float = -1) -> bool:
            clock = self.baton.loop.clock
            until = math.inf if timeout == -1 else clock.seconds + timeout
            while not own(lock, False):
                seconds = until - clock.seconds
                if self.baton.member() is None:  # the system's wait, for a thread of the system
                    return bool(own(lock, blocking, timeout) if blocking else own(lock, blocking))
                if not blocking or not self.baton.wait(lambda: is_free(lock), None if seconds == math.inf else seconds):
                    return False
            return True

        return acquire

    def get(self, own: Function) -> Function:
        """Returns the `get` of a SimpleQueue, which waits until another thread puts an item there."""

        def get(queue: Any, block: bool = True, timeout: Optional[float] = None) -> Any:
            if block:
                self.baton.wait(lambda: not queue.empty(), timeout)
            return own(queue, False)

        return get
