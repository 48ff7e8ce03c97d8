"""The child processes of this process, and waits for their ends and for signals."""

from __future__ import annotations

import os
import signal
import time
from contextlib import suppress
from typing import Callable, NamedTuple, Optional, Set, Union

Mask = Set[Union[int, signal.Signals]]  # of signals that are blocked

SIGNALLED = 128  # a command that a signal ended has this status plus the signal's number


class Ended(NamedTuple):
    """Describes how a command ended."""

    status: int
    after: float  # s since the command's start
    by: str  # itself, SIGTERM, SIGKILL, or kill for a net's act


def name_of(status: int) -> str:
    """Returns the name of the signal that a command's status stands for, or otherwise the status as text."""
    if status > SIGNALLED:
        with suppress(ValueError):  # there is no such signal
            return signal.Signals(status - SIGNALLED).name
    return str(status)


class Ticker:
    """Calls a function each second during a wait."""

    def __init__(self, do: Callable[[float], None]) -> None:
        """`do` receives the seconds since the start."""
        self.do = do
        self.begun = time.monotonic()
        self.count = 0  # of calls

    def left(self) -> float:
        """Returns the seconds until the next call."""
        return max(0.0, self.begun + self.count + 1 - time.monotonic())

    def tick(self) -> None:
        """Calls the function if the next call is due."""
        if self.left() == 0:
            self.count += 1
            self.do(time.monotonic() - self.begun)


def signal_group(process: int, number: int) -> None:
    """Sends a signal to a process group, or only to the process if it leads no group."""
    for send in (os.killpg, os.kill):
        with suppress(ProcessLookupError):
            send(process, number)
            return


class Processes:
    """Holds the child processes that have ended, and waits for others. The caller must have blocked all of `signals`."""

    def __init__(self, signals: set[signal.Signals]) -> None:
        self.signals = signals
        self.ended: dict[int, int] = {}  # the statuses of processes
        self.ended_at: dict[int, float] = {}  # and when their ends were seen, by the monotonic clock

    def reap(self) -> None:
        """Notes the statuses of all child processes that have ended, without a wait."""
        with suppress(ChildProcessError):
            while True:
                process, wait_status = os.waitpid(-1, os.WNOHANG)
                if not process:
                    return
                code = os.waitstatus_to_exitcode(wait_status)  # a signal's number is negative
                self.ended[process] = code if code >= 0 else SIGNALLED - code
                self.ended_at[process] = time.monotonic()

    def wait(
        self, process: int, lasting: Optional[float] = None, ticker: Optional[Ticker] = None, needed: Optional[int] = None
    ) -> Optional[int]:
        """Waits until `process` ends, the process `needed` ends, or `lasting` seconds pass. Returns the number of a signal that
        arrived first, if any."""
        until = None if lasting is None else time.monotonic() + lasting
        self.reap()
        while process not in self.ended and needed not in self.ended:
            now = time.monotonic()
            if until is not None and now >= until:
                return None
            seconds = 3600.0 if until is None else until - now
            if ticker:
                seconds = min(seconds, ticker.left())
            number = self.signal_within(seconds)
            if number:
                return number
            self.reap()
            if ticker:
                ticker.tick()
        return None

    def poll(self, holds: Callable[[], bool], lasting: float, interval: float) -> Optional[int]:
        """Waits until `holds` returns true, which is checked every `interval` seconds, or until `lasting` seconds pass. Returns the
        number of a signal that arrived first, if any."""
        until = time.monotonic() + lasting
        self.reap()
        while not holds() and time.monotonic() < until:
            number = self.signal_within(interval)
            if number:
                return number
            self.reap()
        return None

    def signal_within(self, seconds: float) -> Optional[int]:
        """Waits up to `seconds` for a signal, and returns its number. Returns None if no signal arrives or if a child process ends
        first. After a longer stop of this process, Python may return a random signal, which is ignored."""
        information = signal.sigtimedwait(self.signals, seconds)
        if information and information.si_signo in self.signals - {signal.SIGCHLD}:
            return information.si_signo
        return None

    def end_all(self, processes: list[int], patience: float) -> set[int]:
        """Ends processes and their groups with SIGTERM, and kills processes and groups that remain after `patience` seconds.
        Returns the killed processes."""
        self.reap()
        running = [process for process in processes if process not in self.ended]
        for process in running:
            signal_group(process, signal.SIGTERM)
        until = time.monotonic() + patience
        remaining = self.remaining(running)
        while remaining and time.monotonic() < until:
            signal.sigtimedwait({signal.SIGCHLD}, max(0.0, until - time.monotonic()))
            remaining = self.remaining(running)
        for process in remaining:
            signal_group(process, signal.SIGKILL)
            self.wait_for_end(process, patience)
        return remaining

    def remaining(self, processes: list[int]) -> set[int]:
        """Returns the processes that exist, or whose groups have other members."""
        return {process for process in processes if self.is_there(process)}

    def endings(self, processes: dict[str, int], start: float, patience: float) -> dict[str, Ended]:
        """Ends commands, each of which has a name and a process, and returns how each ended, by name. `start` is the commands'
        start on the monotonic clock; after `patience` seconds, the remaining commands are killed."""
        self.reap()
        themselves = {name for name, process in processes.items() if process in self.ended}
        others = [process for name, process in processes.items() if name not in themselves]
        victims = self.end_all(others, patience)
        endings = dict[str, Ended]()
        for name, process in processes.items():
            status = self.ended.get(process, SIGNALLED + signal.SIGKILL)
            after = round(self.ended_at.get(process, time.monotonic()) - start, 3)
            by = "SIGKILL" if process in victims else "SIGTERM"
            endings[name] = Ended(status, after, "itself" if name in themselves else by)
        return endings

    def is_there(self, process: int) -> bool:
        """Returns whether a process, or another member of its group, exists."""
        self.reap()
        try:
            os.killpg(process, 0)
            return True
        except ProcessLookupError:
            return process not in self.ended

    def end(self, process: int, patience: float) -> None:
        """Ends a process with SIGTERM, and waits up to `patience` seconds for its end."""
        self.reap()
        if process not in self.ended:
            os.kill(process, signal.SIGTERM)
            self.wait_for_end(process, patience)

    def wait_for_end(self, process: int, patience: float) -> None:
        """Waits up to `patience` seconds for a process that was asked to end; ignores further signals."""
        until = time.monotonic() + patience
        while process not in self.ended and time.monotonic() < until:
            signal.sigtimedwait({signal.SIGCHLD}, max(0.0, until - time.monotonic()))
            self.reap()
