"""The verdict on a program in simulated time: the way it ended, or the reason why it didn't."""

from __future__ import annotations

import signal
from pathlib import Path
from typing import Any, Iterator, NamedTuple, Optional

from hinge.simulated.calls_of_linux import call_name

ITSELF = "itself"
SIGNAL = "signal"
DEADLOCK = "deadlock"
LIMIT = "limit"
REAL_LIMIT = "real limit"
OUTSIDE = "outside"
DEADLOCKED = 77  # the status of a run that the kernel ended in a deadlock
LIMITED = 78  # the status of a run that the kernel ended at --limit
SIGNALLED = 128  # with a signal's number, the status of a program that the signal ended
STATES = {"R": "runs", "S": "waits", "D": "waits", "T": "stopped", "t": "traced", "Z": "has ended", "X": "has ended"}
ADDRESSES = {"futex"}  # calls whose first argument is an address
DESCRIPTORS = set("read write readv writev recvfrom sendto recvmsg sendmsg accept accept4 epoll_wait epoll_pwait connect".split())
SHOWN = 12  # the number of a deadlock's threads that the report lists


class Waiting(NamedTuple):
    """Describes a thread of the job, mostly one that waits in a system call."""

    process: int
    thread: int
    program: str
    call: str  # the system call; empty between two calls
    of: int  # the call's first argument
    since: float  # the call's begin, in s of the job's time
    state: str  # a value of STATES
    place: str = ""  # the functions in the program, if a debugger finds them

    def numbers(self) -> "tuple[int, int]":
        return self.process, self.thread

    def text(self) -> str:
        argument = ""
        if self.call in ADDRESSES:
            argument = f" of {self.of:#x}"
        elif self.call in DESCRIPTORS:
            argument = f" of descriptor {self.of}"
        thread = f", thread {self.thread}" if self.thread != self.process else ""
        place = f", in {self.place}" if self.place else ""
        call = f"{self.call or 'no call'}{argument}"
        return f"process {self.process}{thread} ({self.program}) {self.state}: {call} since {self.since:.9f} s{place}"


class MachineVerdict(NamedTuple):
    """Describes how a program ended, or why it didn't."""

    by: str  # ITSELF, SIGNAL, DEADLOCK, LIMIT, REAL_LIMIT or OUTSIDE
    status: int  # the run's status: the program's, if the program ended by itself
    signal: Optional[str] = None  # the name of the signal that ended the program
    at: Optional[float] = None  # the program's end by the machine or from outside, in s of simulated time
    waiting: "tuple[Waiting, ...]" = ()  # the threads at that moment

    def name(self) -> str:
        """Returns a name that is equal for runs which fail in the same way."""
        if self.by == ITSELF:
            return f"status {self.status}"
        if self.by == SIGNAL:
            return str(self.signal)
        if self.by == DEADLOCK and self.waiting:
            return f"{DEADLOCK}: {', '.join(sorted({f'{thread.program} in {thread.call}' for thread in self.waiting}))}"
        return self.by

    def line(self) -> str:
        if self.by == ITSELF:
            return f"the program ended with {self.status}"
        if self.by == SIGNAL:
            return f"the program ended by {self.signal}"
        where = "" if self.at is None else f" at {self.at:.9f} s"
        why = {
            DEADLOCK: f"deadlock{where}: nothing that it started will wake any more",
            LIMIT: f"it was ended{where} of simulated time, by --limit",
        }.get(self.by, "it was ended from outside")
        return f"the program did not end: {why}"

    def lines(self) -> Iterator[str]:
        """Yields the verdict, then the first threads of a deadlock."""
        yield self.line()
        for thread in self.waiting[:SHOWN]:
            yield thread.text()
        if len(self.waiting) > SHOWN:
            yield f"and {len(self.waiting) - SHOWN} more threads"

    def record(self) -> "dict[str, Any]":
        entry: "dict[str, Any]" = {"by": self.by, "status": self.status, "name": self.name()}
        if self.signal is not None:
            entry["signal"] = self.signal
        if self.at is not None:
            entry["at"] = self.at
        if self.waiting:
            entry["waiting"] = [thread._asdict() for thread in self.waiting]
        return entry


def signal_name(number: int) -> str:
    try:
        return signal.Signals(number).name
    except ValueError:
        return f"signal {number}"


def of_wait(status: int) -> MachineVerdict:
    """Returns the verdict on a program that exited or was ended by a signal, from a status of wait(2)."""
    number = status & 0x7F
    if number:
        return MachineVerdict(SIGNAL, SIGNALLED + number, signal_name(number))
    return MachineVerdict(ITSELF, status >> 8 & 0xFF)


def waits(path: Path, start: int) -> "tuple[float, tuple[Waiting, ...]]":
    """Reads the kernel's report when it ended a job: returns the moment in seconds, and all threads of the job. `start` is the
    moment in ns at which the job began."""
    first, *rest = path.read_text(errors="replace").splitlines()

    def row(line: str) -> Waiting:
        process, thread, call, of, since, state, program = line.split(" ", 6)
        name = call_name(int(call)) if int(call) >= 0 else ""
        seconds = max(0, int(since) - start) / 1e9
        return Waiting(int(process), int(thread), program, name, int(of), seconds, STATES.get(state, state))

    return max(0, int(first.split()[1]) - start) / 1e9, tuple(row(line) for line in rest)
