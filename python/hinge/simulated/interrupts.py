"""Interrupts for processes that only compute.

Time in a machine doesn't pass while a process computes, so no event inside interrupts the process. It may be waiting for a value
from another process. A process that computes for a long time without a system call is therefore interrupted from outside, and each
interrupt advances the time a little. Interrupts occur at real moments, so no second run is the same.
"""

from __future__ import annotations

import os
import signal
from typing import Iterator, NamedTuple, Optional

from hinge.border.files import read_system

LONG = 2.0  # s of processor time without a call of the kernel
# On a busy processor the same computation lasts several times as long, and may be interrupted in another run.
NEAR = LONG / 4
PAUSE = 0.1  # s between looks
SHORT = 0.002  # s until the look after an interrupt
OWN_WAITS = 2  # the most waits that an interrupt itself causes


class Look(NamedTuple):
    """Describes a process at a moment. Each system call makes the process wait once."""

    waits: int  # the number of waits since the process's start
    used: float  # s of processor time
    is_running: bool
    is_interrupted: bool = False


def children(machine: int) -> list[int]:
    """Returns the processes that a machine's kernel started; an empty list if the machine has ended."""
    try:
        return [int(word) for word in read_system(f"/proc/{machine}/task/{machine}/children").split()]
    except OSError:
        return []


def look_at(process: int) -> Optional[Look]:
    """Returns the present state of a process, if the process still exists."""
    try:
        fields = read_system(f"/proc/{process}/stat").rpartition(")")[2].split()
        lines = read_system(f"/proc/{process}/status").splitlines()
        waits = next(line for line in lines if line.startswith("voluntary_ctxt_switches"))
    except (OSError, StopIteration):
        return None
    used = (int(fields[11]) + int(fields[12])) / os.sysconf("SC_CLK_TCK")
    return Look(int(waits.split()[1]), used, fields[0] == "R")


class Interrupts:
    def __init__(self, machine: int) -> None:
        """Prepares to interrupt the processes of a machine; `machine` is the process of the machine's kernel."""
        self.machine = machine
        self.count = 0
        self.last = dict[int, Look]()
        self.longest = 0.0  # the longest observed computation without a call, in s of processor time

    def looks(self) -> Iterator[tuple[int, Look]]:
        for process in children(self.machine):
            look = look_at(process)
            if look:
                yield process, look

    def is_long(self, before: Look, look: Look) -> bool:
        """Returns whether a process has computed for a long time since the state `before`, or continues to compute after an
        interrupt."""
        if before.is_interrupted:
            return look.is_running and look.waits - before.waits <= OWN_WAITS
        return look.is_running and look.waits == before.waits and look.used - before.used >= LONG

    def look(self) -> float:
        """Interrupts the processes that have computed for a long time; returns the seconds until the next look."""
        pause = PAUSE
        present = dict[int, Look]()
        for process, look in self.looks():
            before = self.last.get(process, look)
            if look.waits == before.waits:
                self.longest = max(self.longest, look.used - before.used)
            if self.is_long(before, look):
                os.kill(process, signal.SIGALRM)
                self.count += 1
                pause = SHORT
                present[process] = look._replace(is_interrupted=True)
            elif look.waits == before.waits and not before.is_interrupted:
                present[process] = before  # the computation began there
            else:
                present[process] = look
        self.last = present
        return pause
