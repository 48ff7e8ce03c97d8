"""The processor that a machine runs on.

A machine's kernel and processes wait for each other at each system call. On a single processor that takes two thirds of the time.
So a machine runs on one processor at a time, and moves to another one if it has to wait.
"""

from __future__ import annotations

import os
import random
import time
from contextlib import suppress

from hinge.border.files import read_system
from hinge.simulated.interrupts import children

SPAN = 0.5  # s between two looks at the kernel's waiting time
MOST_WAITED = 0.2  # the part of this time that a kernel may wait without a move
choice = random.SystemRandom().choice


def waited(process: int) -> float:
    """Returns for how many seconds a process has waited for a processor."""
    return int(read_system(f"/proc/{process}/schedstat").split()[1]) / 1e9


class OneProcessor:
    def __init__(self) -> None:
        """Chooses one of this process's allowed processors, if the system reports waiting times."""
        self.allowed = sorted(os.sched_getaffinity(0)) if os.path.exists("/proc/self/schedstat") else []
        self.present = choice(self.allowed) if self.allowed else -1
        self.seen = time.monotonic()  # the moment of the last look
        self.waited = 0.0  # the kernel's waiting time until then, in s

    def take(self, process: int = 0) -> None:
        """Moves a process (0: the caller) and its future children to the chosen processor, if there is one and the system permits
        that."""
        with suppress(OSError):
            if self.allowed:
                os.sched_setaffinity(process, {self.present})

    def choose_again(self, now: float, wait: float) -> bool:
        """Chooses another processor if the kernel waited for this one for a large part of the time since the last look. Returns
        whether another was chosen."""
        if len(self.allowed) < 2 or now - self.seen < SPAN:
            return False
        share = (wait - self.waited) / (now - self.seen)
        self.seen = now
        self.waited = wait
        if share <= MOST_WAITED:
            return False
        self.present = choice([processor for processor in self.allowed if processor != self.present])
        return True

    def look(self, kernel: int) -> None:
        """Moves a machine to another processor if its kernel waited for long. Ignores a machine that has ended."""
        with suppress(OSError, IndexError):
            if self.choose_again(time.monotonic(), waited(kernel)):
                self.take(kernel)  # the kernel moves first, since its new children begin on its processor
                for process in children(kernel):
                    self.take(process)
