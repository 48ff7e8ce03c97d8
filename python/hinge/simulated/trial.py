"""Tries whether a kernel's machines skip the times in which all processes wait."""

from __future__ import annotations

from hinge.border.scratch import scratch
from hinge.command import Fault
from hinge.simulated.job import Job, environment
from hinge.simulated.kernel import Kernel
from hinge.simulated.machine import Machine, Settings
from hinge.simulated.time_options import BEGINNING, date, size

HOUR = 3600 * 10**9  # ns
STARTED = 10**9  # ns that sleep may take to start and end
FAILED = 6
REAL = 300.0  # s after which a trial is over


def try_hour(kernel: Kernel) -> float:
    """Returns the simulated seconds of an hour's sleep in a machine of this kernel. Fault: the machine's clock shows another
    length."""
    with scratch() as place:
        empty = place / "in"
        empty.touch()
        settings = Settings(1, date(BEGINNING), size("256M"), "stable", False)
        machine = Machine(kernel, settings, Job(["sleep", "3600"], empty, True, environment(True)))
        try:
            machine.wait(REAL)
            how = machine.ended()
            if how is None:
                raise machine.fault()
        finally:
            machine.remove()
    if how.status or not HOUR <= how.simulated < HOUR + STARTED:
        raise Fault(f"the kernel was built, and doesn't travel in time: {how}", FAILED)
    return how.simulated / 1e9
