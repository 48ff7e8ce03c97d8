"""The report on a run in simulated time: its length, and whether a second run will be the same."""

from __future__ import annotations

from typing import Any, Iterator, NamedTuple, Optional

from hinge.border.files import read_system
from hinge.simulated.interrupts import LONG, NEAR
from hinge.simulated.kernel import Kernel
from hinge.simulated.machine import MachineEnded, Machine, Settings
from hinge.simulated.own_random import random_programs
from hinge.simulated.pauses import SHOWN, PausesMade, pauses_made

Record = dict[str, Any]


class RunOutcome(NamedTuple):
    """Describes a run after its end: its length, and everything on which a repetition depends."""

    ended: MachineEnded
    real: float  # the run's real length in s
    interrupts: int
    longest: float  # the longest computation of a process without a system call, in s
    hides_the_processor: bool
    settings: Settings
    given: "dict[str, str]"  # checksums of the data in the programs' memory
    pauses: Optional[PausesMade]
    random: "list[str]"  # texts on programs that ask the processor directly

    @classmethod
    def of(cls, machine: Machine, endings: MachineEnded, settings: Settings) -> RunOutcome:
        real = machine.real()
        interrupts = machine.interrupts
        hides = machine.hides_the_processor
        given = machine.job.given()
        pauses = pauses_made(machine.folder / "paused")
        random = random_programs(machine.folder, machine.root)
        return cls(endings, real, interrupts.count, interrupts.longest, hides, settings, given, pauses, random)

    def differences(self) -> Iterator[str]:
        """Yields the reasons why a second run may differ."""
        if self.interrupts:
            yield f"a process computed for {LONG:g} s without a call of the system, until {self.interrupts} interrupts"
        elif self.longest >= NEAR:
            yield (
                f"a process computed for {self.longest:.2f} s without a call of the system, and one that a busier "
                f"processor makes compute for {LONG:g} s is interrupted"
            )
        if self.settings.cpu == "host":
            yield "by --cpu host programs ask the processor itself"
        elif not self.hides_the_processor:
            yield "this processor can't hide its own random numbers from programs"
        yield from self.random[:1]

    def line(self) -> str:
        differences = "; ".join(self.differences())
        repetition = f"may differ: {differences}" if differences else "will be the same"
        second = f"a second run by seed {self.settings.seed} {repetition}"
        text = f"{self.ended.spun / 1e6:.3f} ms of it given to processes that spin"
        return f"simulated {self.ended.simulated / 1e9:.6f} s in {self.real:.2f} s, {text}; {second}"

    def lines(self) -> Iterator[str]:
        """Yields the lines of the report: the pauses (each, if there are few), then the length."""
        if self.pauses and self.settings.pauses:
            pauses = self.pauses
            yield (
                f"pauses {self.settings.pauses.asked}: {pauses.amount} in {pauses.calls:,} calls, "
                f"{pauses.time / 1e9:.6f} s of simulated time in all"
            )
            for pause in pauses.first if pauses.amount <= SHOWN else []:
                yield pause.text()
        yield self.line()

    def pauses_record(self) -> "dict[str, Any]":
        if not (self.pauses and self.settings.pauses):
            return {}
        asked = self.settings.pauses
        first = [pause._asdict() for pause in self.pauses.first]
        counts = {"calls": self.pauses.calls, "count": self.pauses.amount, "time": self.pauses.time / 1e9}
        return {"pauses": {"asked": asked.asked, **counts, "first": first}}

    def record(self, kernel: Kernel) -> Record:
        """Returns the outcome's entries in the summary, with times in seconds."""
        return {
            "simulated": self.ended.simulated / 1e9,
            "real": round(self.real, 3),
            "spun": self.ended.spun / 1e9,
            "repeatable": not any(self.differences()),
            "interrupts": self.interrupts,
            "longest": self.longest,
            "at": self.settings.at,
            "given": self.given,
            **self.pauses_record(),
            "kernel": kernel.checksum,
            "cpu": self.settings.cpu,
            "processor": processor(),
        }


def processor() -> str:
    """Returns the model name of this system's processor."""
    lines = read_system("/proc/cpuinfo").splitlines()
    return next((line.partition(":")[2].strip() for line in lines if line.startswith("model name")), "")
