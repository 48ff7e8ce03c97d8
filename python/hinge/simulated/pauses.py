"""Pauses of processes after or before system calls, drawn from a seed or listed individually, so that runs try different schedules.

Computation takes no time in a machine, so a seed without pauses tries a single order of actions.
"""

from __future__ import annotations

import re
from pathlib import Path
from typing import Iterator, NamedTuple, Optional

from hinge.border.terminal import several
from hinge.run.words import duration
from hinge.simulated.calls_of_linux import call_name

DRAWN = "drawn"
PAUSE = re.compile(r"(\d{1,12})([-+])([\d.]{1,20}[mun]?s)(?:@(\d{1,6}))?", re.ASCII)  # as in 2304+5us@250
OFTENEST, RAREST = 4, 14  # the range of a seed's power of two: the most calls between two pauses that the seed draws
GENTLE, LONGEST = 10, 22  # the range of a seed's power of two for its longest pauses: 2^22 us, and as much again
STEPS = 11  # a pause between two calls begins at most 2^11 instructions after the first call, and as many again
LONG = 3  # half of the seeds draw no pause below an eighth (2^-3) of their longest
MOST_GIVEN = 256  # the greatest number of pauses, PAUSES_KEPT in the kernel
SHOWN = 10  # the greatest number of pauses that a report lists
NO_PAUSES = "neither pauses one by one, as 1034-16ms,2200+0.5s,2304+5us@250, nor `drawn`"


class Given(NamedTuple):
    """Describes a pause that the user listed or the seed drew."""

    call: int  # the number of the call, among the calls that may pause
    where: str  # `before` or `behind` the call
    ns: int  # the length
    steps: int = 0  # instructions after the call, if other threads have the same memory

    def word(self) -> str:
        """Returns the pause in the form of --pauses."""
        sign = "-" if self.where == "before" else "+"
        steps = f"@{self.steps}" if self.steps else ""
        return f"{self.call}{sign}{self.ns}ns{steps}"


class Pauses(NamedTuple):
    """Holds the value of --pauses, and the pauses that result."""

    asked: str  # the option's value
    given: "tuple[Given, ...]"

    def lines(self) -> Iterator[str]:
        """Yields lines that give the kernel the individually listed pauses. The first line, `0 1 0`, asks for no drawn pauses: 0
        in 1 call, with the seed 0."""
        yield "0 1 0"
        for pause in self.given:
            line = f"{pause.call} {pause.where} {pause.ns}"
            yield f"{line} {pause.steps}" if pause.steps else line


class Paused(NamedTuple):
    """Describes a pause that a process made; times are in ns of the machine."""

    at: int
    number: int  # the number of the call, among the calls that may pause
    length: int
    call: str
    process: int
    where: str
    steps: int
    program: str

    def given(self) -> Given:
        return Given(self.number, self.where, self.length, self.steps)

    def text(self) -> str:
        return (
            f"{self.given().word()}: process {self.process} ({self.program}) paused for {self.length / 1e6:.3f} ms "
            f"{several(self.steps, 'instruction') + ' ' if self.steps else ''}{self.where} {self.call}"
        )


class PausesMade(NamedTuple):
    """Describes a machine's pauses: the calls that could pause, the number and the sum of the pauses, and the first of them."""

    calls: int
    amount: int
    time: int
    first: "list[Paused]"


def given(text: str) -> "tuple[Given, ...]":
    """Reads listed pauses, and returns them in the order of their calls. Returns no pauses if the text has another form, two pauses
    are at the same call, or there are too many. Wrong: a pause's length is no time."""
    words = text.split(",")
    pauses = list[Given]()
    for match in (PAUSE.fullmatch(word) for word in words):
        if match:
            where = "before" if match[2] == "-" else "behind"
            pauses.append(Given(int(match[1]), where, duration(match[3]), int(match[4] or 0)))
    calls = {pause.call for pause in pauses}
    if any(pause.steps and pause.where == "before" for pause in pauses):
        return ()
    return tuple(sorted(pauses)) if len(calls) == len(words) <= MOST_GIVEN else ()


def number_from_text(text: str) -> int:
    """Returns a 64-bit number derived from a text."""
    import hashlib  # which few runs need

    return int.from_bytes(hashlib.sha256(text.encode()).digest()[:8], "big")


def drawn_pauses(seed: int) -> Iterator[Given]:
    """Yields the pauses that a seed draws. Their distances grow up to the seed's maximum, so that short runs pause, too, and few
    calls pause."""
    most = 2 ** (number_from_text(f"how often {seed}") % (RAREST - OFTENEST + 1) + OFTENEST)  # calls between two pauses
    longest = number_from_text(f"longest {seed}") % (LONGEST - GENTLE + 1) + GENTLE
    are_long = number_from_text(f"how long {seed}") % 2 == 1
    shortest = longest - LONG if are_long else 0
    are_stepped = number_from_text(f"between {seed}") % 2 == 1  # half of the seeds draw pauses between calls
    call = 0
    for _ in range(MOST_GIVEN):
        place, power, more, where = (number_from_text(f"{what} {call} {seed}") for what in ("place", "length", "more", "where"))
        distance = call // 4 + 3 if are_stepped else call * 2 // 3 + 2**OFTENEST // 2
        call += 1 + place % min(distance, most)
        span = 1000 << shortest + power % (longest - shortest + 1)
        is_before = where % (4 if are_stepped else 2) == 0
        steps = 0
        if are_stepped and not is_before:
            number = number_from_text(f"steps {call} {seed}")
            least = 1 << number % (STEPS + 1)
            steps = least + (number >> 8) % least
        yield Given(call, "before" if is_before else "behind", span + more % span, steps)


def pauses_of(word: Optional[str], seed: int) -> Optional[Pauses]:
    """Returns the pauses for the option --pauses, if given."""
    if word is None:
        return None
    return Pauses(word, tuple(drawn_pauses(seed)) if word == DRAWN else given(word))


def paused(line: str) -> Paused:
    at, number, length, call, process, where, steps, program = line.split(" ", 7)
    return Paused(int(at), int(number), int(length), call_name(int(call)), int(process), where, int(steps), program)


def pauses_made(path: Path) -> Optional[PausesMade]:
    """Returns a machine's report on its pauses, if there were any."""
    if not path.exists():
        return None
    first, *others = path.read_text(errors="replace").splitlines()
    calls, amount, time = map(int, first.split())
    return PausesMade(calls, amount, time, [paused(line) for line in others])
