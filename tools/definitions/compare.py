"""Has the program answer drawn sessions, and the definitions too."""

import subprocess
from collections.abc import Iterator
from random import Random
from typing import NamedTuple

from draw import session
from emulator import Difference, Emulator
from records import Entry, read_history

CALLS = 40  # in a session
# Calls at the ends of the ranges, and one beyond each. The program refuses the latter.
CONFIGURES = [
    f"configure,pipe 1 config {option}"
    for option in ("delay 3600000", "delay 3600001", "queue 10000", "queue 10001", "queue 1024Kbytes", "queue 1025Kbytes")
]
PACKETS = [
    f"submit,pipe,1,10.0.0.1,10.0.0.2,17,1,2,{length},0,{moment}"
    for length, moment in ((65535, 0), (65536, 0), (1, 2**62), (1, 2**62 + 1))
]
MOMENTS = [f"{kind},{moment}" for kind in ("advance", "collect") for moment in (2**62, 2**62 + 1)]
ENDS = [f"c,0,{call}" for call in CONFIGURES + PACKETS + MOMENTS]


class Wrong(Exception):
    """A program that doesn't answer a session as a whole."""


def told(program: str, lines: list[str]) -> subprocess.CompletedProcess[str]:
    text = "".join(line + "\n" for line in lines)
    return subprocess.run([program, "live"], input=text, capture_output=True, text=True, timeout=120)


def sessions(program: str, seed: int, count: int) -> Iterator[list[Entry]]:
    """Sessions with the program's replies, of `count` calls or a few more in all."""
    number = 0
    while count > 0:
        lines = session(Random(f"{seed} {number}"), CALLS)
        done = told(program, lines)
        entries = read_history(done.stdout).entries if done.returncode == 0 else []
        if [entry.call for entry in entries] != lines:
            which = f"session {number} of the seed {seed}"
            raise Wrong(f"{which}: status {done.returncode}, {len(entries)} of {len(lines)} calls answered")
        yield entries
        number, count = number + 1, count - len(lines)


def answered(program: str) -> dict[str, bool]:
    """Returns whether the program answers each call at the ends of the ranges."""
    return {line: "\nc,0," in told(program, [line]).stdout for line in ENDS}


class Given(NamedTuple):
    """The program's behaviour: sessions, and its answers to calls at the ends of the ranges."""

    sessions: list[list[Entry]]
    answered: dict[str, bool]


def first_difference(emulator: Emulator, given: Given) -> tuple[int, Difference | None]:
    """The calls up to the first difference, and that difference."""
    for place, (line, is_answered) in enumerate(given.answered.items()):
        if emulator.is_in_range(line) != is_answered:
            return place + 1, Difference(place, f"{line}: answered {is_answered}, in range {not is_answered}")
    calls = len(given.answered)
    for entries in given.sessions:
        difference = emulator.difference("Ordered", entries)
        if difference is not None:
            return calls + difference.place + 1, difference
        calls += len(entries)
    return calls, None
