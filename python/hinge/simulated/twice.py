"""The comparison of two runs with the same seed, up to the first difference."""

from __future__ import annotations

from itertools import zip_longest
from pathlib import Path
from typing import Optional

from hinge.command import say
from hinge.replays.parting import parting
from hinge.simulated.machine import Machine

DIFFERENT = 76  # the status if two runs differ
TRANSCRIPT = "the transcript"
COMPARED = (("out", "standard output"), ("err", "standard error"), ("kept/history", TRANSCRIPT))
SHOWN = 200  # bytes of a line


def printable_line(line: Optional[bytes]) -> str:
    return "the end" if line is None else repr(line[:SHOWN].decode(errors="replace").rstrip("\n"))


def difference(one: Path, other: Path, what: str) -> Optional[str]:
    """Returns a text on the first difference of two files, if any. Transcripts are compared call by call, unless only remarks
    differ; `what` names the file in the text."""
    with open(one, "rb") as first, open(other, "rb") as second:
        pairs = enumerate(zip_longest(first, second), 1)
        different = next(((number, line, other_line) for number, (line, other_line) in pairs if line != other_line), None)
    if different is None:
        return None
    number, line, other_line = different
    are_transcripts = what == TRANSCRIPT and one.stat().st_size and other.stat().st_size
    call = parting(one, other) if are_transcripts else None
    if call is None:
        return f"{what} parts in line {number:,}: {printable_line(line)} and {printable_line(other_line)}"
    return f"{what} parts in call {call.number:,}{call.at()}: {call.reason()}\n{call.text()}"


def length(machine: Machine, name: str) -> int:
    """Returns the length of a machine's file; 0 for a missing file."""
    path = machine.folder / name
    return path.stat().st_size if path.exists() else 0


def compared(machines: "list[Machine]", status: int, seed: int) -> int:
    """Reports whether the runs of two machines were the same. Returns DIFFERENT or, if the runs are the same or were ended from
    outside, the status of the first run."""
    one, other = machines
    if one.cut is not None:
        return status
    differences = list[str]()
    if one.ended() != other.ended():
        differences.append(f"one ended with {one.ended()}, the other with {other.ended()}")
    for name, what in COMPARED:
        has_bytes = length(one, name) or length(other, name)
        text = difference(one.folder / name, other.folder / name, what) if has_bytes else None
        if text:
            differences.append(text)
    for text in differences:
        for line in f"two runs by seed {seed} differ: {text}".split("\n"):
            say(line)
    if differences:
        return DIFFERENT
    sizes = ", ".join(f"{length(one, name):,} bytes of {what}" for name, what in COMPARED)
    say(f"two runs by seed {seed} are the same: {sizes}")
    return status
