"""The limits of input, at the last byte and one beyond it, inputs that never end, and the memory that plain input takes.

    python3 tools/gate/limit_checks.py PROGRAM

Files of up to 256 MiB are made in the folder for temporary files, and removed. PROGRAM may have several words.
"""

import os
import shlex
import subprocess
from pathlib import Path
from typing import Iterator, NamedTuple

from hostile import inputs, peak
from tally import Tally, judge

from files import LIMITS, PACKET_HEADER, REPORT_HEADER

HEADER = PACKET_HEADER.encode() + b"\n"
CONFIG = ["replay", "file", "empty"]
PACKETS = ["replay", "empty", "file"]
AUDIT = ["audit", "file"]
Outcome = tuple[bytes, bytes, int]
EMPTY_REPORT: Outcome = (f"{REPORT_HEADER}\n".encode(), b"", 0)
BAD_RECORD: Outcome = (b"", b"packet row 1, field 0: bad\n", 4)


class Filled(NamedTuple):
    """An input as long as its limit: a beginning, and a repeated byte."""

    name: str
    source: str
    words: list[str]
    head: bytes
    fill: bytes
    outcome: Outcome


FILLED = (
    Filled("configuration of empty lines", "config", CONFIG, b"", b"\n", EMPTY_REPORT),
    Filled("configuration of one comment", "config", CONFIG, b"#", b"x", EMPTY_REPORT),
    Filled("packet file of empty lines", "packets", PACKETS, HEADER, b"\n", EMPTY_REPORT),
    Filled("joined input of empty lines", "input", [], b"--\n" + HEADER, b"\n", EMPTY_REPORT),
    Filled("joined input of one comment", "input", [], b"#", b"x", EMPTY_REPORT),
    Filled("packet file of one quoted field", "packets", PACKETS, HEADER + b'"', b"x", BAD_RECORD),
    Filled("packet file of one record of commas", "packets", PACKETS, HEADER, b",", BAD_RECORD),
    Filled("history of empty lines", "history", AUDIT, b"dummynet-history,3\nend,0\n", b"\n", (b"lawful 0\n", b"", 0)),
)
ENDLESS = (
    ("input", []),
    ("config", ["replay", "/dev/zero", "empty"]),
    ("packets", ["replay", "empty", "/dev/zero"]),
    ("history", ["audit", "/dev/zero"]),
)
MIB = 1 << 20
# What keeps neither the text nor its entries or rows: the kind of an input, its MiB, the command, and the most MiB of memory it may take.
KEPT = (("entries", 64, ["audit", "history"], 32), ("rows", 32, ["replay", "config", "packets"], 80))


def too_long(source: str) -> Outcome:
    return b"", f"{source} too long\n".encode(), 6


def outcome(program: list[str], words: list[str], stdin: str, folder: Path) -> Outcome:
    with open(stdin, "rb") as file:
        done = subprocess.run(program + words, stdin=file, capture_output=True, cwd=folder)
    return done.stdout, done.stderr, done.returncode


def checks(program: list[str], folder: Path) -> Iterator[tuple[str, Outcome, Outcome]]:
    """Yields each input's name, its expected outcome, and its actual one."""
    path = os.path.join(folder, "file")
    Path(folder, "empty").touch()
    for f in FILLED:
        for extra in (0, 1):
            Path(path).write_bytes(f.head + f.fill * (LIMITS[f.source] + extra - len(f.head)))
            stdin = os.devnull if f.words else path
            yield f"{f.name}, {extra} over", too_long(f.source) if extra else f.outcome, outcome(program, f.words, stdin, folder)
    for source, words in ENDLESS:
        stdin = os.devnull if words else "/dev/zero"
        yield f"endless {source}", too_long(source), outcome(program, words, stdin, folder)


def kept(tally: Tally, program: list[str]) -> None:
    """Checks the most memory of inputs that hold the most for their bytes (tools/hostile/inputs.py)."""
    for kind, size, words, most in KEPT:
        (folder := tally.place / kind).mkdir()
        inputs.write(kind, size * MIB, folder)
        taken = peak([*program, words[0], *(f"{folder}/{word}" for word in words[1:])]) // 1024
        tally.note(f"{words[0]} of {size} MiB", "" if taken <= most else f"takes {taken} MiB, more than {most}")


def main(tally: Tally, program_text: str) -> None:
    program = [os.path.abspath(w) if os.path.isfile(w) else w for w in shlex.split(program_text)]
    kept(tally, program)  # first, since a process begins with the memory of its parent
    for name, want, got in checks(program, tally.place):
        tally.note(name, "" if want == got else f"want {want}, got {[got[0][:200], got[1][:200], got[2]]}")


if __name__ == "__main__":
    judge(main)
