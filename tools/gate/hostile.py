"""Calls that a stranger chose cost no more than their count: twice as many take at most 2.3 times the instructions. Rows in a form of
CSV that isn't the plainest take little more than plain ones. A row of commas takes no more memory than one of letters. An audit takes at
most 9 bytes of memory a byte of a history.

    python3 tools/gate/hostile.py PROGRAM

The instructions are counted by valgrind, so that no other work on the machine matters. tools/hostile writes the inputs.
"""

import os
import re
import subprocess
import sys
from collections.abc import Callable
from functools import cache
from pathlib import Path
from tempfile import TemporaryDirectory

from tally import TOP, Tally, judge, stated

import inputs
import sessions

COUNTED = ["valgrind", "--tool=cachegrind", "--cache-sim=no", "--cachegrind-out-file=/dev/null"]
LIVE, REPLAY, AUDIT = ["live"], ["replay", "config", "packets"], ["audit", "history"]
FEWER, MOST = 2_000, 2.3
KIB, WIDE = 1024, 8_000
VERSION = b"dummynet-history,3\n"
# What a record that is none begins with, and what follows many times.
BAD_RECORDS = {
    "commas": (b"", b","),
    "commas behind a field in quotes": (b'"a"', b","),
    "one field in quotes": (b'"', b"x"),
    "line feeds": (b"", b"\n"),
    "carriage returns": (b"", b"\r"),
    "short records": (b"", b"x\r"),
}
# How many bytes of memory a byte of a history an audit takes at most. One field in quotes takes 4.6, and all others 3.6.
AUDITED = 9
AUDIT_BY_LIBRARY = """
import sys
sys.path.insert(0, sys.argv[1])
from hingetulip import HistoryError, audit
with open(sys.argv[2], "rb") as history:
    try:
        audit(history)
    except HistoryError:
        sys.exit(4)
"""
Cost = Callable[[str, int], int]


def counted(words: list[str], stdin: str = os.devnull, status: int = 0, **more: str) -> int:
    """How many instructions the program takes. It ends with this status."""
    with open(stdin, "rb") as text:
        env = {**os.environ, **more}
        done = subprocess.run([*COUNTED, *words], stdin=text, stdout=subprocess.DEVNULL, stderr=subprocess.PIPE, env=env)
    found = re.search(rb"I +refs: +([\d,]+)", done.stderr)
    if done.returncode != status or found is None:
        raise subprocess.CalledProcessError(done.returncode, words, None, done.stderr)
    return int(found[1].replace(b",", b""))


def cost_of(words: list[str], write: Callable[[int, Path], object], status: int = 0) -> Cost:
    """Returns the cost of a run over the files that `write` makes, of which a live session reads `calls`."""

    @cache
    def cost(program: str, count: int) -> int:
        with TemporaryDirectory() as folder:
            write(count, Path(folder))
            stdin = f"{folder}/calls" if words == LIVE else os.devnull
            return counted([program, words[0], *(f"{folder}/{name}" for name in words[1:])], stdin, status)

    return cost


@cache
def session(kind: str) -> Cost:
    return cost_of(LIVE, lambda count, folder: sessions.write(kind, count, folder / "calls"))


@cache
def replay(kind: str, times: int = 1, status: int = 0) -> Cost:
    return cost_of(REPLAY, lambda count, folder: inputs.write(kind, count * times, folder), status)


@cache
def lines(end: bytes) -> Cost:
    return cost_of(LIVE, lambda count, folder: (folder / "calls").write_bytes((b"c,0,advance,1" + end) * count))


@cache
def entries(end: bytes, quote: bytes = b"") -> Cost:
    """Returns the cost of an audit of the shortest entries, with these line ends and quotes."""

    def write(count: int, folder: Path) -> None:
        inputs.write("entries", KIB * count // 40, folder)
        records = (folder / "history").read_bytes().splitlines()
        quoted = (quote + record.replace(b",", quote + b"," + quote) + quote + end for record in records)
        (folder / "history").write_bytes(b"".join(quoted))

    return cost_of(AUDIT, write)


def digits(field: str) -> Cost:
    """A replay of a row that is a run of digits from a field on, and is refused."""
    return replay(field, KIB, 4)


CASES: dict[str, Cost] = {
    "flows with chosen keys": replay("chosen"),
    "flows of one deleted queue": session("queue-delete"),
    "deletes that reach no flow": session("idle-deletes"),
    "flows beside deletes and arrivals by turns": session("delete-turns"),
    "pipes that are deleted one by one": session("emptied-pipes"),
    "links beside deletes of another pipe": session("emptied-turns"),
    "deletes of a queue with a new flow": session("reset-queue"),
    "deletes of a queue with a new mask": session("reset-masks"),
    "deletes of a pipe with a new flow": session("reset-pipe"),
    "deletes of a flow that has sent all": session("reset-sent"),
    "KiB of digits as a moment": digits("moment"),
    "KiB of digits as an address": digits("address"),
    "rows that end in CR LF": replay("returns"),
    "rows behind a byte order mark": replay("mark"),
    "rows behind one in quotes": replay("quoted-first"),
    "rows in quotes": replay("quoted"),
    "entries that end in CR LF": entries(b"\r\n"),
    "entries that end in CR alone": entries(b"\r"),
    "entries in quotes": entries(b"\n", b'"'),
    "entries in quotes that end in CR alone": entries(b"\r", b'"'),
    "live lines that end in CR LF": lines(b"\r\n"),
}
# A form of rows, entries or lines, the plainest one, and at most how many times its instructions.
RATIOS: list[tuple[str, Cost, float]] = [
    ("rows that end in CR LF", replay("plain"), 1.3),
    ("rows behind a byte order mark", replay("plain"), 1.05),
    ("rows behind one in quotes", replay("plain"), 1.05),
    ("rows in quotes", replay("plain"), 2.0),
    ("entries that end in CR LF", entries(b"\n"), 1.3),
    ("live lines that end in CR LF", lines(b"\n"), MOST),
]


def peak(words: list[str], status: int = 0) -> int:
    """The most KiB that stood in memory. A child's count begins with its parent's, which is some 15 MiB."""
    child = subprocess.Popen(words, stdout=subprocess.DEVNULL, stderr=subprocess.DEVNULL)
    _, ended, used = os.wait4(child.pid, 0)
    child.returncode = os.waitstatus_to_exitcode(ended)
    if child.returncode != status:
        raise subprocess.CalledProcessError(child.returncode, words)
    return used.ru_maxrss


def memory(program: str, front: bytes, byte: bytes) -> int:
    """How many KiB of memory a replay takes whose one row is bad: a front, and then this byte many times."""
    with TemporaryDirectory() as folder:
        Path(folder, "config").write_text("pipe 1 config\n")
        with Path(folder, "packets").open("wb") as file:  # in pieces, since what this process has counts
            file.write(inputs.HEADER.encode() + front)
            file.writelines(byte * KIB for _ in range(WIDE))
            file.write(b"\n")
        return peak([program, "replay", f"{folder}/config", f"{folder}/packets"], 4)


def fill(path: Path, front: bytes, repeated: bytes) -> None:
    """Writes a front, and then 8,000 KiB of the same bytes again and again."""
    with path.open("wb") as file:
        file.write(front)
        file.writelines(repeated * (KIB // len(repeated)) for _ in range(WIDE))


def check_audits(program: str, tally: Tally) -> None:
    """Checks that the length of a history bounds an audit's memory, in the program and in the library."""
    ways = {"the program": [program, "audit"], "the library": [sys.executable, "-c", AUDIT_BY_LIBRARY, str(TOP / "python")]}
    with TemporaryDirectory() as folder:
        history = Path(folder) / "bad.history"
        for name, (front, repeated) in BAD_RECORDS.items():
            fill(history, VERSION + front, repeated)
            for way, words in ways.items():
                used = peak([*words, str(history)], 4) / WIDE
                print(f"an audit of {name} by {way} takes {used:.2f} bytes of memory a byte")
                tally.note(f"an audit of {name} by {way}", "" if used <= AUDITED else f"more than {AUDITED} bytes of memory a byte")


def compare_memory(program: str, tally: Tally) -> None:
    """Checks that a row of commas takes no more memory than a row of letters."""
    letters, commas, behind = (memory(program, *row) for row in ((b"", b"x"), (b"", b","), (b"\r\n", b",")))
    print(f"{WIDE} KiB of letters take {letters} KiB of memory, of commas {commas}, and behind an empty line {behind}")
    tally.note(
        "the memory of a row of commas", "" if max(commas, behind) <= 1.1 * letters else "more than that of a row of letters"
    )


def main(tally: Tally, program: str) -> None:
    of_keys = f"take at most {MOST} times the instructions"
    of_audits = f"an audit takes at most {AUDITED} bytes a byte of a history"
    stated(tally, "docs/TRUST.md", f"{of_keys} (`tools/gate/hostile.py`)", f"{of_audits} (`tools/gate/hostile.py`)")
    for name, cost in CASES.items():
        fewer, more = (cost(program, count) for count in (FEWER, 2 * FEWER))
        print(f"{FEWER} {name} take {fewer} instructions, and {2 * FEWER} take {more}: {more / fewer:.2f} times as many")
        tally.note(name, "" if more <= MOST * fewer else f"more than {MOST} times the instructions")
    for name, plain, most in RATIOS:
        ratio = CASES[name](program, FEWER) / plain(program, FEWER)
        print(f"{FEWER} {name} take {ratio:.2f} times the instructions of plain ones")
        tally.note(f"{name}, over plain ones", "" if ratio <= most else f"more than {most} times the instructions")
    compare_memory(program, tally)
    check_audits(program, tally)


if __name__ == "__main__":
    judge(main)
