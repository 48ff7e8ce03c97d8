"""Runs the program beside plain Rust and the limit, and prints one table of what each took.

    python3 bench/replay.py PROGRAM TWIN LIMIT [ROUNDS [ROWS [LOAD ..]]]

PROGRAM is dummynet, TWIN the plain Rust of bench/twin, and LIMIT bench/limit.c, which shows how fast a replay can be. All three answer
the same reports, byte for byte (that is checked; with 0 rounds, only that). A time is the median, over the rounds, of user and system
time by that of another command in the same round; all run on one processor. Instructions and misses of a last level of cache of 1 MiB,
by the rows, are those of one run under valgrind's cachegrind, if there is valgrind, which no other work on the machine changes. Fewer
than 1,000,000 rows show too few misses: over 100,000 rows 40,000 flows have hardly begun to wait. The script bench/replay.sh builds all.
"""

from __future__ import annotations

import os
import re
import shutil
import statistics
import subprocess
import sys
from dataclasses import dataclass, field
from hashlib import sha256
from pathlib import Path
from tempfile import TemporaryDirectory

from loads import CONFIGS, write

PROCESSOR = 2
MIB = 1024
HEAD = (
    "| Load | Over the limit: dummynet, plain Rust | MiB: dummynet, plain Rust, the limit | With a history, over plain Rust | "
    "The audit over the replay | Instructions a row: dummynet, plain Rust, the limit | Misses a row |\n|---|---|---|---|---|---|---|"
)
CACHES = ("--I1=32768,8,64", "--D1=32768,8,64", "--LL=1048576,16,64")
COUNTED = ["valgrind", "--tool=cachegrind", "--cache-sim=yes", *CACHES, "--cachegrind-out-file=/dev/null"]


@dataclass
class Form:
    """A command, and what its runs took: seconds of user and system time, and KiB of memory."""

    words: list[str]
    seconds: list[float] = field(default_factory=list)
    memory: int = 0

    def run(self) -> None:
        with subprocess.Popen(self.words, stdout=subprocess.DEVNULL) as child:
            _, status, used = os.wait4(child.pid, 0)
            child.returncode = os.waitstatus_to_exitcode(status)
        if child.returncode != 0:
            sys.exit(f"{' '.join(self.words)}: status {child.returncode}")
        self.seconds.append(used.ru_utime + used.ru_stime)
        self.memory = max(self.memory, used.ru_maxrss)

    def over(self, other: Form) -> str:
        return f"{statistics.median(own / its for own, its in zip(self.seconds, other.seconds, strict=True)):.2f}"

    def counts(self, rows: int) -> tuple[str, str]:
        """Returns the instructions and the misses a row."""
        each = counts(self.words)
        return f"{each['I refs'] / rows:,.0f}", f"{each['LLd misses'] / rows:.1f}"


def counts(words: list[str]) -> dict[str, int]:
    """What cachegrind counts of a command, by its names, such as `I refs` and `LLd misses`."""
    told = subprocess.run([*COUNTED, *words], stdout=subprocess.DEVNULL, stderr=subprocess.PIPE, text=True, check=True).stderr
    found = re.findall(r"== (\w+) +(refs|misses): +([\d,]+)", told)
    return {f"{of} {what}": int(count.replace(",", "")) for of, what, count in found}


def report(words: list[str]) -> str:
    """The checksum of what a command writes. It isn't kept, since a child's memory is counted from that of its parent on."""
    found = sha256()
    with subprocess.Popen(words, stdout=subprocess.PIPE) as child:
        for part in iter(lambda: child.stdout.read(1 << 16) if child.stdout else b"", b""):
            found.update(part)
    if child.returncode != 0:
        sys.exit(f"{' '.join(words)}: status {child.returncode}")
    return found.hexdigest()


def row_of(load: str, programs: list[str], rounds: int, rows: int) -> str:
    with TemporaryDirectory() as name:
        files = ["replay", *map(str, write(load, rows, Path(name)))]
        history = ["--history", f"{name}/history"]
        ours, twin, limit = replays = [Form([program, *files[program == programs[2] :]]) for program in programs]
        ours_kept, twin_kept = (Form([program, *files, *history]) for program in programs[:2])
        audit = Form([programs[0], "audit", history[1]])
        if len({report(form.words) for form in replays}) > 1:
            sys.exit(f"{load}: the reports differ")
        if not rounds:
            return f"| {load} | equal reports |"
        for _ in range(rounds):
            for form in (twin, ours, limit, twin_kept, ours_kept, audit):
                form.run()
        times = f"{ours.over(limit)}, {twin.over(limit)}", ", ".join(f"{form.memory / MIB:.0f}" for form in replays)
        counted = zip(*(form.counts(rows) for form in replays)) if shutil.which("valgrind") else ()
        return f"| {' | '.join([load, *times, ours_kept.over(twin_kept), audit.over(ours), *map(', '.join, counted)])} |"


def main(program: str, twin: str, limit: str, rounds: str = "9", rows: str = "1000000", *loads: str) -> None:
    os.sched_setaffinity(0, {PROCESSOR})
    print(HEAD)
    for load in loads or CONFIGS:
        print(row_of(load, [program, twin, limit], int(rounds), int(rows)), flush=True)


if __name__ == "__main__":
    main(*sys.argv[1:])
