"""Sixteen threads make 10^6 calls over one link, one of them writes the history to a file as they go, and memory stays flat.

    python3 tools/gate/senders.py PROGRAM

The program of crates/many_senders makes 10^5 calls and then 10^6. After each run PROGRAM audits the file, and the entries of each
caller are counted. The ten times longer run may need a quarter of its history as extra memory: retained entries would need
about all of it. The functions that docs/EMBEDDING.md shows first are the program's.
"""

import os
import re
import subprocess
import sys
import time
from collections import Counter
from pathlib import Path

from tally import TOP, Tally, judge

CRATE = TOP / "crates" / "many_senders"
SENDERS = CRATE / "out" / "many_senders"
THREADS = 16
FEWER, MANY = 100_000, 1_000_000
# The part of its history that the longer run may have more in memory: how many entries wait to be written depends on the schedule.
MORE = 0.25
# What an audit reads at most if it isn't told otherwise, in bytes.
HISTORY_LIMIT = 2**28


def entries_of(history: Path) -> Counter[int]:
    """Returns the number of entries of each caller."""
    with open(history, "rb") as lines:
        return Counter(int(line.split(b",", 2)[1]) for line in lines if line.startswith(b"c,"))


def verdict(program: str, history: Path) -> tuple[int, str]:
    """Returns the status and the line of an audit."""
    size = history.stat().st_size
    most = ["--most-history", str(size)] if size > HISTORY_LIMIT else []
    done = subprocess.run([program, "audit", *most, history], capture_output=True, text=True)
    return done.returncode, done.stdout


def peak(words: list[str], folder: Path) -> float:
    """Returns the command's maximum memory in MiB, read from the system until it ends."""
    with subprocess.Popen(words, cwd=folder, stdout=subprocess.DEVNULL) as child:
        most, status = 0, Path(f"/proc/{child.pid}/status")
        while child.poll() is None:
            found = re.search(r"VmHWM:\s+(\d+) kB", status.read_text())
            most = max(most, int(found[1]) if found else 0)
            time.sleep(0.005)
    if child.returncode != 0:
        sys.exit(f"{' '.join(words)}: status {child.returncode}")
    return most / 1024


def run(tally: Tally, program: str, calls: int, folder: Path) -> float:
    """Makes so many calls, looks at the history, and gives the most MiB that were in memory."""
    history = folder / "history"
    taken = peak([str(SENDERS), str(calls), str(history)], folder)
    rounds = calls // THREADS
    # The last caller also configures the pipe.
    tally.equal(f"entries of {calls} calls", {k: rounds + (k == THREADS - 1) for k in range(THREADS)}, dict(entries_of(history)))
    tally.equal(f"audit of {calls} calls", (0, f"lawful {rounds * THREADS + 1}\n"), verdict(program, history))
    print(
        f"{calls} calls by {THREADS} threads: a history of {history.stat().st_size >> 20} MiB, and {taken:.1f} MiB in memory",
        flush=True,
    )
    return taken


def missing() -> list[str]:
    """The functions of the first example in docs/EMBEDDING.md that aren't in the program, by their first lines."""
    sources = "\n\n".join(path.read_text() for path in CRATE.glob("src/*.rt"))
    block = (TOP / "docs" / "EMBEDDING.md").read_text().split("```rust\n")[1].split("```")[0]
    return [shown.splitlines()[0] for shown in block.strip().split("\n\n") if f"\n\n{shown}\n" not in sources]


def main(tally: Tally, program: str) -> None:
    tally.equal("the first example in docs/EMBEDDING.md", [], missing())
    if not SENDERS.exists():
        tally.note("the program", f"{SENDERS} isn't built")
        return
    fewer, many = [run(tally, os.path.abspath(program), calls, tally.place) for calls in (FEWER, MANY)]
    more = MORE * (tally.place / "history").stat().st_size / 2**20
    tally.note("flat memory", "" if many <= fewer + more else f"{fewer:.1f} MiB for {FEWER} calls, and {many:.1f} MiB for {MANY}")


if __name__ == "__main__":
    judge(main)
