"""Threads' plain calls enter the history in real-time order: no call precedes a call that had returned before it began.

    python3 tools/gate/order.py

rt_order.c makes the calls through the C library of the present sources and prints each with the clock before and after it, in the history's
order. Threads yield, so that the caller changes often: where it seldom does, little is shown, and more rounds are made. The look itself is tried on
the same calls with one of them moved behind those that began after it returned.

The history has no such law (docs/TRUST.md): this is a test of it.
"""

import subprocess
from collections.abc import Sequence
from pathlib import Path
from typing import NamedTuple

from c_library import HEADER, library
from tally import Tally, judge

SOURCE = Path(__file__).resolve().parent / "rt_order.c"
THREADS, CALLS = (2, 4, 8, 15), 4_000
LEAST_CHANGES, MOST_ROUNDS = 1_000, 20  # of the caller, in all histories, and rounds of all threads until then


class Made(NamedTuple):
    """A call: its caller, and the clock before and after it, in ns."""

    caller: int
    begun: int
    ended: int


def inversions(calls: Sequence[Made]) -> int:
    """Returns the number of calls that precede, in the history, a call that had ended before they began."""
    latest, found = 0, 0
    for call in calls:
        found += call.ended < latest
        latest = max(latest, call.begun)
    return found


def moved(calls: Sequence[Made]) -> list[Made]:
    """Returns the calls with the first one moved after one that began after it returned."""
    place = next(place for place, call in enumerate(calls) if call.begun > calls[0].ended)
    return [*calls[1 : place + 1], calls[0], *calls[place + 1 :]]


def look(tally: Tally, made: Path, threads: int) -> int:
    """Makes a history by so many threads, and looks at its order; returns how often the caller changes."""
    done = subprocess.run([made, str(threads), str(CALLS)], stdout=subprocess.PIPE, text=True)
    calls = [Made(*map(int, line.split())) for line in done.stdout.splitlines()]
    tally.equal(f"{threads} threads: status and calls", (0, threads * CALLS), (done.returncode, len(calls)))
    changes = sum(one.caller != other.caller for one, other in zip(calls, calls[1:]))
    print(f"{threads} threads: {len(calls)} calls, the caller changes {changes} times", flush=True)
    tally.equal(f"{threads} threads: calls that stand before earlier ones", 0, inversions(calls))
    tally.note(f"{threads} threads: a call that was moved", "" if calls and inversions(moved(calls)) else "isn't seen")
    return changes


def main(tally: Tally) -> None:
    made = tally.place / "rt_order"
    flags = ["-std=c99", "-O2", "-Wall", "-Wextra", "-Werror", "-pthread", f"-I{HEADER}"]
    subprocess.run(["gcc", *flags, "-o", made, SOURCE, library()], check=True)
    changes = rounds = 0
    while rounds < MOST_ROUNDS and changes < LEAST_CHANGES:
        changes = changes + sum(look(tally, made, threads) for threads in THREADS)
        rounds = rounds + 1
    tally.note("all threads", "" if changes >= LEAST_CHANGES else f"the caller changes {changes} times, so little is shown")


if __name__ == "__main__":
    judge(main)
