"""The last system calls and pauses of a machine's processes, in the order in which they began."""

from __future__ import annotations

from pathlib import Path
from typing import Iterator, NamedTuple

from hinge.simulated.calls_of_linux import call_name

CALLS = 50_000  # the number of a run's last calls that are kept
PAUSES, GOES_ON = -2, -3  # the kernel's numbers for the begin and the end of a pause, in place of a call's number
RESTARTED = range(-516, -511)  # the results of calls that a signal ended
AROUND = 3  # the number of calls that are shown before a pause, at its begin, at its end and after it


class CallRow(NamedTuple):
    """Describes a thread's system call, or the begin or end of a thread's pause."""

    at: int  # the begin, in ns of the machine's clock
    end: int  # the end; 0 if the call didn't return
    process: int
    thread: int
    call: int  # the call's number, PAUSES or GOES_ON
    of: int  # the call's first argument; for a pause, the number of the call at which the thread pauses
    result: int
    program: str

    def text(self, start: int) -> str:
        """Returns the row as text, with its moment in seconds after `start`, which is in ns."""
        thread = f", thread {self.thread}" if self.thread != self.process else ""
        seconds = max(0, self.at - start) / 1e9
        return f"{seconds:.9f} s: process {self.process}{thread} ({self.program}): {self.action()}"

    def action(self) -> str:
        """Returns a text on the call with its result, or on the pause."""
        if self.call == PAUSES:
            return f"pauses at {call_name(self.of)}"
        if self.call == GOES_ON:
            return "goes on"
        if not self.end or self.result in RESTARTED:
            return call_name(self.call)
        number = self.result if abs(self.result) < 1 << 31 else f"{self.result & (1 << 64) - 1:#x}"
        return f"{call_name(self.call)} = {number}"


def call_row(line: str) -> CallRow:
    *numbers, program = line.split(" ", 7)
    at, end, process, thread, call, of, result = map(int, numbers)
    return CallRow(at, end, process, thread, call, of, result, program)


def call_rows(path: Path) -> "list[CallRow]":
    """Returns the rows in a machine's file; no rows if the machine was killed before it wrote the file."""
    return [call_row(line) for line in path.read_text(errors="replace").splitlines()] if path.exists() else []


def around(rows: "list[CallRow]", place: int, start: int) -> Iterator[str]:
    """Yields the calls around the pause in row `place`: earlier calls, other threads' first and last calls during the pause, and
    later calls. Moments count from `start`, in ns."""
    thread = rows[place].thread
    ends = (later for later in range(place + 1, len(rows)) if rows[later].thread == thread and rows[later].call == GOES_ON)
    end = next(ends, len(rows))
    omission = max(0, end - place - 1 - 2 * AROUND)
    first = min(place + AROUND + 1, end)
    for row in rows[max(0, place - AROUND) : first]:
        yield row.text(start)
    if omission:
        yield f"{omission:,} calls of others"
    for row in rows[first + omission : end + 1 + AROUND]:
        yield row.text(start)


def pauses_in(rows: "list[CallRow]") -> "list[int]":
    """Returns the numbers of the rows in which pauses begin."""
    return [place for place, row in enumerate(rows) if row.call == PAUSES]
