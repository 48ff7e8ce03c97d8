"""The first difference between two histories, in a call or its reply, with the surrounding calls."""

from __future__ import annotations

import io
from collections import deque
from itertools import islice, zip_longest
from pathlib import Path
from typing import Any, Iterator, NamedTuple, Optional, Union

from hinge.arguments import is_number
from hinge.border.files import MOST_TABLE, lines_of, opened, untrusted
from hinge.command import ROWS, Fault

AROUND = 3  # the number of calls that are shown before the difference, and from there on
NS_PER_S = 10**9
FORMATS = ("dummynet-history,", "dummynet-live,")
TIMED = ("submit", "advance", "collect")  # the calls whose last field is a moment


class Entry(NamedTuple):
    """Describes a call in a history, with its reply."""

    number: int  # the call's number, from 1
    line: int  # the line of the call's record in the file
    row: Optional[int]  # the number of a submitted packet, from 1
    call: str
    reply: "tuple[str, ...]"  # the record of the reply, and the records of its items

    @property
    def moment(self) -> Optional[int]:
        """Returns the moment of the call in ns, if the call contains one."""
        fields = self.call.split(",")
        return int(fields[-1]) if fields[2:] and fields[2] in TIMED and is_number(fields[-1]) else None

    def known(self) -> dict[str, Any]:
        """Returns the call and its reply for JSON."""
        front = {"call": self.number, "line": self.line, "row": self.row, "moment_ns": self.moment}
        return {**front, "text": self.call, "reply": list(self.reply)}


def entries(path: Union[str, Path]) -> Iterator[Entry]:
    """Yields the calls of a history or a transcript, without remarks. Fault: the file is neither."""
    number = row = start = 0
    call, reply = "", list[str]()
    with untrusted(path), io.TextIOWrapper(opened(path, MOST_TABLE), "utf-8", "replace") as file:
        lines = lines_of(file)
        if not next(lines, "").startswith(FORMATS):
            raise Fault(f"{path}: neither a history nor a transcript", ROWS)
        for line, text in enumerate(lines, 2):
            record = text.rstrip("\r\n")
            if record[:2] == "c," or record[:4] == "end,":
                if call:
                    yield Entry(number, start, row if is_packet(call) else None, call, tuple(reply))
                call = record if record[0] == "c" else ""
                reply = []
                start = line
                if call:
                    number += 1
                if is_packet(call):
                    row += 1
            elif record and record[0] != "#":
                reply.append(record)
    if call:
        yield Entry(number, start, row if is_packet(call) else None, call, tuple(reply))


def is_packet(call: str) -> bool:
    return call.split(",", 3)[2:3] == ["submit"]


class Parting(NamedTuple):
    """The last common calls of two histories, and the first different call of each."""

    before: "list[Entry]"
    after: "tuple[list[Entry], list[Entry]]"

    @property
    def number(self) -> int:
        """Returns the number of the first call that differs."""
        return next(result[0].number for result in self.after if result)

    def reason(self) -> str:
        """Returns a description of the difference."""
        first, second = self.after
        if not first:
            return "the first ends before it"
        if not second:
            return "the second ends before it"
        return "the calls differ" if first[0].call != second[0].call else "its replies differ"

    def at(self) -> str:
        """Returns the moment of the first call that differs, as text; an empty text if neither call contains a moment."""
        moments = (entries_after[0].moment for entries_after in self.after if entries_after)
        moment = next((moment for moment in moments if moment is not None), None)
        return "" if moment is None else f", at {moment / NS_PER_S:.9f} s"

    def text(self) -> str:
        """Returns the calls around the difference: common calls, calls in the first history (-) and calls in the second (+)."""
        groups = ((" ", self.before), ("-", self.after[0]), ("+", self.after[1]))
        pairs = [(sign, entry) for sign, group in groups for entry in group]
        width = max(len(str(entry.number)) for _, entry in pairs)
        lines = []
        for sign, entry in pairs:
            row = "" if entry.row is None else f"  (row: {entry.row})"
            lines.append(f"{sign} {entry.number:>{width}}  {entry.call}{row}")
            lines += [f"{sign} {'':{width}}  {record}" for record in entry.reply]
        return "\n".join(lines)

    def known(self) -> dict[str, Any]:
        """Returns the difference for JSON; docs/CAPTURE.md describes its keys."""
        return {
            "call": self.number,
            "reason": self.reason(),
            "before": [entry.known() for entry in self.before],
            "after": [[entry.known() for entry in group] for group in self.after],
        }


def same(one: Optional[Entry], other: Optional[Entry]) -> bool:
    return one is not None and other is not None and (one.call, one.reply) == (other.call, other.reply)


def parting(one: Union[str, Path], other: Union[str, Path]) -> Optional[Parting]:
    """Returns the first difference of two histories, or None."""
    before: deque[Entry] = deque(maxlen=AROUND)
    first, second = entries(one), entries(other)
    for pair in zip_longest(first, second):
        if not same(*pair):
            ours, theirs = ([entry, *islice(rest, AROUND - 1)] if entry else [] for entry, rest in zip(pair, (first, second)))
            return Parting(list(before), (ours, theirs))
        before.append(pair[0])
    return None
