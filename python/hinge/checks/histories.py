"""Histories and transcripts of live sessions: the first malformed record, or the first reply that differs from the emulator's."""

from __future__ import annotations

import io
import re
from itertools import islice
from typing import Iterator

from hinge.checks.findings import Findings
from hinge.command import ROWS
from hinge.program import asked_of_dummynet

DIFFERS = 1  # the exit status of an audit that finds another reply
SHOWN = 80  # the letters of a record that messages show


class HistoryRecords:
    """The records of a history with their lines. Empty lines and the remarks of a transcript don't count."""

    def __init__(self, data: bytes) -> None:
        self.data = data
        self.is_live = data.startswith(b"dummynet-live,")
        self.is_whole = data.endswith((b"\n", b"\r"))

    def __iter__(self) -> Iterator[tuple[int, str]]:
        """Yields each record with its line's number. Reads the records anew each time, so that they need no memory."""
        for number, line in enumerate(io.TextIOWrapper(io.BytesIO(self.data), "utf-8", "replace"), 1):
            if line != "\n" and not (self.is_live and line.startswith("#")):
                yield number, line.removesuffix("\n")

    def calls(self) -> Iterator[str]:
        return (line for _, line in self if line.startswith("c,"))

    def right_reply(self, count: int) -> str:
        """Returns the emulator's reply to the last call; empty for a live session under version 3's rule, which can't be asked."""
        if not re.match(rb"dummynet-history,3|dummynet-live,", self.data):
            return ""
        items = "".join(f"{call}\n" for call in islice(self.calls(), count))
        answer = asked_of_dummynet("live", data=items.encode()).text.splitlines()
        return next((line for line in reversed(answer) if line.startswith("r,")), "")


def bad_record(name: str, records: HistoryRecords, number: int) -> tuple[str, str]:
    """Returns the place of a record that the audit refuses, and the reason."""
    before = ""  # the record before
    line, text = 0, ""  # the record itself
    last = 1  # the last record's line
    for place, (last, record) in enumerate(records, 1):
        if place < number:
            before = record
        elif place == number:
            line, text = last, record
    if not line:
        return f"{name}:{last}", "the history was cut: behind this record it has no `end`; the session was killed, or still goes on"
    why = ": not a record here; the file was edited"
    if before.startswith("end,"):
        why = " stands behind the end; keep one session a file"
    elif text.startswith("end,"):
        why = f": there are {sum(1 for _ in records.calls())} entries, or the last has no reply; records were taken away or added"
    elif line == last and not records.is_whole:
        why = ": the history was cut within this record; the session was killed, or still goes on"
    elif text.startswith("#"):
        why = ": a remark, which only the transcript of a live session has; leave it out, or begin the file with dummynet-live,1"
    return f"{name}:{line}", f"record {number} {text[:SHOWN]!r}{why}"


def other_reply(name: str, records: HistoryRecords, entry: int) -> tuple[str, str]:
    """Returns the place of a wrong reply, and the correct reply."""
    pairs = ((call, reply) for call, reply in zip(records, islice(records, 1, None)) if call[1].startswith("c,"))
    (_, call), (line, reply) = next(islice(pairs, entry, None))
    right = records.right_reply(entry + 1)
    text = f"{reply[:SHOWN]!r} isn't the emulator's reply to {call[:SHOWN]!r} (entry {entry})"
    if right == reply:
        text = f"{text}: an item below it differs"
    elif right:
        text = f"{text}; that is {right!r}"
    return f"{name}:{line}", text


def check_history(name: str, path: str, data: bytes, findings: Findings) -> None:
    """Reports the first fault that the program's audit finds in a history, with its place and reason."""
    audit = asked_of_dummynet("audit", path)
    records = HistoryRecords(data)
    bad = re.fullmatch(r"history record (\d+): bad", audit.told)
    differs = re.fullmatch(r"differs (\d+)", audit.text.strip())
    if bad:
        findings.fault(*bad_record(name, records, int(bad[1])), ROWS)
    elif differs:
        findings.fault(*other_reply(name, records, int(differs[1])), DIFFERS)
    elif audit.status:
        findings.fault(name, audit.told, audit.status)
