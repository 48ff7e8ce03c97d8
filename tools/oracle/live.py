"""The live session according to docs/FILES.md: its output and status for an input."""

from typing import Optional

from csv_bytes import read_records
from fast import FastDummynet
from files import BadField, call_of, command_of
from history import call_text, reply_lines
import model

LINE_LIMIT = 65_536


def asked_in(line: bytes) -> list[bytes]:
    """Returns the fields of a line's record for a call or for the next moment. A configuration line has none: it treats a carriage
    return as a blank, where a record would end."""
    records = read_records(line) if b'"' in line or b"\r" in line else [line.split(b",")]
    if not records or (records[0][0] != b"c" and records[0] != [b"next"]):
        return []
    if len(records) > 1:
        raise BadField(0, "not one record")
    return records[0]


def call_in(line: bytes, record: list[bytes]) -> Optional[tuple[int, model.Call]]:
    """Returns the call that a line requests, with its caller."""
    if record:
        return call_of(record)
    command = command_of(line, 1)
    return None if command is None else (0, model.Configure(command))


def answer(net: FastDummynet, line: bytes) -> list[str]:
    """The records that answer a line."""
    if line.startswith(b"#"):
        return []
    record = asked_in(line)
    if record == [b"next"]:
        moment = net.next_moment()
        return ["#,next" if moment is None else f"#,next,{moment}"]
    asked = call_in(line, record)
    return [] if asked is None else [call_text(*asked), *reply_lines(net.apply(asked[1]), 3)]


def session(data: bytes) -> tuple[list[str], int]:
    """Returns the output (a text for each input line, with those before and after) and the status."""
    net, calls, bad = FastDummynet(model.ORDERED), 0, 0
    *lines, tail = data.split(b"\n")
    written = ["dummynet-live,1\n"]
    for number, line in enumerate(lines, 1):
        try:
            records = answer(net, line)
        except BadField as fault:
            records, bad = [f"#,bad,{number},{fault.field},{fault.cause}"], bad + 1
        calls += any(record.startswith("c,") for record in records)
        written.append("".join(f"{record}\n" for record in records))
    behind = [f"#,bad,{len(lines) + 1},0,no line feed\n"] if tail else []
    return [*written, "".join([*behind, f"end,{calls}\n"])], 4 if bad or behind else 0
