"""The formats of configurations, joined inputs, packet files, reports and faults according to docs/FILES.md."""

from collections import Counter
from typing import Iterable, Optional, TypeVar

from config_lines import LineFault, parse_line, read_number
from csv_bytes import read_records
import model

PACKET_HEADER = "moment,target,number,src,dst,proto,sport,dport,len,word"
REPORT_HEADER = "event,row,flow,packet,at,start,due"
EVENTS = {model.Queued: "held", model.Lost: "lost", model.Full: "full", model.NoTarget: "none"}  # of packets that didn't leave
VALUE = TypeVar("VALUE")
CALL_WIDTHS = {b"configure": 4, b"submit": 13, b"advance": 4, b"collect": 4, b"show": 3}
LIMITS = {"config": 1_048_576, "packets": 67_108_864, "input": 67_108_864, "history": 268_435_456}


class ReplayFault(Exception):
    """Raised with a fault's line and the program's status."""

    def __init__(self, line: str, status: int) -> None:
        super().__init__(line)
        self.line = line
        self.status = status


def refused_line(line: int, reply: model.Bare) -> ReplayFault:
    return ReplayFault(f"config line {line}: {reply.value.replace('-', ' ')}", 3)


def bad_row(row: int, field: int) -> ReplayFault:
    return ReplayFault(f"packet row {row}, field {field}: bad", 4)


# ---- Configuration -----------------------------------------------------------------------------------------------


def split_lines(data: bytes) -> list[bytes]:
    """Splits at line feeds; a last line without one counts if it isn't empty."""
    lines = data.split(b"\n")
    return lines[:-1] if lines[-1] == b"" else lines


def read_line(number: int, line: bytes) -> Optional[model.Command]:
    """Returns the command of a line, decoded as text and then parsed."""
    text = text_of(line)
    if text is None:
        raise ReplayFault(f"config line {number}: not UTF-8", 3)
    try:
        return parse_line(text)
    except LineFault as fault:
        raise ReplayFault(f"config line {number}, word {fault.word}: {fault.kind}", 3) from None


def split_joined(data: bytes) -> tuple[bytes, bytes]:
    """Returns configuration and packet file, without the first line that is `--`.

    A carriage return may precede its line feed, so `--` and a carriage return at the very end don't form such a line.
    """
    at = 0
    while at < len(data):
        end = data.find(b"\n", at)
        line = data[at:] if end < 0 else data[at:end]
        if line == b"--" or (line == b"--\r" and end >= 0):
            return data[:at], b"" if end < 0 else data[end + 1 :]
        if end < 0:
            break
        at = end + 1
    return data, b""


# ---- Fields ------------------------------------------------------------------------------------------------------


def text_of(field: bytes) -> Optional[str]:
    try:
        return field.decode("utf-8")
    except UnicodeDecodeError:
        return None


def number_of(field: bytes, low: int, high: int) -> Optional[int]:
    text = text_of(field)
    value = None if text is None else read_number(text)
    return value if value is not None and low <= value <= high else None


def address_of(field: bytes) -> Optional[int]:
    parts = [number_of(part, 0, 255) for part in field.split(b".")]
    if len(parts) != 4 or None in parts:
        return None
    return sum(part << shift for part, shift in zip(parts, (24, 16, 8, 0)))


def kind_of(field: bytes) -> Optional[str]:
    return {b"pipe": "pipe", b"queue": "queue"}.get(field)


class BadField(Exception):
    """Raised with the place of the first bad field, from 1, or 0, and the reason."""

    def __init__(self, field: int, cause: str = "bad field") -> None:
        super().__init__(field, cause)
        self.field, self.cause = field, cause


class Record:
    """The fields of a record, counted from 1."""

    def __init__(self, fields: list[bytes]) -> None:
        self.fields = fields

    def field(self, place: int) -> bytes:
        return self.fields[place - 1] if place <= len(self.fields) else b""

    def known(self, place: int, value: Optional[VALUE]) -> VALUE:
        if value is None:
            raise BadField(place)
        return value

    def number(self, place: int, low: int = 0, high: int = model.MAX_U64) -> int:
        return self.known(place, number_of(self.field(place), low, high))

    def numbers(self, first: int) -> list[int]:
        """Returns the numbers in all fields from a place on."""
        return [self.number(place) for place in range(first, len(self.fields) + 1)]

    def target(self, place: int) -> model.Target:
        kind = self.known(place, kind_of(self.field(place)))
        return model.Target(kind, self.number(place + 1, 1, model.MAX_NUMBER))

    def five(self, place: int) -> model.FiveTuple:
        src, dst = (self.known(at, address_of(self.field(at))) for at in (place, place + 1))
        ends = (self.number(at, 0, high) for at, high in enumerate((255, 65535, 65535), place + 2))
        return model.FiveTuple(src, dst, *ends)

    def packet(self, place: int) -> model.Packet:
        five = self.five(place)
        return model.Packet(five, self.number(place + 5, 1, model.MAX_LEN), self.number(place + 6, 0, 2**32 - 1))


def call_of(fields: list[bytes]) -> tuple[int, model.Call]:
    """Returns the call of a record, with its caller."""
    record = Record(fields)
    caller = record.number(2, 0, model.MAX_CALLERS - 1)
    name = record.field(3)
    if CALL_WIDTHS.get(name) != len(fields):
        raise BadField(3)
    if name == b"configure":
        command = command_of(record.field(4), 4)
        if command is None:
            raise BadField(4, "no command")
        return caller, model.Configure(command)
    if name == b"show":
        return caller, model.Show()
    if name == b"submit":
        return caller, model.Submit(record.target(4), record.packet(6), record.number(13, 0, model.MAX_MOMENT))
    return caller, (model.Advance if name == b"advance" else model.Collect)(record.number(4, 0, model.MAX_MOMENT))


def command_of(line: bytes, field: int) -> Optional[model.Command]:
    text = text_of(line)
    if text is None:
        raise BadField(field, "not UTF-8")
    try:
        return parse_line(text)
    except LineFault as fault:
        raise BadField(field, f"word {fault.word}: {fault.kind}") from None


# ---- Packet file -------------------------------------------------------------------------------------------------


def read_packets(data: bytes) -> list[model.Submit]:
    records = read_records(data)
    if not records:
        return []
    if records[0] != PACKET_HEADER.encode().split(b","):
        raise bad_row(0, 0)
    return [read_row(number, record) for number, record in enumerate(records[1:], 1)]


def read_row(row: int, fields: list[bytes]) -> model.Submit:
    if len(fields) != 10:
        raise bad_row(row, 0)
    record = Record(fields)
    try:
        moment = record.number(1, 0, model.MAX_MOMENT)
        return model.Submit(record.target(2), record.packet(4), moment)
    except BadField as bad:
        raise bad_row(row, bad.field) from None


# ---- Report ------------------------------------------------------------------------------------------------------


def other_line(row: int, r: model.Reply) -> str:
    """Returns the line of a packet that didn't leave."""
    return f"{EVENTS[type(r)]},{row},{getattr(r, 'flow', '')},{getattr(r, 'packet', '')},{r.at},,"


def report(history: Iterable[model.Entry], callers: int = 1) -> str:
    """The packets that left in the order in which they did, and then the others by row. The j-th Submit of caller k is row k + j * callers + 1, with j from 0."""
    history = list(history)
    out: dict[int, model.Delivery] = {d.packet: d for e in history if isinstance(e.reply, model.Delivered) for d in e.reply.list}
    submits: Counter[int] = Counter()
    out_lines: list[tuple[int, int, str]] = []
    other_lines: list[tuple[int, str]] = []
    for e in history:
        if not isinstance(e.call, model.Submit):
            continue
        row, r = e.caller + submits[e.caller] * callers + 1, e.reply
        submits[e.caller] += 1
        if isinstance(r, model.Queued) and r.packet in out:
            d = out[r.packet]
            out_lines.append((d.due, d.packet, f"out,{row},{r.flow},{r.packet},{r.at},{d.start},{d.due}"))
        else:
            other_lines.append((row, other_line(row, r)))
    lines = [REPORT_HEADER] + [line for _, _, line in sorted(out_lines)] + [line for _, line in sorted(other_lines)]
    return "".join(line + "\n" for line in lines)
