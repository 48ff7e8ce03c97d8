"""A packet file's rows: rows that the program refuses, and unlikely values in the other rows."""

from __future__ import annotations

import io
import re
from dataclasses import dataclass
from fractions import Fraction
from itertools import islice
from typing import Iterator, Optional

from hinge.arguments import is_number
from hinge.border.scratch import unnamed
from hinge.checks.findings import MOST_FAULTS, Findings
from hinge.command import ROWS
from hinge.configurations.configured import InForce, Setting
from hinge.border.programs import NOTHING, asked
from hinge.program import VERDICTS, dummynet
from hinge.replays.columns import Sums, read_sums
from hinge.replays.record_lines import BYTE_ORDER_MARK, Row, rows_of

HEADER = ["moment", "target", "number", "src", "dst", "proto", "sport", "dport", "len", "word"]
HEAD = ",".join(HEADER).encode()
ADDRESS = "four numbers 0 to 255, as 10.0.0.1"
PORT = "0 to 65535"
LIMITS = ("0 to 4611686018427387904", "pipe or queue", "1 to 65535", ADDRESS, ADDRESS, "0 to 255", PORT, PORT, "1 to 65535")
RANGES = dict(zip(HEADER, (*LIMITS, "0 to 4294967295")))
PROTOCOLS = {"icmp": 1, "igmp": 2, "tcp": 6, "udp": 17, "gre": 47, "esp": 50, "icmpv6": 58, "icmp6": 58, "sctp": 132}
LAST_MOMENT = 2**62
LOSS_PARTS = 2**31
LONGEST_FRAME = 9216  # bytes of the longest packet that a card sends without cutting it
FAR = 10**14  # ns; a first packet at a later moment is unlikely
NS_PER_DAY = 86_400 * 10**9
STRETCH = 10_000  # the most rows that are judged at once behind a bad row
STRETCH_LETTERS = 2**20  # a stretch with more letters gets no further rows


def of_moment(text: str) -> Optional[str]:
    if re.fullmatch(r"\d+\.\d*", text):
        return f"a moment is whole nanoseconds; write {int(Fraction(text) * 10**9)} if these are seconds"
    if text.startswith("-"):
        return "a moment can't be negative; count from the first packet"
    if re.match(r"\d{4}-\d\d-\d\d|\d+:\d\d", text):
        return "a date; write nanoseconds from the first packet"
    if text.isascii() and text.isdecimal() and (not is_number(text) or int(text) > LAST_MOMENT):
        return f"beyond the last moment, {LAST_MOMENT}; count from the first packet"
    return None


def of_address(text: str) -> str:
    if text.count(":") > 1:
        return "IPv6, which packet files don't have; `hinge packets` writes an address of 240.0.0.0/4 for each"
    match = re.fullmatch(r"(\d+\.\d+\.\d+\.\d+)[:/](\d+)", text)
    if match:
        return f"an address alone; write {match[1]}"
    return "not an IPv4 address, or with leading zeros; write it as 10.0.0.1"


def of_number(name: str, text: str) -> Optional[str]:
    match = re.fullmatch(r"0+(\d+)", text)
    if match:
        return f"leading zeros aren't taken; write {match[1]}"
    if re.fullmatch(r"0[xX][0-9a-fA-F]+", text):
        return f"hexadecimal isn't taken; write {int(text, 16)}"
    if name == "word" and re.fullmatch(r"0?\.\d+", text):
        return f"a word is a whole number; write {int(Fraction(text) * 2**32)} for this fraction of 2^32"
    return None


def field_advice(name: str, text: str) -> str:
    """Returns the error and the advice for a field."""
    bare = text.strip()
    if bare and bare != text:
        return f"blanks round a field aren't taken; write {bare}"
    if text == "":
        return "empty; write 0" if name in ("sport", "dport", "proto") else f"empty; write {RANGES[name]}"
    if name == "target":
        if text.lower() in ("pipe", "queue"):
            return f"keywords are lower case; write {text.lower()}"
        return "write pipe or queue, and its number in the next field"
    if name in ("src", "dst"):
        return of_address(text)
    if name == "proto" and text.lower() in PROTOCOLS:
        return f"a protocol is its number; write {PROTOCOLS[text.lower()]}"
    if name == "len" and text == "0":
        return "a packet has 1 byte at least; write its IP length"
    of_kind = of_moment(text) if name == "moment" else None
    return of_kind or of_number(name, text) or f"write {RANGES[name]}"


def separator(text: str) -> Optional[str]:
    """Returns the separator in a record without commas, if any."""
    return next((mark for mark in ";\t|" if text.count(mark) >= len(HEADER) - 2), None)


def wrong(record: Row, field_number: int) -> str:
    """Returns the error of a row. `field_number` is the field that the program names, or 0 for the whole row."""
    if field_number:
        name, text = HEADER[field_number - 1], record.fields[field_number - 1]
        return f"field {field_number} ({name}) {text!r}: {field_advice(name, text)}"
    other = separator(record.text)
    what = f"commas for {other!r}" if other else ",".join(HEADER)
    return f"{len(record.fields)} fields in place of {len(HEADER)}; write {what}"


def wrong_header(text: str) -> str:
    other = separator(text)
    if other:
        what = f"fields are parted by commas, not by {other!r}"
    elif text[:1].isdigit():
        what = "no header"
    else:
        what = f"another header, {text[:60]!r}"
    return f"{what}; write {','.join(HEADER)}"


def verdict(text: bytes) -> tuple[int, str]:
    """Returns the program's exit status for a packet file, and the program's message about the first fault."""
    answer = asked([dummynet(), "replay", "/dev/null", "/dev/stdin"], text, VERDICTS, NOTHING)
    return answer.status, answer.told


def look_ahead(ahead: list[Row], rows: Iterator[Row]) -> None:
    """Adds the next rows to `ahead`: at most STRETCH rows, and fewer if they are long, since each row keeps its fields in
    memory."""
    letters = sum(len(row.text) for row in ahead)
    while len(ahead) < STRETCH and letters <= STRETCH_LETTERS:
        row = next(rows, None)
        if row is None:
            return
        ahead.append(row)
        letters += len(row.text)


@dataclass
class RowCheck:
    """Checks one packet file, which begins in line `line` of the file `name`."""

    name: str
    data: bytes
    found: Findings
    config: str = ""
    in_force: Optional[InForce] = None
    line: int = 1

    def check(self) -> None:
        self.data = self.data.removeprefix(BYTE_ORDER_MARK if self.line == 1 else b"")
        header = next(self.rows(0), None)
        if header is None:
            self.found.warn(self.name, "it has no rows")
        elif header.fields != HEADER:
            self.found.fault(f"{self.name}:{header.line}", wrong_header(header.text.rstrip("\r\n")), ROWS)
            if separator(header.text) is None:
                self.put_header(header)
                self.judge()
        elif self.judge():
            self.warn()

    def put_header(self, other: Row) -> None:
        """Writes the correct header in place of a wrong header, or above the first row."""
        lines = other.text.encode().splitlines()
        count = 1
        if lines[0][:1].isalpha():
            count += other.line - self.line + len(lines)
        rest = re.split(rb"\r\n?|\n", b"\n" + self.data, count)[count:]
        self.data = b"\n".join([HEAD, *rest])
        self.line = self.line + count - 2

    def rows(self, begin: int = 1) -> Iterator[Row]:
        return islice(rows_of(io.BytesIO(self.data), self.line, "utf-8"), begin, None)

    def judge(self) -> bool:
        """Reports the rows that the program refuses; returns whether there are none."""
        text = self.data  # what the program judges: first all rows, then the rows in `ahead`, behind the last bad row
        rows = self.rows()
        ahead = list[Row]()
        reports = 0
        while reports < MOST_FAULTS:
            status, fault = verdict(text)
            if place := re.fullmatch(r"packet row (\d+), field (\d+): bad", fault):
                number = int(place[1])
                bad = ahead[number - 1] if ahead else next(islice(rows, number - 1, None))
                self.found.fault(f"{self.name}:{bad.line}", wrong(bad, int(place[2])), ROWS)
                reports += 1
                del ahead[:number], bad
            elif status:
                if "too long" in fault:
                    fault += "; `dummynet replay --most-packets BYTES` replays longer ones"
                self.found.fault(self.name, fault, status)
                return False
            else:
                ahead.clear()
            if reports:
                look_ahead(ahead, rows)
            if not ahead:
                return not reports
            text = b"\n".join([HEAD, "".join(row.text for row in ahead).encode()])
        self.found.warn(self.name, f"{MOST_FAULTS} faults; the rows behind them weren't looked at")
        return False

    def warn(self) -> None:
        with unnamed() as (copy, path):
            copy.write(self.data)
            copy.flush()
            sums = read_sums(path)
        if not sums.rows:
            self.found.warn(self.name, "it has no rows")
            return
        self.warn_of_moments(sums)
        if sums.longest > LONGEST_FRAME:
            what = "segments that a card was still to cut? (`hinge packets --mtu 1500`)"
            self.found.warn(self.name, f"packets of up to {sums.longest} bytes: {what}")
        if self.in_force is not None:
            self.warn_of_targets(sums, self.in_force)
            self.warn_of_words(sums, self.in_force)

    def warn_of_moments(self, sums: Sums) -> None:
        count = sums.rows
        span = sums.clock - sums.first_moment
        if sums.late:
            what = "have a moment before that of a row above, and count as sent at that one's; sort the rows by moment"
            self.found.warn(f"{self.name}:{self.line - 1 + sums.late_line}", f"{sums.late} of {count} rows {what}")
        if count >= 100 and span < 100 * count:
            self.found.warn(self.name, f"{count} packets within {span} ns; moments are nanoseconds (1 s is 1000000000)")
        if sums.first_moment > FAR:
            days = f"{sums.first_moment // NS_PER_DAY} days after the start; count from the first packet"
            self.found.warn(self.name, f"the first packet is sent at {sums.first_moment} ns, {days}")

    def warn_of_targets(self, sums: Sums, force: InForce) -> None:
        numbers = {"pipe": set(force.pipes), "queue": set(force.queues)}
        unknown = [target for target in sums.targets if target.number not in numbers[target.kind]]
        none = "; NO row has a target" if len(unknown) == len(sums.targets) else ""
        for target in unknown[:MOST_FAULTS]:
            what = f"go to {target.kind} {target.number}, which {self.config} doesn't configure{none}"
            self.found.warn(f"{self.name}:{self.line - 1 + target.line}", f"{target.rows} of {sums.rows} rows {what}")

    def warn_of_words(self, sums: Sums, force: InForce) -> None:
        settings: list[Setting] = [*force.pipes.values(), *force.queues.values()]
        rates = [setting.loss for setting in settings if setting.loss]
        if rates and sums.rows > 1 and not sums.differ:
            fate = "lost" if sums.word % LOSS_PARTS < max(rates) else "not lost"
            why = f"each word is {sums.word}, so under a loss rate all packets have one fate ({fate})"
            self.found.warn(self.name, f"{why}; draw each word anew")
