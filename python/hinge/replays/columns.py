"""Packet files, reports, histories and indexes as columns of numbers. The program hinge-packets reads these files;
hosts/packets/columns.h describes the program's answers."""

from __future__ import annotations

import os
from contextlib import contextmanager
from dataclasses import dataclass
from itertools import islice
from typing import Any, BinaryIO, Callable, Iterable, Iterator, NamedTuple, Optional, Sequence, TypeVar, Union, cast, overload

from hinge.border.files import LONGEST_LINE, MOST_TABLE, Exceeded, opened, read_again, untrusted
from hinge.border.programs import PIPE, Process, begun, how_ended
from hinge.border.scratch import memory, unnamed
from hinge.command import FILES, ROWS, Fault, working
from hinge.lazy import Integers, few as np
from hinge.program import packets_program
from hinge.replays.record_lines import FieldCheck, is_address, number_to, without_quotes, wrong_row

GREATEST = 2**63 - 1  # the greatest number of 63 bits
# the exit statuses of hinge-packets
QUOTED = 3
FAULT = 4
SYSTEM = (5, 6)
BAD_HEADER = 8
BAD_ROW = 9
TOO_LONG = 10
EVENTS = NONE, FULL, LOST, HELD, OUT = range(5)
EVENT_NAMES = ("none", "full", "lost", "held", "out")
KINDS = ("pipe", "queue")
LAST_OF_LINKS = 60_000  # the last number of a link's pipe; a host passes packets again to pipes with greater numbers
Item = TypeVar("Item")
Widths = dict[str, str]  # numpy's name for the type of each column's numbers
NUMBER = number_to(GREATEST)
NUMBER_OR_EMPTY = number_to(GREATEST, may_be_empty=True)
PACKET_FIELDS: dict[str, FieldCheck] = {
    **{"moment": NUMBER, "target": lambda text: text in KINDS, "number": NUMBER, "src": is_address, "dst": is_address},
    **{"proto": number_to(255), "sport": number_to(65535), "dport": number_to(65535)},
    **{"len": NUMBER, "word": number_to(2**32 - 1)},
}
REPORT_FIELDS: dict[str, FieldCheck] = {
    **{"event": lambda text: text in EVENT_NAMES, "row": NUMBER, "flow": number_to(2**31 - 1, True), "packet": NUMBER_OR_EMPTY},
    **{"at": NUMBER, "start": NUMBER_OR_EMPTY, "due": NUMBER_OR_EMPTY},
}
INDEX_FIELDS: dict[str, FieldCheck] = {"row": NUMBER, "frame": NUMBER}
PACKET_COLUMNS: Widths = {"moment": "i8", "length": "i8", "target": "i4", "five_tuple": "i4", "word": "u4"}
REPORT_COLUMNS: Widths = {"event": "i1", "flow": "i4", "packet": "i8", "at": "i8", "start": "i8", "due": "i8"}
HISTORY_COLUMNS: Widths = {
    **{"at": "i8", "start": "i8", "due": "i8", "packet": "i8", "length": "i8"},
    **{"flow": "i4", "target": "i4", "five_tuple": "i4", "word": "u4", "event": "i1", "submitted": "i8", "handed": "i8"},
}
NET_COLUMNS: Widths = {**HISTORY_COLUMNS, **{"content": "i8", "line": "i8", "last": "i1", "flooded": "i1"}}


class Lazily(Sequence[Item]):
    """A sequence whose items are created on access."""

    def __init__(self, size: int, item: Callable[[int], Item]) -> None:
        self.size = size
        self.item = item

    def __len__(self) -> int:
        return self.size

    @overload
    def __getitem__(self, place: int) -> Item:
        ...

    @overload
    def __getitem__(self, place: slice) -> Sequence[Item]:
        ...

    def __getitem__(self, place: Union[int, slice]) -> Union[Item, Sequence[Item]]:
        if isinstance(place, slice):
            return [self.item(number) for number in range(self.size)[place]]
        return self.item(range(self.size)[place])


class ReaderReply:
    """Reads the answer of hinge-packets about a file. `refuse` raises the fault for an exit status and an error text."""

    def __init__(self, program: "Process[bytes]", refuse: Callable[[int, str], object]) -> None:
        self.program = program
        self.refuse = refuse

    def fill(self, space: memoryview) -> None:
        """Fills the space with the next bytes of the answer. If the answer ended before, refuses with the program's error."""
        if cast(Any, self.program.stdout).readinto(space) < len(space):
            text = cast(BinaryIO, self.program.stderr).read().decode(errors="replace")
            self.refuse(self.program.wait(), text)

    def bytes(self, size: int) -> memoryview:
        data = memory(size)
        self.fill(data)
        return data

    def numbers(self, count: int) -> memoryview:
        return self.bytes(8 * count).cast("q")

    def columns(self, count: int, widths: Widths) -> dict[str, Integers]:
        return {name: np.frombuffer(self.bytes(count * int(width[1])), width) for name, width in widths.items()}

    def targets(self, count: int) -> list[tuple[str, int]]:
        return [(KINDS[item & 1], item >> 1) for item in self.numbers(count)]


class Quoted(Exception):
    """Raised if a file contains quotes, which the program doesn't read: `read_columns` then passes a copy without quotes."""


@contextmanager
def asked(source: BinaryIO, words: Iterable[str], refuse: Callable[[int, str], object]) -> Iterator[ReaderReply]:
    """Yields the program's answer about a file. Calls `refuse` if the caller read the whole answer, and the program failed."""
    large = {**os.environ, "GLIBC_TUNABLES": "glibc.malloc.hugetlb=1"}  # pages, with which long tables are read faster
    with begun([packets_program(), "columns", *words], stdin=source, stdout=PIPE, stderr=PIPE, env=large) as program:
        try:
            yield ReaderReply(program, refuse)
            is_read = not cast(Any, program.stdout).read(1)
            status = program.wait() if is_read else 0
            if status:
                refuse(status, "")
        finally:
            program.kill()


def read_columns(
    path: str, words: tuple[str, ...], fields: dict[str, FieldCheck], take: Callable[[ReaderReply], Item], what: str = ""
) -> Item:
    """Returns the result of `take`, which reads the program's answer about a file. `words` are the program's arguments, and
    `fields` the columns in the file's header. Fault: the header or a row is wrong, or the program failed."""

    def refuse(status: int, text: str) -> None:
        if status == QUOTED:
            raise Quoted
        if status in SYSTEM:
            raise OSError(int(text), os.strerror(int(text)))
        if status == TOO_LONG:
            raise Exceeded(LONGEST_LINE, "bytes in a line")
        if status == BAD_HEADER:
            raise Fault(f"{path} line 1: the header isn't {','.join(fields)}", ROWS)
        if status == BAD_ROW:
            raise wrong_row(path, file.path, fields, int(text))
        if status != FAULT:
            raise Fault(f"hinge-packets {how_ended(status)}", FILES)
        separator = "" if text.startswith(" ") else ": "
        raise Fault(f"{path}{separator}{text}", ROWS)

    header = (",".join(fields),) if fields else ()
    words = (words[0], *header, *words[1:])
    with untrusted(path), working(f"reading {what or path}"), read_again(path, MOST_TABLE) as file:
        try:
            with opened(file.path, None) as source, asked(source, words, refuse) as answer:
                return take(answer)
        except Quoted:
            pass
        with unnamed() as (copy, name):
            copy.writelines(without_quotes(file.path))
            copy.flush()
            with opened(name, None) as source, asked(source, words, refuse) as answer:
                return take(answer)


@dataclass(frozen=True)
class Tuples:
    """Holds five-tuples as two 64-bit numbers each: the two addresses, and the protocol with the two ports."""

    words: memoryview

    def numbers(self, place: int) -> tuple[int, int, int, int, int]:
        addresses = self.words[2 * place] & (1 << 64) - 1
        ports = self.words[2 * place + 1]
        return addresses >> 32, addresses & 0xFFFFFFFF, ports >> 48, ports >> 32 & 0xFFFF, ports >> 16 & 0xFFFF

    def number_of(self, addresses: int, ports: int) -> int:
        """Returns the number of the five-tuple with these two 64-bit numbers, or -1."""
        places = np.flatnonzero(np.frombuffer(self.words, "i8")[1::2] == ports).tolist()
        return next((place for place in places if self.words[2 * place] == addresses), -1)

    def columns(self) -> list[Integers]:
        """Returns a column each for the sources, destinations, protocols, source ports and destination ports."""
        words = np.frombuffer(self.words, "i8")
        addresses, ports = words[0::2], words[1::2]
        return [addresses >> 32 & 0xFFFFFFFF, addresses & 0xFFFFFFFF, ports >> 48, ports >> 32 & 0xFFFF, ports >> 16 & 0xFFFF]


@dataclass(frozen=True)
class Rows:
    """Holds rows as columns. The columns `target` and `five_tuple` contain places in `targets` and `tuples`."""

    columns: dict[str, Integers]
    targets: list[tuple[str, int]]
    tuples: Tuples


def read_rows(path: str) -> Rows:
    """Returns the rows of a packet file."""

    def take(answer: ReaderReply) -> Rows:
        count, targets, tuples = answer.numbers(3)
        kinds = answer.targets(targets)
        five = Tuples(answer.numbers(2 * tuples))
        return Rows(answer.columns(count, PACKET_COLUMNS), kinds, five)

    return read_columns(path, ("packets",), PACKET_FIELDS, take, os.path.basename(path))


class OfTarget(NamedTuple):
    """Describes a target, which is a pipe or a queue, with the number of its rows and the first row's line."""

    kind: str
    number: int
    rows: int
    line: int


class Sums(NamedTuple):
    """The sums over a packet file: the number of rows; the number of rows sent before their predecessors, and the first such row's
    line; the first and last moment; the greatest length; whether the words differ, and the first word; and the targets."""

    rows: int
    late: int
    late_line: int
    clock: int
    first_moment: int
    longest: int
    differ: int
    word: int
    targets: list[OfTarget]


def read_sums(path: str) -> Sums:
    """Returns the sums of a correct packet file."""

    def take(answer: ReaderReply) -> Sums:
        rows, late, late_line, clock, first, longest, differ, word, count = answer.numbers(9)
        columns = zip(answer.targets(count), answer.numbers(count), answer.numbers(count))
        targets = [OfTarget(kind, number, rows_of_target, line) for (kind, number), rows_of_target, line in columns]
        return Sums(rows, late, late_line, clock, first, longest, differ, word, targets)

    return read_columns(path, ("sums",), PACKET_FIELDS, take)


def read_events(path: str, rows: int) -> tuple[int, Optional[dict[str, Integers]]]:
    """Returns the number of a report's lines, and its columns, or None instead if the packet file's number of rows differs."""

    def take(answer: ReaderReply) -> tuple[int, Optional[dict[str, Integers]]]:
        count, is_whole = answer.numbers(2)
        return count, answer.columns(rows, REPORT_COLUMNS) if is_whole else None

    return read_columns(path, ("report", str(rows)), REPORT_FIELDS, take, os.path.basename(path))


def read_index(path: str) -> dict[str, Integers]:
    """Returns an index from `hinge packets` as two columns: rows, and the number of each row's frame in the capture."""
    widths = dict.fromkeys(INDEX_FIELDS, "i8")
    return read_columns(path, ("index",), INDEX_FIELDS, lambda answer: answer.columns(answer.numbers(1)[0], widths))


LineChange = tuple[int, int, str]  # the record of a command that was obeyed, the clock's moment, and the line


@dataclass(frozen=True)
class Told:
    """Holds a history's content. The history is steady if all commands precede the first submit."""

    rows: Rows
    changes: list[LineChange]
    remarks: bytes
    records: int
    is_steady: bool
    last_line: int
    is_whole: bool


def read_told(path: str, kind: str, widths: Widths) -> Told:
    """Returns a history's content or, with `net`, a transcript's content with the remarks on packets. The last columns, the
    calls' records, are read only if commands come among packets, or packets pass a second pipe.
    """

    def take(answer: ReaderReply) -> Told:
        count, targets, tuples, changes, remarks, records, first, last_line, is_whole = answer.numbers(9)
        kinds = answer.targets(targets)
        five = Tuples(answer.numbers(2 * tuples))
        lines = str(answer.bytes(changes), "utf-8", "replace").split("\n")[:-1]
        fields = (line.split(",", 2) for line in lines)
        commands = [(int(record), int(moment), text) for record, moment, text in fields]
        text = bytes(answer.bytes(remarks))
        is_steady = first < 0 or all(record < first for record, _, _ in commands)
        has_one_pass = all(target == "queue" or number <= LAST_OF_LINKS for target, number in kinds)
        is_short = kind == "history" and is_steady and has_one_pass
        present = len(widths) - 2 if is_short else len(widths)
        columns = answer.columns(count, dict(islice(widths.items(), present)))
        return Told(Rows(columns, kinds, five), commands, text, records, is_steady, last_line, bool(is_whole))

    return read_columns(path, (kind,), {}, take)
