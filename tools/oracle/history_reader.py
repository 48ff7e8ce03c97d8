"""The reader of histories (versions 1 to 3) and of live sessions' transcripts according to docs/FILES.md, and their audit."""

from dataclasses import fields
from typing import Callable, TypeVar

from csv_bytes import read_records
from fast import first_difference
from files import BadField, Record, ReplayFault, call_of, text_of
from history import NUMBERED_REPLIES
import model

VERSIONS = {(b"dummynet-history", b"1"): 1, (b"dummynet-history", b"2"): 2, (b"dummynet-history", b"3"): 3}
TRANSCRIPT = (b"dummynet-live", b"1")  # as version 3, with remarks between its entries
SINCE_VERSION_2 = (model.Bare.DELETED, model.Bare.PIPE_HAS_QUEUES, model.Bare.NO_SUCH_QUEUE)
ITEM = TypeVar("ITEM")


class HistoryReader:
    """Reads records one by one. Faults contain the current record's number."""

    def __init__(self, data: bytes) -> None:
        self.records = read_records(data)
        self.taken = 0  # without remarks
        self.remarks = 0
        self.version = 0

    def bad(self) -> ReplayFault:
        return ReplayFault(f"history record {self.taken}: bad", 4)

    def take(self) -> list[bytes]:
        """Returns the next record; a missing one counts, too."""
        self.taken += 1
        if self.is_at_end(self.taken - 1):
            raise self.bad()
        return self.records[self.taken + self.remarks - 1]

    def is_at_end(self, taken: int) -> bool:
        return taken + self.remarks >= len(self.records)

    def pass_remarks(self) -> None:
        """In a transcript, between two entries."""
        while not self.is_at_end(self.taken) and self.records[self.taken + self.remarks][0].startswith(b"#"):
            self.remarks += 1

    def read(self) -> tuple[str, list[model.Entry]]:
        """The rule of the file's version, and the entries."""
        try:
            return self.entries()
        except BadField:
            raise self.bad() from None

    def entries(self) -> tuple[str, list[model.Entry]]:
        first = tuple(self.take())
        self.version = 3 if first == TRANSCRIPT else VERSIONS.get(first, 0)
        if not self.version:
            raise self.bad()
        pass_remarks = self.pass_remarks if first == TRANSCRIPT else lambda: None
        entries: list[model.Entry] = []
        pass_remarks()
        record = self.take()
        while record[0] != b"end":
            caller, call = self.call(record)
            entries.append(model.Entry(caller, call, self.reply(self.take())))
            pass_remarks()
            record = self.take()
        if len(record) != 2 or Record(record).number(2) != len(entries):
            raise self.bad()
        if not self.is_at_end(self.taken):
            self.taken += 1
            raise self.bad()
        return (model.ORDERED if self.version == 3 else model.FREE), entries

    def call(self, record: list[bytes]) -> tuple[int, model.Call]:
        caller, call = call_of(record)
        is_delete = isinstance(call, model.Configure) and isinstance(call.command, model.Delete)
        if record[0] != b"c" or (self.version == 1 and is_delete):
            raise self.bad()
        return caller, call

    def reply(self, record: list[bytes]) -> model.Reply:
        if len(record) < 2 or record[0] != b"r":
            raise self.bad()
        name = text_of(record[1])
        numbers = Record(record).numbers(3)
        for bare in model.Bare:
            if name == bare.value and not numbers and not (self.version == 1 and bare in SINCE_VERSION_2):
                return bare
        for numbered, numbered_name in NUMBERED_REPLIES.items():
            if name == numbered_name and len(numbers) == len(fields(numbered)):
                return numbered(*numbers)
        if name == "delivered" and len(numbers) == 2:
            return model.Delivered(numbers[0], self.items(numbers[1], self.delivery))
        if name == "status" and len(numbers) == 1:
            return model.Status(self.items(numbers[0], self.flow_status))
        raise self.bad()

    def items(self, count: int, read_item: Callable[[list[bytes]], ITEM]) -> tuple[ITEM, ...]:
        """Returns `count` items; with a count near 2^64, one is soon missing."""
        found: list[ITEM] = []
        while len(found) < count:
            found.append(read_item(self.take()))
        return tuple(found)

    def delivery(self, record: list[bytes]) -> model.Delivery:
        if len(record) != 5 or record[0] != b"d":
            raise self.bad()
        packet, flow, start, due = Record(record).numbers(2)
        return model.Delivery(due, packet, flow, start)

    def flow_status(self, record: list[bytes]) -> model.FlowStatus:
        if len(record) != (20 if self.version == 1 else 21) or record[0] != b"f":
            raise self.bad()
        of = Record(record)
        key = model.FlowKey(of.target(3), of.number(5, 1, model.MAX_NUMBER), of.five(6), of.five(11))
        return model.FlowStatus(of.number(2), key, *of.numbers(16), *([0] if self.version == 1 else []))


def audit_line(data: bytes) -> tuple[str, int]:
    """The line of the verdict on the history in a file, without its line feed, and the program's status."""
    rule, entries = HistoryReader(data).read()
    difference = first_difference(entries, rule)
    return (f"lawful {len(entries)}", 0) if difference is None else (f"differs {difference}", 1)
