"""Batches of packets, fates and deliveries in the library's format, read by columns."""

from __future__ import annotations

from array import array
from typing import Any, Generic, Iterable, Iterator, Optional, Sequence, TypeVar, Union, overload

from hingetulip.errors import RangeError
from hingetulip.layout import DELIVERY, FATE, PACKET, PIPE, QUEUE, Layout
from hingetulip.records import Delivery, Fate, Outcome

Item = TypeVar("Item", covariant=True)
Values = Union[int, Iterable[int]]


class Column:
    """A batch's attribute for a field of all records: a memoryview of numbers in the records' memory."""

    def __init__(self, text: str) -> None:
        """Uses the text as the column's docstring."""
        self.__doc__ = text

    def __set_name__(self, owner: type, name: str) -> None:
        self.name = name

    def __get__(self, batch: Any, owner: Optional[type] = None) -> Any:
        return self if batch is None else batch.LAYOUT.column(self.name, batch.records)


class Batch:
    """A batch of consecutive records in the library's format."""

    LAYOUT: Layout

    def __init__(self, records: Union[bytearray, memoryview]) -> None:
        self.records = records

    def __len__(self) -> int:
        return len(self.records) // self.LAYOUT.record.size

    def __repr__(self) -> str:
        return f"<{type(self).__name__}: {len(self)}>"


class Answers(Batch, Sequence[Item], Generic[Item]):
    """A batch that is also a sequence of items."""

    READ: Any  # returns an item from a record's fields

    @overload
    def __getitem__(self, place: int) -> Item:
        ...

    @overload
    def __getitem__(self, place: slice) -> list[Item]:
        ...

    def __getitem__(self, place: Union[int, slice]) -> Union[Item, list[Item]]:
        if isinstance(place, slice):
            return [self[i] for i in range(*place.indices(len(self)))]
        count = len(self)
        if not -count <= place < count:
            raise IndexError(place)
        item: Item = self.READ(*self.LAYOUT.record.unpack_from(self.records, place % count * self.LAYOUT.record.size))
        return item

    def __iter__(self) -> Iterator[Item]:
        return (self.READ(*fields) for fields in self.LAYOUT.record.iter_unpack(self.records))


OUTCOMES = tuple(Outcome)
QUEUED, NO_TARGET = Outcome.QUEUED, Outcome.NO_TARGET
make_fate = Fate._make


def read_fate(at: int, flow: int, packet: int, outcome: int) -> Fate:
    """Returns a fate from the fields of the library's struct."""
    if outcome == 0:
        return make_fate((QUEUED, at, flow, packet))
    return make_fate((OUTCOMES[outcome], at, None if outcome == NO_TARGET else flow, None))


class Fates(Answers[Fate]):
    """The fates of a `submit_many`'s packets, in their order."""

    LAYOUT = FATE
    READ = staticmethod(read_fate)
    outcome = Column("Numbers of `Outcome`.")
    at = Column("The effective moments, in ns.")
    flow = Column("Flows; 0 without a target.")
    packet = Column("Packet numbers; 0 for packets that weren't accepted.")


class Deliveries(Answers[Delivery]):
    """The packets that a `collect_many` returned, in the order in which they are due."""

    LAYOUT = DELIVERY
    READ = staticmethod(Delivery)
    due = Column("The moments when packets leave, in ns.")
    packet = Column("Packet numbers, the same as in the packets' fates.")
    flow = Column("Flows.")
    start = Column("The moments when transmissions began, in ns.")


class Packets(Batch):
    """Packets for `submit_many`. You can change a column between calls: single items, or all with
    `packets.moment[:] = array("Q", moments)`, or with numpy with `numpy.asarray(packets.moment)[:] = moments`."""

    LAYOUT = PACKET
    moment = Column("The moments of arrival, in ns: 0 to 2^62.")
    length = Column("Bytes: 1 to 65535.")
    number = Column("Numbers of the pipe or queue: 1 to 65535.")
    kind = Column("0 for a packet to a pipe, 1 for a packet to a queue.")
    src = Column("IPv4 addresses as numbers: 10.0.0.1 is 0x0a000001.")
    dst = Column("IPv4 addresses as numbers.")
    proto = Column("Protocol numbers of the IP header: 6 is TCP, 17 UDP.")
    sport = Column("Ports, 0 to 65535.")
    dport = Column("Ports, 0 to 65535.")
    word = Column("Random words: a packet is lost if the low 31 bits of its word are below the loss rate times 2^31.")

    def __init__(
        self,
        count: int,
        *,
        moment: Values,
        length: Values,
        pipe: Optional[Values] = None,
        queue: Optional[Values] = None,
        src: Values = 0,
        dst: Values = 0,
        proto: Values = 0,
        sport: Values = 0,
        dport: Values = 0,
        word: Optional[Values] = None,
    ) -> None:
        """Creates `count` packets for pipes or queues. Each argument is a number for all packets, or an iterable with a number for
        each packet. Without words, each `submit_many` draws new words.

        TypeError: there are neither pipes nor queues, or both. RangeError: a number is outside its column's range. ValueError: an
        iterable has another length than `count`.
        """
        number = queue if pipe is None else pipe
        if number is None or (pipe is not None and queue is not None):
            raise TypeError("packets are sent to a pipe or to a queue")
        super().__init__(bytearray(PACKET.record.size * count))
        self.draws = word is None
        columns = {
            "moment": moment,
            "length": length,
            "number": number,
            "kind": QUEUE if pipe is None else PIPE,
            "src": src,
            "dst": dst,
            "proto": proto,
            "sport": sport,
            "dport": dport,
            "word": 0 if word is None else word,
        }
        for name, values in columns.items():
            self._fill(name, values)

    @classmethod
    def of_records(cls, records: memoryview) -> Packets:
        """Returns the packets in records that the library wrote, with their words."""
        packets = cls.__new__(cls)
        Batch.__init__(packets, records)
        packets.draws = False
        return packets

    def _fill(self, name: str, values: Any) -> None:
        """Sets a column to a number or to numbers."""
        column: memoryview = getattr(self, name)
        try:
            if isinstance(values, int):
                values = array(column.format, [values]) * len(column)
            elif not (isinstance(values, array) and values.typecode == column.format):
                values = array(column.format, values)
        except OverflowError:
            raise RangeError(f"{name} isn't in 0 to 2^{8 * column.itemsize} - 1") from None
        if len(values) != len(column):
            raise ValueError(f"{len(values)} values of {name} for {len(column)} packets")
        column[:] = memoryview(values)
