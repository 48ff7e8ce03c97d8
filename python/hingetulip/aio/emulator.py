"""Calls the emulator for a network. For a single caller this is faster than Shaper: packets use prepared ways, and results are
plain numbers."""

from __future__ import annotations

from ctypes import byref, c_char, c_size_t, c_uint64
from struct import error as StructError
from typing import TYPE_CHECKING, Optional

from hingetulip.calls import encode_line, succeed, error_of_fields
from hingetulip.history_file import Recording
from hingetulip.layout import DELIVERY, FATE, PACKET
from hingetulip.library import CALLS, ROOM, failure
from hingetulip.shaper import Shaper

if TYPE_CHECKING:
    from hingetulip.aio.link import Link

FEW = 64  # the deliveries for which there is room at first
pack_packet, unpack_fate = PACKET.record.pack_into, FATE.record.unpack
unpack_delivery, iterate_deliveries = DELIVERY.record.unpack_from, DELIVERY.record.iter_unpack
submit_packet, collect_packets, next_wake = CALLS.dn_submit, CALLS.dn_collect, CALLS.dn_wake


class Way:
    """The common properties of all packets on a link from one socket to another: the pipe or queue, and the header fields."""

    __slots__ = ("link", "before", "is_last", "source", "target", "proto", "sport", "dport", "kind", "number", "_others")

    def __init__(
        self, link: Link, before: int, is_last: bool, fields: tuple[int, int, int, int, int], kind: int, number: int
    ) -> None:
        """Stores the properties.

        `before` is the length of the headers, and `is_last` says whether the target is at the link's end. `fields` are addresses,
        protocol and ports as numbers. `kind` is PIPE or QUEUE, and `number` the number of this pipe or queue.
        """
        self.link = link
        self.before = before
        self.is_last = is_last
        self.kind = kind
        self.number = number
        self.source, self.target, self.proto, self.sport, self.dport = fields
        self._others: Optional[dict[tuple[int, int], Way]] = None

    def to(self, kind: int, number: int) -> Way:
        """Returns the way of the same packets through another pipe or queue of the link. `kind` is PIPE or QUEUE."""
        if self._others is None:
            self._others = {}
        other = self._others.get((kind, number))
        if other is None:
            fields = self.source, self.target, self.proto, self.sport, self.dport
            other = Way(self.link, self.before, self.is_last, fields, kind, number)
            self._others[kind, number] = other
        return other


class Emulator:
    """Calls a network's shaper at moments that never decrease, so that each call happens at its moment. Only the loop makes calls,
    so they need no lock. With a history, each call adds an entry."""

    def __init__(self, shaper: Shaper, history: Optional[Recording]) -> None:
        self.shaper = shaper
        self.history = history
        self._packet = (c_char * PACKET.size)()
        self._fate = (c_char * FATE.size)()
        self._submitted = shaper._self, byref(self._packet), byref(self._fate)
        if history is not None:
            self._submit_entry = history.entry(*self._submitted[1:])
        self._moment = c_uint64()
        self._number = c_uint64()
        self._woken = shaper._self, byref(self._number)
        self._make_room(FEW)

    def _make_room(self, count: int) -> None:
        """Prepares `collect` for at most `count` deliveries."""
        self._deliveries = bytearray(DELIVERY.size * count)
        place = byref((c_char * len(self._deliveries)).from_buffer(self._deliveries))
        self._collected = self.shaper._self, self._moment, place, c_size_t.from_param(count), byref(self._number)
        if self.history is not None:
            self._collect_entry = self.history.entry(self._moment, self._moment, place, self._number)

    def close(self) -> None:
        """Ends the history and frees the emulator."""
        if self.history is not None:
            self.history.end()
        self.shaper.close()

    def configure(self, moment: int, line: str) -> None:
        """Applies a configuration line from this moment on. LineError: the line is wrong. RefusedError: the line's pipe doesn't
        exist."""
        if moment:
            at = self.shaper.advance(moment)
            if self.history is not None:
                self.history.add_advance(moment, at)
        text = encode_line(line)
        status = self.shaper._obeyed(text)
        if self.history is not None:
            self.history.add_line(text, status)
        succeed(status)

    def submit(self, way: Way, moment: int, length: int, word: int) -> tuple[int, int]:
        """Submits a packet with a random word; returns the outcome as a number, and the packet's number. RangeError: the word, from
        a loss model, isn't in 0 to 2^32 - 1."""
        try:
            pack_packet(
                self._packet, 0, moment, way.source, way.target, word, way.sport, way.dport, length, way.number, way.kind, way.proto
            )
        except StructError:
            raise error_of_fields(word=word) from None
        status = submit_packet(*self._submitted)
        if status:
            raise failure(status)
        if self.history is not None:
            self.history.add(CALLS.dn_submit_text, self._submit_entry)
        _, _, packet, outcome = unpack_fate(self._fate)
        return outcome, packet

    def wake(self) -> int:
        """Returns the moment of the next link event in ns, or NEVER."""
        succeed(next_wake(*self._woken))
        return self._number.value

    def collect(self, moment: int) -> list[int]:
        """Returns the numbers of due packets, in the order in which they are due."""
        self._moment.value = moment
        status = collect_packets(*self._collected)
        if status == ROOM:
            self._make_room(2 * self._number.value)
            status = collect_packets(*self._collected)
        succeed(status)
        count = self._number.value
        if self.history is not None:
            self.history.add(CALLS.dn_collect_text, self._collect_entry)
        if count == 1:
            return [unpack_delivery(self._deliveries)[1]]
        if count == 0:
            return []
        return [delivery[1] for delivery in iterate_deliveries(memoryview(self._deliveries)[: DELIVERY.size * count])]
