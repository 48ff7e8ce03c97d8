"""Reads the entries of a history: calls of the emulator with their replies."""

from __future__ import annotations

from ctypes import byref, c_char, c_size_t, c_uint64
from enum import IntEnum
from itertools import chain
from pathlib import Path
from typing import NamedTuple, Optional, Sequence, Union

from hingetulip.batches import read_fate
from hingetulip.calls import read_flow
from hingetulip.errors import HistoryError
from hingetulip.layout import DELIVERY, ENTRY, FATE, FLOW, HISTORY, PACKET, QUEUE
from hingetulip.library import BAD_RECORD, CALLS, ROOM, failure, reason
from hingetulip.records import Delivery, Fate, FlowStatus, Rule


class EntryCall(IntEnum):
    """The kind of a call in a history."""

    CONFIGURE = 0
    SUBMIT = 1
    ADVANCE = 2
    COLLECT = 3
    SHOW = 4


class EntryReply(IntEnum):
    """The kind of a reply, which determines the reply's content.

    REFUSED: the reason for the refusal. CONFIGURED and DELETED: no content, since the line took effect. FATE: the packet's fate.
    CLOCK: the clock. DELIVERIES: the clock and the due packets. FLOWS: the states of flows.
    """

    REFUSED = 0
    CONFIGURED = 1
    DELETED = 2
    FATE = 3
    CLOCK = 4
    DELIVERIES = 5
    FLOWS = 6


class Submitted(NamedTuple):
    """The packet of a submit, with the names in `Shaper.submit`: `shaper.submit(**entry.packet._asdict())` repeats the call."""

    moment: int
    length: int
    pipe: Optional[int]
    queue: Optional[int]
    src: int
    dst: int
    proto: int
    sport: int
    dport: int
    word: int


class Entry(NamedTuple):
    """A call by a history's caller, and its reply. Inapplicable fields are None or empty lists.

    `moment` is the moment, in ns, of a submit, an advance or a collect. `line` is a configuration line in canonical form. `at` is
    the reply's effective moment, or the clock. `refusal` is the reason for a refusal, such as `no such pipe`. In an unlawful
    history, the reply may be of a kind that the call never gets.
    """

    caller: int
    call: EntryCall
    reply: EntryReply
    moment: Optional[int]
    line: Optional[str]
    packet: Optional[Submitted]
    at: Optional[int]
    fate: Optional[Fate]
    deliveries: list[Delivery]
    flows: list[FlowStatus]
    refusal: Optional[str]


class History(NamedTuple):
    """The entries of a history in order, and the rule under which an audit repeats their calls."""

    rule: Rule
    entries: list[Entry]


CALLS_BY_NUMBER, REPLIES_BY_NUMBER = tuple(EntryCall), tuple(EntryReply)
TIMED_CALLS = (EntryCall.SUBMIT, EntryCall.ADVANCE, EntryCall.COLLECT)
TIMED_REPLIES = (EntryReply.FATE, EntryReply.CLOCK, EntryReply.DELIVERIES)
WIDTHS = (ENTRY.size, 1, DELIVERY.size, FLOW.size)  # the bytes of an item in each list that the library writes
LINE_ROOM = 256  # bytes; hardly any line is longer


def submitted(
    moment: int, src: int, dst: int, word: int, sport: int, dport: int, length: int, number: int, kind: int, proto: int
) -> Submitted:
    """Returns a packet from the fields of the library's struct."""
    pipe, queue = (None, number) if kind == QUEUE else (number, None)
    return Submitted(moment, length, pipe, queue, src, dst, proto, sport, dport, word)


class Lists:
    """The lists into which the library reads a history: entries, lines, deliveries and flows."""

    def __init__(self, text: bytes) -> None:
        """Reads a history's text. HistoryError: a record is malformed or missing."""
        rooms = (text.count(b"\nc,"), LINE_ROOM * text.count(b",configure,"), text.count(b"\nd,"), text.count(b"\nf,"))
        status = self._read(text, rooms)
        if status == ROOM:  # some records have another form than the program writes
            status = self._read(text, self.sizes)
        if status == BAD_RECORD:
            raise HistoryError("", self.record.value)
        if status:
            raise failure(status)
        self.entries, self.lines, deliveries, flows = (
            items.raw[: width * size] for items, width, size in zip(self.lists, WIDTHS, self.sizes)
        )
        self.deliveries = [Delivery._make(fields) for fields in DELIVERY.record.iter_unpack(deliveries)]
        self.flows = [read_flow(*fields) for fields in FLOW.record.iter_unpack(flows)]

    def _read(self, text: bytes, rooms: Sequence[int]) -> int:
        """Reads a history into lists with room for these numbers of items; returns the call's status."""
        history = (c_char * HISTORY.size)()
        self.record = c_uint64()
        self.lists = [(c_char * (width * room))() for width, room in zip(WIDTHS, rooms)]
        arguments = chain.from_iterable((items, c_size_t(room)) for items, room in zip(self.lists, rooms))
        status: int = CALLS.dn_read_history(text, c_size_t(len(text)), *arguments, history, byref(self.record))
        *self.sizes, self.rule = HISTORY.record.unpack(history)
        return status

    def entry(self, packet: bytes, fate: bytes, *numbers: int) -> Entry:
        """Returns an entry from the fields of the library's struct."""
        caller, line, size, first, count, status, call_number, reply_number = numbers
        call, reply = CALLS_BY_NUMBER[call_number], REPLIES_BY_NUMBER[reply_number]
        packet_fields, fate_fields = PACKET.record.unpack(packet), FATE.record.unpack(fate)
        return Entry(
            caller=caller,
            call=call,
            reply=reply,
            moment=packet_fields[0] if call in TIMED_CALLS else None,
            line=self.lines[line : line + size].decode() if call is EntryCall.CONFIGURE else None,
            packet=submitted(*packet_fields) if call is EntryCall.SUBMIT else None,
            at=fate_fields[0] if reply in TIMED_REPLIES else None,
            fate=read_fate(*fate_fields) if reply is EntryReply.FATE else None,
            deliveries=self.deliveries[first : first + count] if reply is EntryReply.DELIVERIES else [],
            flows=self.flows[first : first + count] if reply is EntryReply.FLOWS else [],
            refusal=reason(status) if reply is EntryReply.REFUSED else None,
        )


def read_history(file: Union[str, Path, bytes]) -> History:
    """Returns the entries in a history or in a live session's transcript, from its path or bytes.

    `audit` checks the replies. HistoryError: a record is malformed or missing.
    """
    lists = Lists(file if isinstance(file, bytes) else Path(file).read_bytes())
    return History(Rule(lists.rule), [lists.entry(*fields) for fields in ENTRY.record.iter_unpack(lists.entries)])
