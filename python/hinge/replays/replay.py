"""Packets and their report, joined by row. Commands read everything about a replay from these columns.

A column contains a number for each row of the packet file, in order: place i belongs to row i + 1. Inapplicable values are -1.
"""

from __future__ import annotations

from dataclasses import dataclass
from functools import cached_property
from typing import Mapping, Optional, Sequence

from hinge.captures.addresses import read_addresses
from hinge.command import ROWS, Fault
from hinge.lazy import Integers, Mask, few as np
from hinge.replays.columns import EVENT_NAMES, EVENTS, FULL, HELD, LOST, NONE, OUT, Lazily, Rows, Tuples, read_events, read_rows
from hinge.replays.units import socket_address

__all__ = ["EVENTS", "EVENT_NAMES", "FULL", "HELD", "LOST", "NONE", "OUT", "Packets", "Replay", "read_packets", "read_report"]
PROTOCOL_NAMES = {1: "icmp", 6: "tcp", 17: "udp", 58: "icmpv6", 132: "sctp"}


@dataclass(frozen=True)
class Packets:
    """Holds a packet file as columns. `target` and `five_tuple` contain places in `targets` and `tuples`."""

    path: str
    moment: Integers
    target: Integers
    five_tuple: Integers
    length: Integers
    word: Integers
    targets: list[tuple[str, int]]
    tuples: Sequence[tuple[str, str, int, int, int]]
    words: Optional[Tuples] = None  # the same five-tuples as numbers

    def __len__(self) -> int:
        return len(self.moment)

    def tuple_name(self, number: int) -> str:
        """Returns a five-tuple in the usual notation."""
        src, dst, proto, sport, dport = self.tuples[number]
        name = PROTOCOL_NAMES.get(proto, f"proto {proto}")
        if not (sport or dport):
            return f"{name} {src} > {dst}"
        return f"{name} {socket_address(src, sport)} > {socket_address(dst, dport)}"


@dataclass(frozen=True)
class Replay:
    """Holds the results for a packet file's packets: events, flows, and the moments of sending, transmission and leaving in ns."""

    path: str
    packets: Packets
    event: Integers
    flow: Integers
    packet: Integers
    at: Integers
    start: Integers
    due: Integers
    submitted: Integers  # the record of the call that submitted the packet; in a report, all records come behind all commands
    handed: Integers  # the record that handed the packet over
    flips: dict[int, tuple[int, int]]  # for packets with a flipped bit: the bit, counted from the last, and the number of bits

    @cached_property
    def is_out(self) -> Mask:
        is_out: Mask = self.event == OUT
        return is_out

    @cached_property
    def took(self) -> Integers:
        """Returns the time from sending to leaving in ns; undefined for packets that didn't leave."""
        return self.due - self.at

    def count(self, event: int) -> int:
        return int(np.count_nonzero(self.event == event))


def dotted(address: int) -> str:
    return f"{address >> 24}.{address >> 16 & 255}.{address >> 8 & 255}.{address & 255}"


def packets_of(path: str, rows: Rows, moment: Integers, remarked: Mapping[str, str]) -> Packets:
    """Returns rows as packets with these moments. IPv6 addresses replace IPv4 stand-ins: addresses from `remarked`, or from the
    neighbouring file."""
    columns, five = rows.columns, rows.tuples

    def used() -> set[str]:
        pairs = set(five.words[::2])
        return {dotted(address) for pair in pairs for address in (pair >> 32 & 0xFFFFFFFF, pair & 0xFFFFFFFF)}

    addresses = {**read_addresses(path, used), **remarked}

    def named(place: int) -> tuple[str, str, int, int, int]:
        src, dst, *more = five.numbers(place)
        ends = (addresses.get(dotted(address), dotted(address)) for address in (src, dst))
        return (*ends, *more)  # type: ignore[return-value]

    tuples = Lazily(len(five.words) // 2, named)
    target, five_tuple, length, word = (columns[name] for name in ("target", "five_tuple", "length", "word"))
    return Packets(path, moment, target, five_tuple, length, word, rows.targets, tuples, five)


def read_packets(path: str) -> Packets:
    rows = read_rows(path)
    return packets_of(path, rows, rows.columns["moment"], {})


def read_report(path: str, packets: Packets) -> Replay:
    """Reads the report from a replay of these packets, a line for each row. Fault: the report is of other packets."""
    count, columns = read_events(path, len(packets))
    if columns is None:
        raise Fault(f"{path}: its {count} lines aren't those of the {len(packets)} rows of {packets.path}", ROWS)
    is_early = columns["at"] < packets.moment
    if is_early.any():
        row = int(np.argmax(is_early)) + 1
        why = "it is the report of other packets"
        raise Fault(f"{path}: row {row} was sent before its moment in {packets.path}: {why}", ROWS)
    calls = np.zeros(len(packets), np.int64)
    return Replay(path, packets, **columns, submitted=calls, handed=columns["packet"], flips={})
