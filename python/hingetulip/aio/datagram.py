"""The messages in a network: datagrams, errors from closed ports, and records of drops on links."""

from __future__ import annotations

from typing import NamedTuple

from hingetulip.records import Outcome

Address = tuple[str, int]
HEADERS = 28  # bytes of the IPv4 and UDP headers, which a link carries before the data
HEADERS_OF_6 = 48  # bytes of the IPv6 and UDP headers
UDP, ICMP = 17, 1
MOST_BYTES = 65535  # the longest datagram, with its headers
MOST_REFUSAL, MOST_REFUSAL_OF_6 = 576, 1280  # the most bytes of a closed port's error, which quotes as much as fits
NS = 10**9  # in a second


class Datagram(NamedTuple):
    """A datagram in transit."""

    source: Address
    target: Address
    data: bytes


class Refusal(Datagram):
    """A closed port's ICMP error about a datagram. The error's data quotes the datagram."""


def headers(address: str) -> int:
    """Returns the length of the headers of a datagram to this address."""
    return HEADERS_OF_6 if ":" in address else HEADERS


def refusal(datagram: Datagram) -> Refusal:
    """Returns the error about a datagram that no socket receives."""
    length = headers(datagram.target[0])
    most = MOST_REFUSAL if length == HEADERS else MOST_REFUSAL_OF_6
    return Refusal(datagram.target, datagram.source, (bytes(length) + datagram.data)[: most - length])


class Dropped(NamedTuple):
    """The record of a datagram that was lost on a link, or that a full queue dropped."""

    row: int  # the packet's row, from 1, which `hinge look` prints
    moment: int  # ns since the beginning of the simulated time
    source: Address
    target: Address
    data: bytes
    outcome: Outcome

    def __str__(self) -> str:
        (source, sport), (target, dport) = self.source, self.target
        return (
            f"row {self.row:>5}, {self.moment / NS:.9f} s, {place(source)}:{sport} > {place(target)}:{dport}, "
            f"{len(self.data) + headers(target)} bytes: {self.outcome.name.lower()}"
        )


def place(address: str) -> str:
    """Returns an address as text before a port: an IPv6 address is in brackets."""
    return f"[{address}]" if ":" in address else address
