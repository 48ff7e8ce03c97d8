"""The results of shapers and audits. Moments are in ns and lengths in bytes; flows, packets and entries have numbers from 0."""

from __future__ import annotations

from enum import IntEnum
from typing import NamedTuple, Optional


class Rule(IntEnum):
    """The order of a link's packets.

    ORDERED: a packet is due no sooner than the packet before it. FREE: a packet is due after its transmission and the pipe's delay,
    so that packets overtake others after a change to a shorter delay.
    """

    ORDERED = 0
    FREE = 1


class Outcome(IntEnum):
    """The outcome of a submitted packet.

    QUEUED: the packet was accepted, and a collect returns it unless a delete discards it first. LOST: the packet was lost by the
    loss rate (`plr`). FULL: the packet's queue was full. NO_TARGET: the packet's pipe or queue isn't configured.
    """

    QUEUED = 0
    LOST = 1
    FULL = 2
    NO_TARGET = 3


class Fate(NamedTuple):
    """The emulator's reply to a packet.

    `at` is the effective moment: the packet's moment, or the clock if the clock was later. `flow` is the packet's flow, or None
    without a target. `packet` is the packet's number among the accepted packets, or None if the packet wasn't accepted.
    """

    outcome: Outcome
    at: int
    flow: Optional[int]
    packet: Optional[int]


class Delivery(NamedTuple):
    """A packet that leaves the emulator at the moment `due`. `packet` is the number in the packet's `Fate`, and `start` the moment
    when its transmission began."""

    due: int
    packet: int
    flow: int
    start: int


class FlowStatus(NamedTuple):
    """A flow's state, with the counts of its packets so far.

    The packets were sent to `queue`, or to the pipe if `queue` is None, and `pipe` carries them. Addresses, protocol and ports are
    the flow's in the bits of the mask, and 0 in all others. In the flow's queue, `queued` packets wait, with `bytes` bytes. So far
    the loss rate lost `lost` packets, a full queue dropped `full`, `started` have begun their transmission, and deletes discarded
    `discarded` from the queue.
    """

    flow: int
    queue: Optional[int]
    pipe: int
    src: int
    dst: int
    proto: int
    sport: int
    dport: int
    queued: int
    bytes: int
    lost: int
    full: int
    started: int
    discarded: int


class Verdict(NamedTuple):
    """The result of an audit. A lawful verdict is true.

    `entries` is the number of calls with replies in the history. `differs` is the first entry whose reply isn't the emulator's
    after the preceding calls, or None if there is no such entry.
    """

    entries: int
    differs: Optional[int]

    @property
    def lawful(self) -> bool:
        """Whether each reply is the emulator's."""
        return self.differs is None

    def __bool__(self) -> bool:
        return self.lawful
