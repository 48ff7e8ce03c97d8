"""Draws the effects that a link adds to dummynet's: doubled packets, and each packet's extra delay in ms."""

from __future__ import annotations

from typing import TYPE_CHECKING, Callable, Optional

from hingetulip.aio.datagram import Datagram
from hingetulip.aio.drawn import word

if TYPE_CHECKING:
    from hingetulip_words.link import Extra

OF_JITTER, OF_COPIES = 1 << 20, 2 << 20  # added to a pipe's number: separate streams of words, the same as in the C hosts
LOSES_NONE = 2**31 - 1  # the word that no loss rate below 1 loses
IS_LOST, IS_TWICE, IS_LATE = "lost", "twice", "late"  # events of a packet on a link
MOST = 3_600_000  # ms: the longest delay of a pipe
DelayOf = Callable[[Datagram], float]  # returns a datagram's extra ms
LateOf = Callable[[int], int]  # returns the extra ms for a packet's number, from 1
IsTwice = Callable[[int], bool]  # returns whether the packet with this number is doubled


def effects_of_words(extra: Extra, seed: int, pipe: int) -> tuple[Optional[LateOf], Optional[IsTwice]]:
    """Returns the functions for the effects that a link's words request, such as `jitter 10ms duplicate 1%`; None for each effect
    that the words don't request."""

    def late_of(number: int) -> int:
        return word(seed, OF_JITTER + pipe, number) % (extra.jitter + 1)

    def is_twice(number: int) -> bool:
        return word(seed, OF_COPIES + pipe, number) < extra.duplicate

    return late_of if extra.jitter else None, is_twice if extra.duplicate else None


def whole(delay: float) -> int:
    """Returns a delay in whole ms, 0 to 3,600,000. ValueError: the number isn't in this range."""
    if delay != int(delay) or not 0 <= delay <= MOST:
        raise ValueError(
            f"jitter returned {delay!r}: a datagram is late by whole milliseconds, 0 to {MOST}; return round(..) of it"
        )
    return int(delay)
