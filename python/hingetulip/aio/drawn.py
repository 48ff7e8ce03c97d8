"""Draws packets' words, random numbers of 31 bits, from a seed and a direction. `hinge` draws in the same way with splitmix64, so a
seed loses the same packets everywhere."""

from __future__ import annotations

from typing import Iterator

QUEUES = 1 << 16  # the directions of queues are their numbers plus this, behind the directions of pipes
SEED, NUMBER, DIRECTION = 0x9E3779B97F4A7C15, 0xD1B54A32D192ED03, 0x8CB92BA72F3D8DD7
FIRST, SECOND = 0xBF58476D1CE4E5B9, 0x94D049BB133111EB  # the factors of splitmix64
MASK, LOW = (1 << 64) - 1, (1 << 31) - 1
LANE = 16  # bytes for each word in the long number, so that no product reaches the next word
FEW, MANY = 2, 32  # the numbers of words in the first batch and in each later batch


class Lanes:
    """Computes the words of several packets together, as parts (lanes) of a long number."""

    def __init__(self, count: int) -> None:
        self.count = count
        shifts = [8 * LANE * number for number in range(count)]
        self.each = sum(1 << shift for shift in shifts)  # times a number, this repeats the number in each lane
        self.steps = sum(((number + 1) * NUMBER & MASK) << shift for number, shift in enumerate(shifts))
        self.masks = self.each * MASK
        self.low = self.each * LOW

    def drawn(self, place: int) -> memoryview:
        """Returns the words after this place in splitmix64's sequence, each from 0 to 2^31 - 1."""
        masks = self.masks
        z = self.each * place + self.steps & masks
        z = (z ^ z >> 30 & masks) * FIRST & masks
        z = (z ^ z >> 27 & masks) * SECOND & masks
        z = (z ^ z >> 31 & masks) & self.low
        return memoryview(z.to_bytes(LANE * self.count, "little")).cast("I")[:: LANE // 4]


FIRST_BATCH, LATER_BATCH = Lanes(FEW), Lanes(MANY)


def words(place: int) -> Iterator[int]:
    """Yields the words after this place in splitmix64's sequence. The first batch is small, as many links carry few packets."""
    yield from FIRST_BATCH.drawn(place)
    place += FEW * NUMBER
    while True:
        place &= MASK
        yield from LATER_BATCH.drawn(place)
        place += MANY * NUMBER


def word(seed: int, direction: int, number: int) -> int:
    """Returns the word for the packet with a number, from 1, in a direction."""
    return FIRST_BATCH.drawn(seed * SEED + (direction - 1) * DIRECTION + (number - 1) * NUMBER & MASK)[0]


class Drawn:
    """Draws the words for a direction's packets, numbered from 1. The direction is a pipe's number, or a queue's number +
    QUEUES."""

    def __init__(self, seed: int, direction: int) -> None:
        self.next = words(seed * SEED + (direction - 1) * DIRECTION & MASK).__next__
        """The word of the next packet."""
