"""The random words, copies, second passes and flipped bits of a way's packets: drawn from the seed, or from a model or chosen
packets, as docs/LINKS.md and docs/CAPTURE.md describe. Programs that run a link share no code with this module."""

from __future__ import annotations

from fractions import Fraction
from itertools import count
from typing import Iterator, Optional, Union

LOSS = 0  # the random word of a packet that is lost at any rate
NO_LOSS = (1 << 31) - 1  # the random word of a packet that no rate loses
MOST_LISTED = 10**6  # packets in a range
OF_JITTER, OF_COPIES, OF_CORRUPTION, OF_BITS = (number << 20 for number in range(1, 5))  # each added to a way's number: a stream
Chosen = dict[str, dict[int, int]]  # by kinds (lost, twice, late): packets of a way, and their delays in ms


def word(seed: int, stream: int, number: int) -> int:
    """Returns the random word of 31 bits that splitmix64 draws from a seed for the given number of a stream."""
    mixed = seed * 0x9E3779B97F4A7C15 + number * 0xD1B54A32D192ED03 + stream * 0x8CB92BA72F3D8DD7 & (1 << 64) - 1
    mixed = (mixed ^ mixed >> 30) * 0xBF58476D1CE4E5B9 & (1 << 64) - 1
    mixed = (mixed ^ mixed >> 27) * 0x94D049BB133111EB & (1 << 64) - 1
    return (mixed ^ mixed >> 31) & NO_LOSS


def chance_of(rate: Union[str, Fraction]) -> int:
    """Returns how many of the 2^31 random words a rate selects."""
    return int(Fraction(rate) * (1 << 31) + Fraction(1, 2))


def after(words: list[str], name: str) -> str:
    """Returns the value after a word in a link's words, or an empty text."""
    return words[words.index(name) + 1] if name in words[:-1] else ""


class Draws:
    """Draws from a seed for each packet of a way (one direction of a link)."""

    def __init__(self, seed: int, way: int, words: list[str], model: str, chosen: Optional[Chosen]) -> None:
        """`words` are the link's words, `model` is `gilbert:..`, `list:..` or empty. Chosen packets decide about all losses; None
        leaves the losses to the model or the seed."""
        self.seed = seed
        self.way = way
        self.model = model
        self.chosen = chosen
        self.copies = chance_of(Fraction(after(words, "duplicate").rstrip("%") or 0) / 100)
        self.corruption = chance_of(Fraction(after(words, "corrupt").rstrip("%") or 0) / 100)
        self.jitter = int(after(words, "jitter").removesuffix("ms") or 0)
        self.late = (chosen or {}).get("late", {})
        self.jitters = count(1)  # the numbers of packets with a drawn delay
        self.leaving = count(1)  # the numbers of packets that leave the way
        self.packets = self.drawn()

    def losses(self) -> Iterator[int]:
        """Yields the random word of each packet in turn, without end."""
        kind, _, rest = self.model.partition(":")
        draws = (word(self.seed, self.way, number) for number in count(1))
        if self.chosen is not None or kind == "list":
            lost = set((self.chosen or {}).get("lost", ()))
            if kind == "list":
                lost |= listed(rest)
            yield from (LOSS if number in lost else NO_LOSS for number in count(1))
        elif kind == "gilbert":
            rates = rest.split(",") + ["1", "0"][rest.count(",") - 1 :]
            to_bad, to_good, in_bad, in_good = map(chance_of, rates)
            is_bad = False
            while True:
                yield LOSS if next(draws) < (in_bad if is_bad else in_good) else NO_LOSS
                is_bad ^= next(draws) < (to_good if is_bad else to_bad)
        else:
            yield from draws

    def drawn(self) -> Iterator[tuple[int, int]]:
        """Yields the number and the random word of each packet that enters the way, without end. Yields a packet that was chosen as
        `twice` again under the same number, with a word that loses nothing. A copy that the seed draws has the next number and a
        random word of its own."""
        twice = (self.chosen or {}).get("twice", {})
        losses = self.losses()
        is_copy = False
        copies = count(1)
        for number in count(1):
            yield number, next(losses)
            if number in twice:
                yield number, NO_LOSS
            is_copy = not is_copy and bool(self.copies) and word(self.seed, OF_COPIES + self.way, next(copies)) < self.copies

    def has_passes(self) -> bool:
        """Returns whether packets pass the link a second time, with a drawn or chosen delay."""
        return bool(self.jitter or self.late)

    def delay(self, number: int) -> int:
        """Returns the delay of a packet's second pass, in ms."""
        drawn = word(self.seed, OF_JITTER + self.way, next(self.jitters)) % (self.jitter + 1) if self.jitter else 0
        return self.late.get(number, drawn)

    def flipped(self) -> int:
        """Counts the next packet that leaves the way; returns its number if the link flips one of its bits, otherwise 0."""
        number = next(self.leaving)
        return number if word(self.seed, OF_CORRUPTION + self.way, number) < self.corruption else 0

    def bit(self, number: int, bits: int) -> int:
        """Returns the place of a packet's flipped bit among `bits`; 0 for a packet without bits."""
        return word(self.seed, OF_BITS + self.way, number) % bits if bits else 0


def listed(text: str) -> set[int]:
    """Returns the numbers in a list such as `3,7-9`. ValueError: a range contains too many numbers."""
    ends = []
    for part in text.split(","):
        low, _, high = part.partition("-")
        ends.append((int(low), int(high or low)))
    if any(high - low > MOST_LISTED for low, high in ends):
        raise ValueError(f"{text}: too many packets")
    return {number for low, high in ends for number in range(low, high + 1)}
