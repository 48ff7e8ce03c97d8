"""Loss models, which determine each packet's word: the number from 0 to 2^31 - 1 that decides whether a link loses the packet.

A packet is lost if its word is below the loss rate of the pipe or queue times 2^31. Under `plr 0.5` the words LOST and KEPT lose
exactly the packets that a model chooses. Each direction uses a separate model, so that its words never depend on the
other direction.

    words = GilbertElliott(to_bad=0.01, to_good=0.3, seed=7, direction=1)
    first, second = words.next(), words.next()
"""

from __future__ import annotations

import math
import re
from dataclasses import dataclass, field
from fractions import Fraction
from typing import Callable, Collection, Optional, Protocol, Union

from hinge.captures.random_words import word
from hinge.run.words import WAYS, Wrong
from hingetulip_words.values import decimal

LOST = 0  # the word that each loss rate above 0 loses
KEPT = (1 << 31) - 1  # the word that only the loss rate 1 loses
PARTS = 1 << 31  # the program keeps a rate as a number of these parts
MOST_LISTED = 10**6  # the longest range of packets
Rate = Union[float, Fraction]


class Words(Protocol):
    """The words of a direction's packets, in order."""

    def next(self) -> int:
        """Returns the number that decides whether the direction's next packet is lost, from 0 to 2^31 - 1. The link loses the
        packet if the number is below the loss rate times 2^31."""


@dataclass
class Bernoulli:
    """Independent losses: random words, from which a link loses the share that its loss rate states."""

    seed: int = 1
    direction: int = 1
    drawn: int = field(default=0, init=False)

    def next(self) -> int:
        self.drawn += 1
        return word(self.seed, self.drawn, self.direction)


def parts(rate: Rate) -> int:
    """Returns a rate from 0 to 1 in units of 2^-31, rounded. ValueError: the number is no rate."""
    if not 0 <= rate <= 1:
        raise ValueError(f"{rate} isn't a rate from 0 to 1")
    return int(Fraction(rate) * PARTS + Fraction(1, 2))


@dataclass
class GilbertElliott:
    """Losses in clusters: the link is in a good or in a bad state, at first in the good state. A packet is lost at the rate of the
    state in which it finds the link, `in_good` or `in_bad`; then the state changes, at the rate `to_bad` or `to_good`."""

    to_bad: Rate
    to_good: Rate
    in_bad: Rate = 1
    in_good: Rate = 0
    # None stands for the seed and the direction of the model's link, or for 1 without a link.
    seed: Optional[int] = None
    direction: Optional[int] = None
    is_bad: bool = field(default=False, init=False)

    def __post_init__(self) -> None:
        self.losses = {True: parts(self.in_bad), False: parts(self.in_good)}
        self.changes = {True: parts(self.to_good), False: parts(self.to_bad)}
        self.bind(1, 1)

    def bind(self, seed: int, direction: int) -> None:
        """Sets the seed and direction from the model's link, unless the model sets them."""
        self.random = random_words(self, seed, direction)

    def next(self) -> int:
        is_lost = self.random.next() < self.losses[self.is_bad]
        if self.random.next() < self.changes[self.is_bad]:
            self.is_bad = not self.is_bad
        return LOST if is_lost else KEPT


@dataclass
class BurstsByTime:
    """Losses in bursts of time, regardless of the number of packets: a link works for `good` seconds on average, then loses all
    packets for `bad` seconds. A link of hingetulip.aio sets its clock."""

    good: float
    bad: float
    seed: Optional[int] = None
    direction: Optional[int] = None
    clock: Optional[Callable[[], float]] = None
    is_bad: bool = field(default=True, init=False)  # the state up to `until`; the first packet changes it to good
    until: float = field(default=0, init=False)  # the moment at which the state ends

    def __post_init__(self) -> None:
        if not (self.good > 0 and self.bad > 0):
            raise ValueError(f"bursts of {self.bad} s after {self.good} s: both have to be above 0")
        self.bind(1, 1)

    def bind(self, seed: int, direction: int) -> None:
        """Sets the seed and direction from the model's link, unless the model sets them."""
        self.random = random_words(self, seed, direction)

    def next(self) -> int:
        """Returns LOST during a burst, and KEPT otherwise. TypeError: the model lacks a clock."""
        if self.clock is None:
            raise TypeError("bursts by time are of a link that has a clock, as those of hingetulip.aio")
        now = self.clock()
        while self.until <= now:
            self.is_bad = not self.is_bad
            average = self.bad if self.is_bad else self.good
            self.until -= math.log1p(-self.random.next() / PARTS) * average
        return LOST if self.is_bad else KEPT


def random_words(model: Union[GilbertElliott, BurstsByTime], seed: int, direction: int) -> Bernoulli:
    """Returns a model's random words, with the link's seed and direction unless the model sets them."""
    return Bernoulli(
        seed if model.seed is None else model.seed,
        direction if model.direction is None else model.direction,
    )


@dataclass
class Chosen:
    """Losses of the packets that a function chooses by their numbers, which count from 1."""

    is_lost: Callable[[int], bool]
    number: int = field(default=0, init=False)

    def next(self) -> int:
        self.number += 1
        return LOST if self.is_lost(self.number) else KEPT


class Listed(Chosen):
    """Losses of the packets with these numbers, which count from 1."""

    def __init__(self, numbers: Collection[int]) -> None:
        super().__init__(frozenset(numbers).__contains__)


def read_numbers(text: str) -> list[int]:
    """Returns the numbers in a text such as `3,17-20`. ValueError: a part is neither a number from 1 nor a range."""
    numbers: list[int] = []
    for part in text.split(","):
        numbers.extend(read_range(part))
    if len(set(numbers)) < len(numbers):
        raise ValueError(f"{text} names a packet twice")
    return numbers


def read_range(text: str) -> range:
    """Returns the numbers in a text such as `3` or `17-20`. ValueError: the text has another form, or the range is too long."""
    match = re.fullmatch(r"(\d{1,9})(?:-(\d{1,9}))?", text)
    if match is not None:
        low = int(match[1])
        high = int(match[2] or match[1])
        if 1 <= low <= high < low + MOST_LISTED:
            return range(low, high + 1)
    raise ValueError(f"{text!r} isn't the number of a packet or a range (examples: 3, 17-20)")


def read_rates(text: str) -> list[Fraction]:
    """Returns the four rates of a Gilbert-Elliott model; two are optional. ValueError: the text has another form."""
    texts = text.split(",")
    if not 2 <= len(texts) <= 4 or not all(re.fullmatch(r"\d+(\.\d+)?|\.\d+", rate) for rate in texts):
        raise ValueError(f"{text!r} isn't of the form TO_BAD,TO_GOOD[,IN_BAD[,IN_GOOD]], rates from 0 to 1")
    rates = [Fraction(rate) for rate in texts]
    for rate in rates:
        parts(rate)
    return rates + [Fraction(1), Fraction(0)][len(rates) - 2 :]


Maker = Callable[[int, int], Words]  # creates a model from a seed and a direction


def read_model(text: str) -> Maker:
    """Returns a function that creates a direction's model, for a text such as `gilbert:0.01,0.3` or `list:3,17-20`. ValueError: the
    text has another form."""
    kind, _, rest = text.partition(":")
    if kind == "gilbert":
        to_bad, to_good, in_bad, in_good = read_rates(rest)
        return lambda seed, direction: GilbertElliott(to_bad, to_good, in_bad, in_good, seed, direction)
    if kind == "list":
        numbers = read_numbers(rest)
        return lambda seed, direction: Listed(numbers)
    raise ValueError(f"{text!r} begins with neither gilbert: nor list:")


def gilbert(text: str) -> str:
    """Returns a Gilbert-Elliott model's numbers for the plan, the text with instructions to hinge-link. In the form `P,R[,B[,G]]`
    P and R are the chances to turn bad and to turn good, and B and G the loss rates in the two states."""
    to_bad, to_good, in_bad, in_good = (parts(rate) for rate in read_rates(text))
    return f"{to_bad} {to_good} {in_good} {in_bad}"


def packet_ranges(text: str) -> str:
    """Returns the plan's numbers for packets such as `3,10-20`, which count from 1."""
    return " ".join(map(str, sorted(read_numbers(text))))


MODELS = {"gilbert": gilbert, "list": packet_ranges}
FORMS = "none of gilbert:P,R[,B[,G]] and list:N,N-M (examples: gilbert:0.01,0.3 and list:3,17-20)"


def percentage_of(text: str) -> str:
    """Returns a loss rate as a percentage, such as `1%`; an empty text if the text is no rate."""
    match = re.fullmatch(r"(\d+(?:\.\d+)?|\.\d+)(%?)", text)
    if match is None:
        return ""
    rate = Fraction(match[1])
    is_percentage = match[2] or rate > 1
    return decimal(rate if is_percentage else rate * 100) + "%"


def loss_lines(text: str, link: int = 0) -> dict[int, str]:
    """Returns the plan's lines for a link's loss model, by the way's number (a way is one direction of a link). Wrong: the text
    isn't like `[up:|down:]gilbert:P,R[,B[,G]]` or `[up:|down:]list:N,N-M`."""
    ways = [0, 1]
    model = text
    first, _, rest = text.partition(":")
    if first in WAYS:
        ways = [WAYS[first]]
        model = rest
    kind, _, value = model.partition(":")
    try:
        if kind not in MODELS:
            raise ValueError
        numbers = MODELS[kind](value)
        return {2 * link + way: f"{kind} {2 * link + way} {numbers}" for way in ways}
    except ValueError as wrong:
        why = str(wrong) if "twice" in str(wrong) else FORMS
        rate = percentage_of(text)
        if rate:
            why += f"; write a rate in the link: 20ms loss {rate}"
        raise Wrong(f"--loss {text}: {why}") from None


def model_name(text: str) -> str:
    """Returns the model's name for a picture, without a list's numbers if there are too many."""
    first, _, more = text.partition(":")
    model = more if first in WAYS else text
    return "list" if model.startswith("list:") else model
