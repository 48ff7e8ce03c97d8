"""The check of a transcript's random words, second passes and flipped bits: the seed drew them, or a model or chosen packets
decide."""

from __future__ import annotations

from collections import defaultdict
from typing import Optional

from hinge.plans.courses import Course
from hinge.plans.draws import LOSS, Draws
from hinge.plans.meaning import Meaning
from hinge.plans.of_hosts import MS, OfHosts
from hinge.plans.spelling import LineOptions, Target

WORD = 6  # the place of a packet's random word


class OfDraws(OfHosts):
    """Checks the random numbers, second passes and flipped bits in a transcript against the seed, the models and the chosen
    packets. A packet's word is the random number that decides whether the link loses the packet."""

    def __init__(self, meaning: Meaning, limit: int) -> None:
        """Acts on hosts may be late by the limit, in ns."""
        super().__init__(meaning, limit)
        self.in_force: dict[Target, LineOptions] = {}  # the latest options of each pipe and queue
        self.of = defaultdict[Target, Course](Course)
        self.seed: Optional[int] = None
        self.draws: dict[int, Draws] = {}  # by pipes
        self.passing: dict[str, tuple[Draws, int]] = {}  # packets before their second pass, and their numbers on the way
        self.left: list[tuple[Draws, int]] = []  # the packets whose second pass begins next
        self.leaving: dict[str, Draws] = {}  # packets on their last pass, of which the link may flip a bit
        self.flips: dict[
            str, tuple[Draws, int]
        ] = {}  # packets that left with a flipped bit, and their numbers among those that left
        self.middles: dict[str, int] = {}  # the way's pipe of each point at which a jitter begins
        self.way_of: dict[int, int] = {}  # the way's pipe of each pipe for a second pass

    def name(self, target: Target) -> str:
        """Returns a way's two hosts for messages, or the target's kind and number if the target isn't a link's pipe."""
        link, way = divmod(target[1] - 1, 2)
        if target[0] == "queue" or link >= len(self.meaning.links):
            return f"{target[0]} {target[1]}"
        return " > ".join(self.meaning.links[link][:: 1 - 2 * way])

    def delay(self, pipe: Target) -> int:
        """Returns a pipe's present delay in ns."""
        return int((self.in_force.get(pipe) or {}).get("delay", 0)) * MS

    def drawn(self, pipe: int, moment: int, packet: list[str], number: str) -> None:
        """Reports a packet whose random word isn't the one from the seed, the model or the chosen packets."""
        if self.seed is None or pipe in self.meaning.undrawn:
            return
        if pipe not in self.draws:
            words = self.meaning.words.get(pipe, [])
            model = self.meaning.models.get(pipe, "")
            self.draws[pipe] = Draws(self.seed, pipe - 1, words, model, self.meaning.chosen.get(pipe))
        draws = self.draws[pipe]
        place, word = next(draws.packets)
        wanted = self.words_in_cuts(self.of["pipe", pipe], moment, packet, word)
        if int(packet[WORD]) not in wanted:
            name = self.name(("pipe", pipe))
            self.fault(
                moment,
                f"packet {place} of {name} has the random word {packet[WORD]}: {draws.model or 'the seed'} draws {min(wanted)}",
            )
        if number and draws.has_passes():
            self.passing[number] = draws, place
        elif number and draws.corruption:
            self.leaving[number] = draws

    @staticmethod
    def words_in_cuts(course: Course, moment: int, packet: list[str], word: int) -> set[int]:
        """Returns the random words that a packet may have: the drawn word, or the word of a lost packet if a cut loses the packet's
        port but not all packets; both if that is in doubt."""
        states = [[course.is_cut(at, port) for at in (moment - 1, moment)] for port in course.ports_of(packet)]
        is_all = set[bool]().union(*(course.is_cut(at) for at in (moment - 1, moment)))
        may_be_lost = False in is_all and any(True in state for of_port in states for state in of_port)
        must_be_lost = True not in is_all and any(of_port == [{True}, {True}] for of_port in states)
        if must_be_lost:
            return {LOSS}
        return {LOSS, word} if may_be_lost else {word}

    def passed_again(self, moment: int, pipe: Target, number: str) -> None:
        """Reports a packet whose second pass has another delay than was drawn or chosen, or has a delay that no line requests.
        Packets begin the second pass in the order in which they left the first."""
        delay = self.delay(pipe) // MS
        way = self.way_of.get(pipe[1])
        if way in self.meaning.undrawn or way is None and self.meaning.undrawn:
            return
        first = next((place for place, (draws, _) in enumerate(self.left) if way in (None, draws.way + 1)), None)
        if first is None:
            if self.seed is not None:
                self.fault(moment, f"a packet is late by {delay} ms, for which no line asks")
            return
        draws, place = self.left.pop(first)
        if number and draws.corruption:
            self.leaving[number] = draws
        wanted = draws.delay(place)
        if delay != wanted:
            name = self.name(("pipe", draws.way + 1))
            self.fault(moment, f"packet {place} of {name} is late by {delay} ms: {wanted} ms were drawn or chosen")

    def flipped(self, number: str, bit: int, bits: int) -> None:
        """Reports a packet with a flipped bit if the seed flips another bit, or none. `bits` is the number of the packet's bits."""
        draws, place = self.flips.pop(number, (None, 0))
        if draws and bit != draws.bit(place, bits):
            self.fault(self.now, f"bit {bit} of packet {number} was flipped: the seed draws {draws.bit(place, bits)} of {bits}")
        elif not draws and not any("corrupt" in self.meaning.words.get(pipe, ()) for pipe in self.meaning.undrawn):
            self.fault(self.now, f"a bit of packet {number} was flipped, for which no line asks")

    def no_flips(self) -> None:
        """Reports packets that have left without the flip of a bit that the seed drew."""
        while self.flips:
            self.fault(self.now, f"packet {self.flips.popitem()[0]} left whole: the seed flips one of its bits")
