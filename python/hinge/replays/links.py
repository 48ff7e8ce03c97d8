"""The configuration for each row: the link that carries the row, and the parts of the row's delay.

The configuration at a packet's arrival decides whether the packet is lost, dropped or accepted. The configuration at the
transmission's start decides the bandwidth and the delay. In a replay, all lines precede the first packet."""

from __future__ import annotations

from dataclasses import dataclass
from functools import cached_property
from typing import Callable, NamedTuple, Optional

from hinge.border.files import MOST_TEXT, read_bytes, untrusted
from hinge.command import CONFIGURATION, ROWS, Fault
from hinge.configurations.configured import InForce, LineFault, Pipe, Queue, Setting, setting_of, spelled_lines
from hinge.lazy import Integers, Mask, few as np
from hinge.replays.columns import LineChange
from hinge.replays.groups import places_of
from hinge.replays.replay import NONE, Replay

NS_PER_MS, BITS_NS = 10**6, 8 * 10**9
RECORD, MOMENT = 0, 1  # a spell's fields
UNKNOWN = -1
WORDS_OF_NOBODY = 0, 255 << 48  # the two 64-bit numbers of the five-tuple that marks an outage's packets
BEFORE_ALL = -1  # the record of a command that came before each call


class Spell(NamedTuple):
    """Describes a pipe or queue from a command on: the number of the command's record in the history, the command's moment in ns,
    the pipe or queue, and the pipe's or queue's setting. After a delete there is no setting."""

    record: int
    moment: int
    target: tuple[str, int]
    setting: Optional[Setting]


@dataclass(frozen=True)
class Configuration:
    """Holds the commands that configure pipes and queues, in the program's spelling, each with record and moment."""

    path: str
    changes: list[LineChange]

    @cached_property
    def lines(self) -> list[str]:
        return [text for _, _, text in self.changes]

    @cached_property
    def last(self) -> InForce:
        """The pipes and queues after all lines, by number."""
        return InForce(self.lines)

    @cached_property
    def spells(self) -> list[Spell]:
        each = ((record, moment, setting_of(text)) for record, moment, text in self.changes)
        return [Spell(record, moment, (kind, number), setting) for record, moment, (kind, number, setting) in each]

    @cached_property
    def by_target(self) -> dict[tuple[str, int], list[int]]:
        """The places of each pipe's and queue's spells in the list `spells`."""
        table: dict[tuple[str, int], list[int]] = {}
        for place, spell in enumerate(self.spells):
            table.setdefault(spell.target, []).append(place)
        return table

    def places(self, target: tuple[str, int], before: Integers, key: int) -> Integers:
        """Returns the place of the target's spell before each record or moment in `before`; UNKNOWN if the target wasn't configured
        then. `key` is RECORD or MOMENT."""
        own = self.by_target.get(target, [])
        begins = np.array([self.spells[place][:2][key] for place in own], np.int64)
        in_force = [place if self.spells[place].setting else UNKNOWN for place in own]
        table = np.array([UNKNOWN, *in_force], np.int64)
        if len(before) and begins.max(initial=BEFORE_ALL) < before.min():
            return np.full(len(before), table[-1])
        found: Integers = table[np.searchsorted(begins, before, side="left")]
        return found

    @cached_property
    def tables(self) -> dict[Callable[[Setting], int], Integers]:
        """A column of the spells' values for each function that a caller passed to `values`."""
        return {}

    def values(self, places: Integers, value: Callable[[Setting], int]) -> Integers:
        """Returns a value, such as the bandwidth, from the spell at each place; 0 for UNKNOWN, and after a delete."""
        if value not in self.tables:
            numbers = [value(spell.setting) if spell.setting else 0 for spell in self.spells]
            self.tables[value] = np.array([*numbers, 0], np.int64)  # the last number is that of UNKNOWN, which is -1
        found: Integers = self.tables[value][places]
        return found


def read_configuration(path: str) -> Configuration:
    try:
        with untrusted(path, CONFIGURATION):
            return Configuration(path, [(BEFORE_ALL, 0, line) for line in spelled_lines(read_bytes(path, MOST_TEXT))])
    except LineFault as fault:
        raise Fault(f"{path}: {fault}", CONFIGURATION) from None


def pipe_of(setting: Setting) -> int:
    return setting.pipe if isinstance(setting, Queue) else setting.number


def bandwidth_of(setting: Setting) -> int:
    return setting.bw if isinstance(setting, Pipe) else 0


def delay_of(setting: Setting) -> int:
    """Returns a pipe's delay in ns, or 0 for a queue."""
    return setting.delay * NS_PER_MS if isinstance(setting, Pipe) else 0


def loss_of(setting: Setting) -> int:
    return setting.loss


@dataclass(frozen=True)
class Parts:
    """Splits the time for each row that left into four parts: waiting, transmission, delay, and the time that the row stayed behind
    the previous row, if the link's delay became shorter."""

    replay: Replay
    configuration: Configuration

    @cached_property
    def own(self) -> Integers:
        """The place of the spell that decided each row's fate; UNKNOWN if the row's target wasn't configured."""
        packets = self.replay.packets
        spell_of_row = np.full(len(packets), UNKNOWN, np.int64)
        for target, rows in zip(packets.targets, places_of(packets.target, len(packets.targets))):
            spell_of_row[rows] = self.configuration.places(target, self.replay.submitted[rows], RECORD)
        return spell_of_row

    @cached_property
    def pipe(self) -> Integers:
        """Returns, for each row of the history, the number of the pipe that carries the row's packet; 0 for a row without a
        pipe."""
        return self.configuration.values(self.own, pipe_of)

    @cached_property
    def carrier(self) -> Integers:
        """The place of the pipe's spell at the start of each row's transmission. If the row didn't wait or didn't leave, this is
        the spell at the row's arrival."""
        replay = self.replay
        spell_of_row = np.full(len(self.own), UNKNOWN, np.int64)
        for number, rows in enumerate(places_of(self.pipe, int(self.pipe.max(initial=0)) + 1)):
            if number == 0:
                continue  # these rows have no pipe
            start = replay.start[rows]
            if len(start):
                on_coming = self.configuration.places(("pipe", number), replay.submitted[rows], RECORD)
                later = self.configuration.places(("pipe", number), start, MOMENT)
                spell_of_row[rows] = np.where(start > replay.at[rows], later, on_coming)
        return spell_of_row

    @cached_property
    def carried(self) -> Integers:
        """The number of rows without a spell that left, followed by the number of rows that each spell carried."""
        return np.bincount(self.carrier[self.replay.is_out] + 1)

    @cached_property
    def of_nobody(self) -> int:
        """The number of the five-tuple for packets with which a host keeps a link busy in an outage, or UNKNOWN."""
        words = self.replay.packets.words
        is_history = self.configuration.path == self.replay.path
        return words.number_of(*WORDS_OF_NOBODY) if words and is_history else UNKNOWN

    @cached_property
    def of_outages(self) -> set[int]:
        """The places of the spells that only slow a link down for an outage's packet."""
        return {*self.carrier[self.replay.packets.five_tuple == self.of_nobody].tolist()} - {UNKNOWN}

    @cached_property
    def transmission(self) -> Integers:
        """Returns the transmission times in ns, rounded up; 0 if the bandwidth is unlimited."""
        spells = self.configuration.spells
        length = self.replay.packets.length
        times = np.zeros(len(length), np.int64)
        for spell, rows in zip(spells, places_of(self.carrier + 1, len(spells) + 1)[1:]):
            bandwidth = bandwidth_of(spell.setting) if spell.setting else 0
            if bandwidth:
                times[rows] = -(length[rows] * -BITS_NS // bandwidth)
        return times

    def delay_and_behind(self, rows: slice) -> tuple[Integers, Integers]:
        """Returns rows' delays, and the ns for which each row stayed behind the previous row on a link with a shortened delay."""
        replay = self.replay
        delay = self.configuration.values(self.carrier[rows], delay_of)
        left = replay.due[rows] - replay.start[rows] - self.transmission[rows] - delay
        return delay, np.where(replay.is_out[rows], left, 0)

    @cached_property
    def is_shared(self) -> Mask:
        """Returns whether each row used a queue, which shares its pipe's link."""
        kinds = np.array([kind == "queue" for kind, _ in self.replay.packets.targets], dtype=bool)
        return kinds[self.replay.packets.target] if len(kinds) else kinds

    @cached_property
    def link(self) -> Integers:
        """Returns a number for each row's link: a flow's number, or a negative number for a pipe with queues."""
        return np.where(self.is_shared, -1 - self.pipe, self.replay.flow)

    def check(self) -> Parts:
        """Checks the parts; returns this object. Fault: a row's parts don't add up to its delay, so the configuration is wrong."""
        _, behind = self.delay_and_behind(slice(None))
        wrong = behind < 0
        if len(self.configuration.by_target) == len(self.configuration.spells):  # no delay became shorter
            wrong |= behind > 0
        wrong |= (self.own == UNKNOWN) & (self.replay.event != NONE)
        if wrong.any():
            raise self.another(f"row {int(np.argmax(wrong)) + 1} would have fared otherwise")
        return self

    def another(self, what: str) -> Fault:
        """Returns the fault that something else, which `what` describes, would have happened with this configuration."""
        path = self.replay.path
        own = self.configuration.path
        if path == own:
            return Fault(f"{what} by {own}: `dummynet audit {path}` says where it isn't lawful", ROWS)
        return Fault(f"{what} by {own}: {path} is the report of another configuration", ROWS)
