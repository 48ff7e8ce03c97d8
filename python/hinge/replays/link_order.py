"""Each link's packets in transmission order, and each flow's backlog."""

from __future__ import annotations

from dataclasses import dataclass, field
from functools import cached_property
from typing import NamedTuple

from hinge.lazy import Integers, few as np
from hinge.loss import KEPT
from hinge.replays.columns import GREATEST, LAST_OF_LINKS
from hinge.replays.links import BITS_NS, MOMENT, UNKNOWN, Parts, bandwidth_of, delay_of
from hinge.replays.replay import HELD


@dataclass(frozen=True)
class WaitedFor:
    """Holds the packets that a packet waited for, with each packet's transmission time in ns.

    If the first packet was under transmission at the packet's arrival, only the rest of that time counts.
    """

    places: Integers
    costs: Integers
    first_was_sending: bool


@dataclass(frozen=True)
class Sent:
    """Holds the places of a link's packets in the order in which their transmissions started, and these starts."""

    places: Integers
    starts: Integers


@dataclass(frozen=True)
class Accepted:
    """Holds the places of a flow's packets in queue order, the starts of the transmissions, and for each packet the record of the
    delete that discarded the packet, or GREATEST. A packet that hadn't left a shared link starts at GREATEST, since no record
    contains its start."""

    places: Integers
    starts: Integers
    gone: Integers

    @cached_property
    def latest(self) -> Integers:
        """Returns the greatest start up to each packet."""
        latest: Integers = np.maximum.accumulate(self.starts)
        return latest


class Times(NamedTuple):
    """Holds the start of a packet's transmission, and the lengths of the transmission and the delay, in ns."""

    start: int
    transmission: int
    delay: int


@dataclass
class LinkOrder:
    """Finds the packets ahead of a packet. Each link's and each flow's sequence of packets is created on demand."""

    parts: Parts
    links: dict[int, Sent] = field(default_factory=dict)
    flows: dict[int, Accepted] = field(default_factory=dict)

    def sent_on(self, link: int) -> Sent:
        """Returns the packets that left on a link."""
        if link not in self.links:
            replay = self.parts.replay
            places = np.flatnonzero(replay.is_out & (self.parts.link == link))
            places = places[np.lexsort((replay.packet[places], replay.start[places]))]
            self.links[link] = Sent(places, replay.start[places])
        return self.links[link]

    def wait(self, place: int) -> WaitedFor:
        """Returns the packets that a packet waited for before it left."""
        replay = self.parts.replay
        transmission = self.parts.transmission
        link = self.sent_on(int(self.parts.link[place]))
        at = replay.at[place]
        first = int(np.searchsorted(link.starts, at, side="right"))
        own = int(np.searchsorted(link.starts, replay.start[place], side="left"))
        rest = int(link.starts[first - 1] + transmission[link.places[first - 1]] - at) if first else 0
        if rest <= 0:
            places = link.places[first:own]
            return WaitedFor(places, transmission[places], False)
        places = link.places[first - 1 : own]
        costs = transmission[places]
        costs[0] = rest
        return WaitedFor(places, costs, True)

    def before(self, place: int) -> int:
        """Returns the place of the packet that the link sent before this packet, or UNKNOWN."""
        link = self.sent_on(int(self.parts.link[place]))
        at = int(np.flatnonzero(link.places == place)[0])
        return int(link.places[at - 1]) if at else UNKNOWN

    def deleted(self, place: int) -> tuple[int, int]:
        """Returns the record and moment of the first delete of the queue or pipe after a packet's arrival; both are GREATEST
        without a delete."""
        parts = self.parts
        packets = parts.replay.packets
        targets = {packets.targets[int(packets.target[place])], ("pipe", int(parts.pipe[place]))}
        numbers = sorted(number for target in targets for number in parts.configuration.by_target.get(target, []))
        for number in numbers:
            spell = parts.configuration.spells[number]
            if spell.setting is None and spell.record > parts.replay.submitted[place]:
                return spell.record, spell.moment
        return GREATEST, GREATEST

    def times_of_held(self, place: int, free: int) -> Times:
        """Returns the times of a packet that hadn't left at the end, if its link serves a single flow and is free from `free`
        on."""
        parts = self.parts
        start = max(free, int(parts.replay.at[place]))
        spell = parts.carrier[place : place + 1]
        if start > parts.replay.at[place]:
            spell = parts.configuration.places(("pipe", int(parts.pipe[place])), np.array([start]), MOMENT)
        bandwidth, delay = (int(parts.configuration.values(spell, value)[0]) for value in (bandwidth_of, delay_of))
        bits_ns = int(parts.replay.packets.length[place]) * BITS_NS
        transmission = -(-bits_ns // bandwidth) if bandwidth else 0  # rounded up
        return Times(start, transmission, delay)

    def accepted_of(self, flow: int) -> Accepted:
        """Returns a flow's accepted packets, in queue order."""
        if flow not in self.flows:
            parts = self.parts
            replay = parts.replay
            places = np.flatnonzero((replay.is_out | (replay.event == HELD)) & (replay.flow == flow))
            starts = replay.start[places]
            gone = np.full(len(places), GREATEST)
            free = 0  # the moment from which the link is free
            for number in np.flatnonzero(replay.event[places] == HELD).tolist():
                place = int(places[number])
                before = int(places[number - 1]) if number else None
                if before is not None and replay.is_out[before]:
                    free = int(replay.start[before] + parts.transmission[before])
                record, moment = self.deleted(place)
                times = self.times_of_held(place, GREATEST if parts.is_shared[place] else free)
                if times.start > moment:
                    starts[number] = GREATEST
                    gone[number] = record
                    continue
                starts[number] = times.start
                if not parts.is_shared[place]:
                    free = times.start + times.transmission
            self.flows[flow] = Accepted(places, starts, gone)
        return self.flows[flow]

    def backlog(self, place: int) -> Integers:
        """Returns the places of the packets in the flow's queue when a row arrived."""
        replay = self.parts.replay
        queue = self.accepted_of(int(self.parts.replay.flow[place]))
        # the packets from `first` to `end` came before the row; the packets in front of them had left
        first = int(np.searchsorted(queue.latest, replay.at[place], side="right"))
        end = int(np.searchsorted(queue.places, place))
        near = slice(first, max(first, end))
        waited = (queue.starts[near] > replay.at[place]) & (queue.gone[near] > replay.submitted[place])
        places: Integers = queue.places[near][waited]
        return places

    @cached_property
    def further(self) -> dict[int, int]:
        """Returns the second row for each packet that a host passed to a second pipe, with the place of the packet's first row. The
        host passes a packet on at once after the packet left. If equal packets left together, the earlier packet is passed on
        first."""
        replay, packets = self.parts.replay, self.parts.replay.packets
        is_second_pipe = [kind == "pipe" and number > LAST_OF_LINKS for kind, number in packets.targets]
        if not any(is_second_pipe):
            return {}
        is_again = np.array(is_second_pipe)[packets.target] & (packets.word == KEPT)
        if not is_again.any():
            return {}
        records = np.concatenate((replay.submitted, replay.handed[replay.is_out]))
        places = np.concatenate((np.arange(len(packets)), -1 - np.flatnonzero(replay.is_out)))
        left = list[int]()  # the packets that left at once before the record
        table = dict[int, int]()
        for place in places[np.argsort(records)].tolist():  # a negative number is a packet that leaves, -1 - place
            leaver = -1 - place
            if place < 0:
                if left and replay.handed[left[-1]] != replay.handed[leaver] - 1:
                    left = []
                left.append(leaver)
            elif not is_again[place]:
                left = []
            else:
                first = next((earlier for earlier in left if earlier not in table and self.is_alike(earlier, place)), None)
                if first is not None:
                    table[first] = place
        return table

    def is_alike(self, place: int, other: int) -> bool:
        packets = self.parts.replay.packets
        return bool(packets.five_tuple[place] == packets.five_tuple[other] and packets.length[place] == packets.length[other])
