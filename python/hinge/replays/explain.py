"""The explanation of a packet's course, in a paragraph whose figures add up exactly."""

from __future__ import annotations

from dataclasses import dataclass

from hinge.arguments import TABLE_FLOWS
from hinge.command import ROWS, Fault
from hinge.configurations.configured import Pipe, Queue
from hinge.lazy import Integers, few as np
from hinge.loss import KEPT, LOST as LOST_WORD
from hinge.replays.columns import GREATEST, Lazily
from hinge.replays.groups import Groups
from hinge.replays.link_order import LinkOrder, WaitedFor
from hinge.replays.links import BITS_NS, UNKNOWN, Parts, bandwidth_of, delay_of, loss_of
from hinge.replays.replay import FULL, HELD, LOST, NONE, OUT
from hinge.replays.spell_times import SpellTimes
from hinge.replays.units import ms, packets, rows, seconds

LAST_MOMENT = 2**62  # in ns: the end of a replay
LOSS_PARTS = 2**31
LOW_31_BITS = LOSS_PARTS - 1
BYTES_PER_KBYTE = 1024


def clause(text: str) -> str:
    """Returns a text behind a comma; an empty text if there is no text."""
    return f", {text}" if text else ""


@dataclass
class Explainer:
    """Explains a replay's rows. Fault: the rows came from several callers, so the queues are unknown."""

    parts: Parts

    def __post_init__(self) -> None:
        self.replay = self.parts.replay
        self.packets = self.replay.packets
        self.times = SpellTimes(self.parts)
        self.order = LinkOrder(self.parts)
        self.is_history = self.parts.configuration.path == self.replay.path
        if (self.replay.at != np.maximum.accumulate(self.packets.moment)).any():
            why = "its rows didn't come in their order, as those of several callers: no queue can be told"
            raise Fault(f"{self.replay.path}: {why}", ROWS)

    def paragraph(self, row: int) -> str:
        """Returns the paragraph for a row of the packet file, counted from 1. Fault: there is no such row."""
        if not 1 <= row <= len(self.packets):
            raise Fault(f"{self.packets.path} has {len(self.packets)} rows, and no row {row}", ROWS)
        place = row - 1
        if self.is_outage(place) and self.replay.is_out[place]:
            return f"Row {row} is a packet that nobody sent. It stands for {self.outage(place)}."
        tell = {OUT: self.delivered, HELD: self.held, LOST: self.lost, FULL: self.full, NONE: self.untargeted}
        return f"{self.sent(place)} {tell[int(self.replay.event[place])](place)}"

    # ---- what every packet has ----

    def own(self, place: int) -> Pipe | Queue:
        """Returns the pipe or queue of a row with a target. Fault: this configuration has no such target."""
        number = int(self.parts.own[place])
        setting = None if number == UNKNOWN else self.parts.configuration.spells[number].setting
        if setting is None:
            raise self.parts.another(f"row {place + 1} would have had no target")
        return setting

    def is_outage(self, place: int) -> bool:
        return bool(self.packets.five_tuple[place] == self.parts.of_nobody and self.packets.word[place] == KEPT)

    def shades(self, end: int) -> set[tuple[int, int]]:
        """Returns the spans in ns in which a pipe held all packets in an outage, or lost all packets, but not from the beginning.
        Losses without an end last to `end`."""
        lossy = [
            self.times.time_of(number, loss_of)
            for number, spell in enumerate(self.parts.configuration.spells)
            if spell.setting is not None and spell.setting.loss == LOSS_PARTS
        ]
        spans = {(since, until or end) for since, until in lossy if since is not None}
        outages = np.flatnonzero((self.packets.five_tuple == self.parts.of_nobody) & self.replay.is_out)
        begins = self.replay.start[outages]
        ends = begins + self.parts.transmission[outages]
        return spans | set(zip(begins.tolist(), ends.tolist()))

    def outage(self, place: int) -> str:
        """Describes the outage that a packet without a sender represents: during this transmission, the link holds all other
        packets."""
        start = int(self.replay.start[place])
        end = start + int(self.parts.transmission[place])
        return f"an outage, in which pipe {self.parts.pipe[place]} held packets from {seconds(start)} to {seconds(end)}"

    def target_name(self, place: int) -> str:
        kind, number = self.packets.targets[int(self.packets.target[place])]
        return f"{kind} {number}"

    def sent(self, place: int) -> str:
        moment, at = int(self.packets.moment[place]), int(self.replay.at[place])
        late = ""
        if moment < at:
            late = f" (its own moment is {seconds(moment)}, and a row before it had come later)"
        name = self.packets.tuple_name(self.packets.five_tuple[place])
        length = int(self.packets.length[place])
        return f"Row {place + 1} ({name}, {length:,} bytes) was sent to {self.target_name(place)} at {seconds(at)}{late}."

    def link_name(self, place: int) -> str:
        pipe = int(self.parts.pipe[place])
        if not self.parts.is_shared[place]:
            return f"the link of flow {self.replay.flow[place]} (pipe {pipe})"
        return f"pipe {pipe}, which its queues share"

    def flow_name(self, place: int) -> str:
        """Returns the name of a packet's flow, with the target and a queue's weight."""
        own = self.own(place)
        weight = f", weight {own.weight}" if isinstance(own, Queue) else ""
        return f"flow {self.replay.flow[place]} ({self.target_name(place)}{weight})"

    # ---- packets that left ----

    def delivered(self, place: int) -> str:
        """Describes the course of a packet that left: waiting, transmission and delay, and their sum."""
        parts = self.parts
        sending = int(parts.transmission[place])
        delay, behind = (int(column[0]) for column in parts.delay_and_behind(slice(place, place + 1)))
        at, start, due = (int(column[place]) for column in (self.replay.at, self.replay.start, self.replay.due))
        wait = start - at
        total = f"{ms(due - at)} = {ms(wait)} waiting + {ms(sending)} transmission + {ms(delay)} delay"
        in_force = self.times.in_force(int(parts.carrier[place]), delay_of)
        sentences = [self.waiting(place, wait), self.sending(place), f"The link's delay was {ms(delay)}{clause(in_force)}."]
        if behind:
            sentences.append(self.stayed_behind(place, behind))
            total = f"{total} + {ms(behind)} behind another"
        sentences.append(f"In all it took {total}, and it left at {seconds(due)}.")
        flip = self.replay.flips.get(int(self.replay.packet[place]))
        if flip:
            sentences.append(f"Bit {flip[0]} of {flip[1]:,} behind its header, counted from the last, was flipped as it left.")
        further = self.order.further.get(place) if self.is_history else None
        if further is not None:
            sentences.append(f"It went on as row {further + 1}, for its jitter or a delay of its own.")
        return " ".join(sentences)

    def stayed_behind(self, place: int, behind: int) -> str:
        """Describes a packet that doesn't leave before its predecessor on the link, though the delay became shorter."""
        before = self.order.before(place)
        if before == UNKNOWN or self.replay.due[before] != self.replay.due[place]:
            raise self.parts.another(f"row {place + 1} would have left {ms(behind)} earlier")
        return f"It stayed {ms(behind)} more behind row {before + 1}, since a link keeps the order of its packets when its delay becomes shorter."

    def sending(self, place: int) -> str:
        carrier = int(self.parts.carrier[place])
        bandwidth = int(self.parts.configuration.values(np.array([carrier]), bandwidth_of)[0])
        if bandwidth == 0:
            return "Its transmission took no time, since the bandwidth is unlimited."
        length, took = int(self.packets.length[place]), int(self.parts.transmission[place])
        rounding = "" if length * BITS_NS % bandwidth == 0 else ", rounded up to whole ns"
        in_force = self.times.in_force(carrier, bandwidth_of)
        if " to " in in_force and self.parts.carried[carrier + 1] == 1:
            in_force = f"{in_force} for this packet alone, as a trace or an outage has it"
        return f"Its transmission took {ms(took)} ({length:,} bytes at {bandwidth:,} bit/s{rounding}{clause(in_force)})."

    def waiting(self, place: int, delay: int) -> str:
        if delay == 0:
            return "The link was free, so its transmission began at once."
        wait = self.order.wait(place)
        total = int(wait.costs.sum())
        if total != delay:
            raise self.parts.another(f"row {place + 1} would have waited {ms(total)}")
        return f"It waited {ms(delay)} for {self.link_name(place)}: {'; '.join(self.waited_for(place, wait))}."

    def waited_for(self, place: int, wait: WaitedFor) -> list[str]:
        """Returns a text with the transmission time for each flow ahead of a packet. Many small flows share a text."""
        lines = list[str]()
        places = wait.places
        costs = wait.costs
        own = int(self.replay.flow[place])
        if wait.first_was_sending:
            lines.append(f"{ms(int(costs[0]))} until {self.end_of_sending(place, int(places[0]))}")
            places, costs = places[1:], costs[1:]
        places, costs, others = self.largest(place, places, costs)
        columns = (column[places].tolist() for column in (self.packets.five_tuple, self.packets.word, self.replay.flow))
        flows: dict[int, dict[int, int]] = {}
        for ahead, cost, five_tuple, word, flow in zip(places.tolist(), costs.tolist(), *columns):
            if five_tuple == self.parts.of_nobody and word == KEPT:
                lines.append(f"{ms(cost)} for {self.outage(ahead)}")
            else:
                flows.setdefault(flow, {})[ahead] = cost
        numbers = sorted(flows, key=lambda flow: (flow != own, flow))
        return [*lines, *(self.group(place, flow == own, flows[flow]) for flow in numbers), *others]

    def end_of_sending(self, place: int, first: int) -> str:
        """Describes the end of the transmission that was under way when a packet arrived: of packet `first`, or of an outage."""
        if self.is_outage(first):
            return f"the end of {self.outage(first)}"
        whose = f" of {self.flow_name(first)}" if self.parts.is_shared[place] else ""
        return f"row {first + 1}{whose}, which was under transmission, had been sent"

    def largest(self, place: int, places: Integers, costs: Integers) -> tuple[Integers, Integers, list[str]]:
        """Returns the packets and costs for this flow and the largest flows, as many as a table lists, and a text about the other
        flows."""
        if len(places) <= TABLE_FLOWS or not self.parts.is_shared[place]:
            return places, costs, []
        flow, own = self.replay.flow[places], self.replay.flow[place]
        flows = Groups(flow, Lazily(int(flow.max()) + 1, str)).largest(np.where(flow == own, GREATEST, costs), TABLE_FLOWS)
        if not flows.has_rest:
            return places, costs, []
        is_told = flows.of < TABLE_FLOWS
        rest = costs[~is_told]
        return places[is_told], costs[is_told], [f"{ms(int(rest.sum()))} for {packets(len(rest))} of {flows.names[-1]}"]

    def group(self, place: int, is_own: bool, costs: dict[int, int]) -> str:
        """Describes one flow's packets ahead of a packet. `costs` contains each packet's transmission time."""
        if not self.parts.is_shared[place]:
            whose = "that came before it"
        elif is_own:
            whose = f"of its own {self.flow_name(place)}"
        else:
            whose = f"of {self.flow_name(next(iter(costs)))}"
        later = sum(ahead > place for ahead in costs)
        if later == len(costs):
            whose += ", which came after it"
        elif later:
            whose += f", {later:,} of which came after it"
        return f"{ms(sum(costs.values()))} for {packets(len(costs))} {whose}: {rows(ahead + 1 for ahead in costs)}"

    # ---- packets that didn't leave ----

    def lost(self, place: int) -> str:
        word, own = int(self.packets.word[place]), self.own(place)
        if word & LOW_31_BITS >= own.loss:
            raise self.parts.another(f"row {place + 1} would not have been lost")
        in_force = self.times.in_force(int(self.parts.own[place]), loss_of)
        if own.loss == LOSS_PARTS and in_force:
            return f"It was lost in a cut or a lossy outage: {self.target_name(place)} lost all packets {in_force.removeprefix('in force ')}."
        if word & LOW_31_BITS == LOST_WORD and own.loss == LOSS_PARTS // 2:
            return f"It was lost by a model of losses or a list of them, since the word that it was given is {word}."
        rate = f"{own.loss:,}, which is the rate of {own.loss / LOSS_PARTS:.6g} in parts of 2^31"
        bits = f"the low 31 bits of its random word {word} are {word & LOW_31_BITS:,}, less than {rate}"
        return f"It was lost by the loss rate of {self.target_name(place)}{clause(in_force)}: {bits}."

    def full(self, place: int) -> str:
        """Describes the full queue that dropped a packet: the queue's packets, and the moment at which there was room again."""
        backlog = self.order.backlog(place)
        limit = self.own(place).limit
        bytes_up_to = np.cumsum(self.packets.length[backlog])
        total = int(bytes_up_to[-1]) if len(backlog) else 0
        if limit.slots is not None:
            too_many = len(backlog) - limit.slots
            reason = f"and its limit is {packets(limit.slots)}"
            leaver = too_many  # after this packet has left, the queue contains one packet less than its limit
        else:
            most = (limit.kbytes or 0) * BYTES_PER_KBYTE
            too_many = total - most - 1
            reason = f"which is more than its limit of {most:,} bytes"
            leaver = int(np.searchsorted(bytes_up_to, total - most))
        if too_many < 0:
            raise self.parts.another(f"row {place + 1} would have found room")
        why = f"The queue of its flow {self.replay.flow[place]} was full, so it was dropped"
        is_sure = not self.parts.is_shared[place] or (self.replay.event[backlog] != HELD).all()
        count = packets(len(backlog)) if is_sure else f"at most {packets(len(backlog))}"
        waited = f"{count} waited there ({rows((backlog + 1).tolist())}), {total:,} bytes in all, {reason}"
        return f"{why}: {waited}. {self.room_again(place, int(backlog[leaver]))}"

    def room_again(self, place: int, leaver: int) -> str:
        """Describes the moment at which the queue had room: when packet `leaver` began to be sent."""
        queue = self.order.accepted_of(int(self.replay.flow[leaver]))
        start = int(queue.starts[np.searchsorted(queue.places, leaver)])
        if start == GREATEST:
            return f"There was no room again before row {leaver + 1} left it, after the end of the {self.end()}."
        return f"There was room again {ms(start - int(self.replay.at[place]))} later, when row {leaver + 1} began to be sent."

    def end(self) -> str:
        return "history" if self.is_history else "replay"

    def untargeted(self, place: int) -> str:
        if self.parts.own[place] != UNKNOWN:
            raise self.parts.another(f"row {place + 1} would have had a target")
        return f"{self.parts.configuration.path} configures no {self.target_name(place)}, so it went nowhere."

    def held(self, place: int) -> str:
        """Describes an accepted packet that never left: a delete discarded the packet, or the packet was on its way at the end."""
        queue = self.order.accepted_of(int(self.replay.flow[place]))
        accepted = f"It was accepted as packet {self.replay.packet[place]}"
        number = int(np.searchsorted(queue.places, place))
        start = int(queue.starts[number])
        ended = "the history ends" if self.is_history else f"the replay ended at {seconds(LAST_MOMENT)} (2^62 ns)"
        if queue.gone[number] != GREATEST:
            unsure = ", unless its transmission had begun" if self.parts.is_shared[place] else ""
            spell = next(spell for spell in self.parts.configuration.spells if spell.record == queue.gone[number])
            command = f"`{spell.target[0]} delete {spell.target[1]}`"
            return f"{accepted}, and waited when {command} discarded it at {seconds(spell.moment)}{unsure}."
        if start == GREATEST:
            return f"{accepted}, and had not left {self.link_name(place)} when {ended}."
        times = self.order.times_of_held(place, start)
        at = int(self.replay.at[place])
        due = start + times.transmission + times.delay
        took = f"{ms(due - at)} = {ms(start - at)} waiting + {ms(times.transmission)} transmission + {ms(times.delay)} delay"
        leaves = f"{accepted}, and would take {took}. It would leave at {seconds(due)}"
        if self.is_history:
            return f"{leaves}, if no packet before it is later, and {ended} before that."
        return f"{leaves}, and {ended}."
