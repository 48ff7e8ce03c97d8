"""The proved bounds on the wait and the delay of each pipe's packets, and the greatest wait and delay in a replay."""

from __future__ import annotations

from dataclasses import dataclass
from typing import Iterator, Optional

from hinge.checks.waits import Bound, bound_of, with_bound
from hinge.lazy import Integers, Mask
from hinge.replays.groups import places_of
from hinge.replays.links import Configuration
from hinge.replays.replay import HELD, OUT, Replay


@dataclass(frozen=True)
class Bounded:
    """A pipe's bound for its longest accepted packet, with the greatest wait and delay of packets that left, in ns, or None if no
    packet left."""

    bound: Bound
    wait_ns: Optional[int]
    delay_ns: Optional[int]

    @property
    def name(self) -> str:
        return f"pipe {self.bound.pipe}"

    def figures(self) -> dict[str, Optional[int]]:
        """Returns all figures with their names."""
        return {
            "pipe": self.bound.pipe,
            "longest_bytes": self.bound.length,
            "max_wait_ns": self.wait_ns,
            "wait_bound_ns": self.bound.start_ns,
            "max_delay_ns": self.delay_ns,
            "delay_bound_ns": self.bound.due_ns,
        }


def greatest(column: Integers) -> Optional[int]:
    return int(column.max()) if len(column) else None


def chosen(column: Integers, choice: Mask) -> Integers:
    """Returns the chosen numbers of a column; copies the column only if some aren't chosen."""
    return column if choice.all() else column[choice]


def bounds(replay: Replay, configuration: Configuration) -> Iterator[Bounded]:
    """Yields the bound of each pipe that has one and accepted a packet, if the configuration holds for every packet."""
    packets = replay.packets
    rows_of = dict(zip(packets.targets, places_of(packets.target, len(packets.targets))))
    for pipe in with_bound(configuration.last.pipes, configuration.last.queues):
        rows = rows_of.get(("pipe", pipe.number), slice(0))
        is_out = replay.event[rows] == OUT
        longest = int(chosen(packets.length[rows], is_out | (replay.event[rows] == HELD)).max(initial=-1))
        if longest >= 0:
            at, start, due = (chosen(column[rows], is_out) for column in (replay.at, replay.start, replay.due))
            yield Bounded(bound_of(pipe, longest), greatest(start - at), greatest(due - at))
