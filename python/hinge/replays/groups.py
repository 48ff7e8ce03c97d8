"""Rows grouped by flow: by the packet's five-tuple, by dummynet's flow, or by target."""

from __future__ import annotations

from dataclasses import dataclass
from typing import Any, Iterator, Optional, Sequence

from hinge.lazy import Integers, few as np
from hinge.replays.columns import Lazily
from hinge.replays.replay import Replay


def order_of(of: Integers, count: int) -> Integers:
    """Returns the places in the order of their numbers, which are below `count`."""
    numbers = np.array(of, "u2") if count <= 1 << 16 else of  # short numbers are sorted faster
    return np.argsort(numbers, kind="stable")


def spans(of: Integers, count: int) -> list[slice]:
    """Returns the span of each number's places in `order_of`."""
    ends = np.cumsum(np.bincount(of, minlength=count)).tolist()
    return [slice(begin, end) for begin, end in zip([0, *ends], ends)]


def places_of(of: Integers, count: int) -> list[Any]:
    """Returns an index for each number's rows: their places, or a slice if all rows or none have the number."""
    if len(of) and of.min() == of.max():
        return [slice(None) if number == of[0] else slice(0) for number in range(count)]
    order = order_of(of, count)
    return [order[span] for span in spans(of, count)]


@dataclass(frozen=True)
class Groups:
    """The number of each row's group, and the groups' names."""

    of: Integers
    names: Sequence[str]
    has_rest: bool = False  # whether the last group stands for all smaller groups
    each: Optional[Integers] = None  # the number of each row's group before the smaller groups were put together

    def places(self) -> Iterator[tuple[str, Integers]]:
        """Yields each group with its rows' places, in order."""
        order = order_of(self.of, len(self.names))
        return ((name, order[span]) for name, span in zip(self.names, spans(self.of, len(self.names))))

    def largest(self, sizes: Integers, most: int) -> Groups:
        """Returns at most `most` groups with the largest sums of sizes, and the rest as one group."""
        there = np.flatnonzero(np.bincount(self.of))
        sums = np.bincount(self.of, weights=sizes)[there]
        least = np.partition(sums, [len(sums) - most])[len(sums) - most] if len(sums) > most else -1
        above = np.flatnonzero(sums > least)  # only these few are sorted, and not a million flows
        largest = above[np.argsort(-sums[above], kind="stable")]
        largest = there[np.append(largest, np.flatnonzero(sums == least)[: most - len(above)])]
        number = np.full(len(self.names), len(largest))
        number[largest] = np.arange(len(largest))
        names = [self.names[place] for place in largest]
        rest = len(there) - len(largest)
        if rest:
            names.append(f"{rest:,} others")
        return Groups(number[self.of], names, rest > 0, self.of)


def group(replay: Replay, way: str) -> Groups:
    packets = replay.packets
    if way == "tuple":
        return Groups(packets.five_tuple, Lazily(len(packets.tuples), packets.tuple_name))
    if way == "target":
        return Groups(packets.target, [f"{kind} {number}" for kind, number in packets.targets])
    places, of = np.unique(replay.flow, return_inverse=True)
    return Groups(of, Lazily(len(places), lambda place: f"flow {places[place]}" if places[place] >= 0 else "no flow"))
