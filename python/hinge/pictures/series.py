"""The series that a picture draws for each flow: rates, delays, their distribution, and the drops with their causes."""

from __future__ import annotations

from dataclasses import dataclass, field
from typing import Iterable, Optional

from hinge.lazy import Integers, Reals, np
from hinge.pictures.pipe_places import MOST_PIPES, named_places, pipes_of, shared
from hinge.pictures.settings import A_FLOW, Limits, capacities, limits, pipe_names
from hinge.replays.bounds import Bounded
from hinge.replays.groups import Groups, group
from hinge.replays.remarks import Lateness
from hinge.replays.replay import EVENT_NAMES, FULL, HELD, LOST, NONE, OUT, Replay

NS_PER_S, NS_PER_MS = 10**9, 10**6
STEPS_WANTED = 200  # the number of a rate's steps over a replay
STEPS_OF_SHORT = 50  # the number of steps over a short replay
FEWEST_STEPS = 20
PACKETS_A_STEP = 40  # so that one packet more or less in a step doesn't show
PACKETS_OF_LARGEST = 10  # the packets of the largest flow in a step
MOST_RANKS = 2_000  # the points of a distribution
CAUSES = (LOST, FULL, NONE)


@dataclass(frozen=True)
class TimeSteps:
    """Steps of `length` ns within a span of `span` ns."""

    length: int
    span: int

    @property
    def count(self) -> int:
        return self.span // self.length + 1

    @property
    def begins(self) -> Reals:
        """Returns the start of each step in s."""
        return np.arange(self.count) * self.length / NS_PER_S

    @property
    def rated(self) -> int:
        """Returns the number of steps with a rate. The last step has no rate if less than half the step is within the span."""
        return max((self.span + self.length // 2) // self.length, 1)

    @property
    def widths(self) -> Integers:
        """Returns the ns of each step with a rate."""
        widths = np.full(self.rated, self.length)
        widths[-1] = min(self.length, max(self.span - (self.rated - 1) * self.length, 1))
        return widths

    @property
    def edges(self) -> Reals:
        """Returns the starts of the steps with a rate, and the last step's end, in s."""
        return np.append(0, np.cumsum(self.widths)) / NS_PER_S

    def counts(self, moments: Integers) -> Integers:
        return np.bincount(moments // self.length, minlength=self.count)[: self.count]

    def rates(self, moments: Integers, lengths: Integers) -> Reals:
        """Returns the Mbit/s in each step with a rate, for packets with these moments and lengths."""
        bits = np.bincount(moments // self.length, weights=lengths * 8, minlength=self.count)[: self.rated]
        return bits * 1000 / self.widths


@dataclass(frozen=True)
class Flow:
    """The data of a flow for pictures. `out_places` contains the flow's packets that left, in sending order."""

    name: str
    is_rest: bool
    packets: int
    offered: Reals
    carried: Reals
    out_places: Integers
    ranks: Reals
    delays: Reals
    drops: Integers


@dataclass(frozen=True)
class Series:
    """The data of a replay for pictures. Rates are in Mbit/s, delays in ms."""

    replay: Replay
    steps: TimeSteps
    flows: list[Flow]
    drops: dict[str, Integers]
    # for each link's queue: moments in s, and the number of waiting packets from each moment on
    waiting: dict[str, tuple[Reals, Reals]]
    carried: dict[str, Reals]  # the total rate from each pipe that several flows share
    offered: dict[str, Reals]  # the total rate to each of these pipes
    capacities: dict[str, tuple[Reals, Reals]]  # for each pipe: moments in s, and Mbit/s from each moment on
    limits: dict[str, Limits]  # of each pipe and queue
    lateness: Lateness = field(default_factory=dict)
    bounds: list[Bounded] = field(default_factory=list)  # on the delay of pipes

    def sent_at(self, places: Integers) -> Reals:
        return self.replay.at[places] / NS_PER_S

    def took_ms(self, places: Integers) -> Reals:
        return self.replay.took[places] / NS_PER_MS


def rounded_up(least: int) -> int:
    """Returns the smallest of the numbers 1, 2, 5, 10, 20, 50 and so on that is at least `least`."""
    power: int = 10 ** (len(str(max(least, 1))) - 1)
    return next(power * factor for factor in (1, 2, 5, 10) if power * factor >= least)


def rounded_down(most: int) -> int:
    """Returns the greatest of the numbers 1, 2, 5, 10, 20, 50 and so on that is at most `most`; 1 if there is none."""
    power: int = 10 ** (len(str(max(most, 1))) - 1)
    return next((power * factor for factor in (5, 2) if power * factor <= most), power)


def round_step(span: int) -> int:
    """Returns a round step in ns. A span from 20 to 200 s gets steps of a second, since rates in shorter steps look like combs.
    Other spans get about STEPS_WANTED steps, or STEPS_OF_SHORT below 20 s."""
    if span < FEWEST_STEPS * NS_PER_S:
        return rounded_up(span // STEPS_OF_SHORT)
    return max(rounded_up(span // STEPS_WANTED), NS_PER_S)


def places_of_main_target(replay: Replay) -> Integers:
    """Returns the places of the packets that left through the pipe or queue with the most bytes."""
    out = np.flatnonzero(replay.is_out)
    load = np.bincount(replay.packets.target[out], weights=replay.packets.length[out], minlength=1)
    places: Integers = out[replay.packets.target[out] == int(np.argmax(load))]
    return places


def fitting_step(replays: list[Replay], span: int) -> int:
    """Returns a round step for these replays. Nonempty steps contain on average the desired number of packets from the main pipe or
    queue, and from the largest flow, if there are that many."""
    step = round_step(span)
    main = [places_of_main_target(replay) for replay in replays]
    busy = 0  # the number of nonempty steps
    largest = 0  # the number of packets of the largest flows
    for replay, places in zip(replays, main):
        busy += len(runs_of(np.sort(replay.due[places] // step, kind="stable")))
        largest += int(np.bincount(replay.packets.five_tuple[places], minlength=1).max())
    if not busy:
        return step
    step_for_all = step * PACKETS_A_STEP * busy // sum(map(len, main))
    step_for_largest = step * PACKETS_OF_LARGEST * busy // largest
    step_for_packets = rounded_up(max(step_for_all, step_for_largest))
    return max(step, min(step_for_packets, rounded_down(span // FEWEST_STEPS)))


def runs_of(ordered: Integers) -> Integers:
    """Returns the end of each run with equal numbers."""
    if not len(ordered):
        return np.zeros(0, np.int64)
    return np.flatnonzero(np.append(ordered[1:] != ordered[:-1], True))


def span_of(replays: list[Replay]) -> int:
    """Returns the ns until the last packet was sent or left."""
    ends = (max(replay.at.max(), replay.due.max()) for replay in replays if len(replay.at))
    return int(max(ends, default=0))


def spread(places: Integers, most: int) -> Integers:
    """Returns at most `most` of the places, evenly distributed."""
    return places if len(places) <= most else places[np.linspace(0, len(places) - 1, most).astype(np.int64)]


def thinned(places: Integers, replay: Replay, most: int) -> Integers:
    """Returns at most `most` places: the smallest and the greatest delay in each stretch, and other places evenly."""
    if len(places) <= most:
        return places
    at, took = replay.at[places], replay.took[places]
    stretch = (at - at.min()) // ((int(at.max()) - int(at.min())) // (most // 4) + 1)
    order = np.argsort(stretch, kind="stable")
    begins = np.flatnonzero(np.diff(stretch[order], prepend=-1))
    took = took[order]
    counts = np.diff(np.append(begins, len(order)))
    extremes = np.minimum.reduceat(took, begins), np.maximum.reduceat(took, begins)
    low, high = (np.flatnonzero(took == np.repeat(extreme, counts)) for extreme in extremes)
    ends = np.union1d(low[np.searchsorted(low, begins)], high[np.searchsorted(high, begins + counts) - 1])
    return np.union1d(spread(places, most // 2), places[order[ends]])


def distribution(took: Integers) -> tuple[Reals, Reals]:
    """Returns fractions of the packets, and for each the delay in ms that this fraction doesn't exceed."""
    sequence = np.sort(took)
    if not len(sequence):
        return np.zeros(0), np.zeros(0)
    ranks = np.unique(np.linspace(0, len(sequence), min(len(sequence) + 1, MOST_RANKS)).astype(np.int64))
    return ranks / len(sequence), sequence[np.maximum(ranks - 1, 0)] / NS_PER_MS


def waiting(replay: Replay, places: Integers) -> tuple[Reals, Reals]:
    """Returns the moments in s at which the number of waiting packets changes, and the number from each moment on."""
    connection = places[(replay.event[places] == OUT) | (replay.event[places] == HELD)]
    start = connection[replay.event[connection] == OUT]
    moments = np.concatenate((replay.at[connection], replay.start[start]))
    ups = np.concatenate((np.ones(len(connection), np.int64), np.full(len(start), -1)))
    order = np.argsort(moments, kind="stable")  # which is done at once where both parts have an order
    ends = runs_of(moments[order])
    return moments[order][ends] / NS_PER_S, np.cumsum(ups[order])[ends].astype(float)


def offered(replay: Replay, places: Integers, steps: TimeSteps) -> Reals:
    return steps.rates(replay.at[places], replay.packets.length[places])


def carried(replay: Replay, places: Integers, steps: TimeSteps) -> Reals:
    out = places[replay.is_out[places]]
    return steps.rates(replay.due[out], replay.packets.length[out])


def flow_series(replay: Replay, name: str, places: Integers, is_rest: bool, steps: TimeSteps) -> Flow:
    out = places[replay.is_out[places]]
    drops = places[np.isin(replay.event[places], CAUSES)]
    ranks, delays = distribution(replay.took[out])
    return Flow(
        name,
        is_rest,
        packets=len(places),
        offered=offered(replay, places, steps),
        carried=carried(replay, places, steps),
        out_places=out,
        ranks=ranks,
        delays=delays,
        drops=steps.counts(replay.at[drops]),
    )


def series(
    replay: Replay,
    groups: Groups,
    step_ns: int,
    span: int,
    changes: Iterable[tuple[int, str]] = (),
    lateness: Optional[Lateness] = None,
    bounds: Iterable[Bounded] = (),
) -> Series:
    """Returns the series of a replay in steps of `step_ns`. `changes` are the configuration's commands with their moments."""
    steps = TimeSteps(step_ns, span)
    changes = list(changes)
    pipes = pipes_of(replay, pipe_names(changes))
    queues = group(replay, "target")
    if len(queues.names) > MOST_PIPES:
        queues = queues.largest(replay.packets.length, MOST_PIPES)
    flows = [flow_series(replay, name, places, is_rest, steps) for name, places, is_rest in named_places(groups, pipes)]
    drops = {EVENT_NAMES[cause]: steps.counts(replay.at[replay.event == cause]) for cause in CAUSES}
    waits = {name: waiting(replay, places) for name, places in queues.places()}
    common = shared(replay, groups, pipes)
    rates = capacities(changes, span)
    if len(rates) > MOST_PIPES:
        rates = {name: points for name, points in rates.items() if name.removesuffix(A_FLOW) in pipes.names}
    return Series(
        replay,
        steps,
        flows,
        drops,
        waiting=waits,
        carried={name: carried(replay, places, steps) for name, places in common.items()},
        offered={name: offered(replay, places, steps) for name, places in common.items()},
        capacities=rates,
        limits=limits(changes, span),
        lateness=lateness or {},
        bounds=[pipe for pipe in bounds if pipe.name in pipes.names],
    )
