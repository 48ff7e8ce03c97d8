"""The input for tables, pictures and paragraphs: a history, or a packet file with its report, and the configuration."""

from __future__ import annotations

from dataclasses import dataclass, field, replace
from functools import cached_property
from typing import Iterator, Optional

from hinge.border.terminal import several
from hinge.command import USAGE, Fault
from hinge.lazy import Integers, few as np
from hinge.replays.bounds import Bounded, bounds
from hinge.replays.columns import LAST_OF_LINKS, REPORT_COLUMNS
from hinge.replays.link_order import LinkOrder
from hinge.replays.links import Configuration, Parts, read_configuration
from hinge.replays.remarks import Lateness, late_remark
from hinge.replays.replay import NONE, Replay, read_packets, read_report


@dataclass(frozen=True)
class Source:
    """Holds a replay with the files and, if known, the configuration and the host's remarks."""

    replay: Replay
    files: tuple[str, ...]
    configuration: Optional[Configuration] = None  # None if it is unknown
    is_steady: bool = True  # whether one configuration holds for every packet
    is_history: bool = False
    cut: Optional[int] = None  # the last line of a history that has no end
    seed: Optional[str] = None  # of a live host's random draws, if the history contains it
    lateness: Lateness = field(default_factory=dict)  # of a live host; empty if the history doesn't contain it
    words: dict[str, str] = field(default_factory=dict)  # the words of a run's options
    whole: Optional[Source] = None  # the source with the rows that are left out here
    rows: Optional[Integers] = None  # the places of the rows in `whole`

    @property
    def changes(self) -> list[tuple[int, str]]:
        """Returns the applied commands, each with its moment in ns, as far as they are known."""
        changes = self.configuration.changes if self.configuration else []
        return [(moment, text) for _, moment, text in changes]

    @cached_property
    def parts(self) -> Optional[Parts]:
        """Returns the parts of the delays, if the configuration is known."""
        return Parts(self.replay, self.configuration).check() if self.configuration else None

    @cached_property
    def bounds(self) -> Optional[list[Bounded]]:
        """Returns the bound on each pipe's delay, if a single configuration holds for all packets."""
        return list(bounds(self.replay, self.parts.configuration)) if self.parts and self.is_steady else None

    def explained(self) -> Parts:
        """Returns the parts of the delays. Fault: the configuration is unknown, and a paragraph needs it."""
        if self.parts is None:
            raise Fault("a paragraph needs the configuration: --config FILE", USAGE)
        return self.parts

    def remarks(self) -> Iterator[str]:
        """Yields the remarks for a table: rows without a target, packets with a flipped bit, and the host's lateness."""
        yield from untargeted_lines(self.replay)
        if self.replay.flips:
            yield f"{several(len(self.replay.flips), 'packet')} left with a flipped bit"
        if self.lateness:
            yield from late_remark(self.most_late("late"), self.most_late("unread"))

    def most_late(self, kind: str) -> float:
        """Returns a live host's maximum delay of one kind over both directions, in ms: `late` for late work, `unread` for
        packets that waited to be read.
        """
        return max(float(way[kind][1].max(initial=0)) for way in self.lateness.values())


def untargeted(replay: Replay) -> dict[str, int]:
    """Returns the number of rows for each target that isn't configured."""
    targets = replay.packets.targets
    counts = np.bincount(replay.packets.target[replay.event == NONE], minlength=len(targets)).tolist()
    return {f"{kind} {number}": count for (kind, number), count in zip(targets, counts) if count}


def untargeted_lines(replay: Replay) -> Iterator[str]:
    """Yields a text for each target that isn't configured, so that users notice a wrong number, and another if no row has a
    target."""
    table = untargeted(replay)
    for target, count in table.items():
        yield f"{several(count, 'row')} went to {target}, which isn't configured"
    if table and sum(table.values()) == len(replay.packets):
        yield "no row has a target: nothing went through a link"


def of_reports(packets_path: str, reports: list[str], config: Optional[str]) -> list[Source]:
    """Returns the sources for several reports of a packet file."""
    packets = read_packets(packets_path)
    configuration = read_configuration(config) if config else None
    configurations = (config,) if config else ()
    return [Source(read_report(report, packets), (packets_path, report, *configurations), configuration) for report in reports]


def seen(source: Source) -> Source:
    """Returns the source with only those packets that a run's programs sent. A packet that passed two pipes, because of jitter or a
    separate delay, is a single row. Packets that represent an outage are left out."""
    parts = source.parts if source.is_history else None
    if parts is None:
        return source
    again = LinkOrder(parts).further
    is_own = source.replay.packets.five_tuple != parts.of_nobody
    for place in again.values():
        is_own[place] = False
    if is_own.all():
        return source
    rows = np.flatnonzero(is_own)
    replay = chosen(joined(source.replay, again), rows)
    configuration = without_help(parts, bool(again))
    result = replace(source, replay=replay, configuration=configuration, whole=source, rows=rows)
    # A proved bound is on the delay of a single pipe, and the parts of the whole source have been checked.
    bounds = source.bounds
    if bounds and again:
        bounds = [pipe for pipe in bounds if pipe.bound.pipe <= LAST_OF_LINKS]
    result.__dict__.update(parts=Parts(replay, configuration), bounds=bounds)
    return result


def joined(replay: Replay, again: dict[int, int]) -> Replay:
    """Returns a replay in which each packet leaves the first pipe when the packet leaves the last pipe. `again` contains each
    packet's row in the next pipe."""
    event = replay.event.copy()
    due = replay.due.copy()
    for first, last in sorted(again.items(), reverse=True):  # a packet's later passes are joined before its earlier ones
        event[first], due[first] = event[last], due[last]
    return replace(replay, event=event, due=due)


def chosen(replay: Replay, rows: Integers) -> Replay:
    """Returns a replay with only these rows."""
    packets = replay.packets
    numbers, target = np.unique(packets.target[rows], return_inverse=True)
    columns = {name: getattr(packets, name)[rows] for name in ("moment", "five_tuple", "length", "word")}
    own = replace(packets, **columns, target=target, targets=[packets.targets[number] for number in numbers.tolist()])
    results = {name: getattr(replay, name)[rows] for name in (*REPORT_COLUMNS, "submitted", "handed")}
    return Replay(replay.path, own, **results, flips=replay.flips)


def without_help(parts: Parts, has_passes: bool) -> Configuration:
    """Returns the configuration without lines that slow a pipe down in an outage and, with `has_passes`, without the pipes to which
    a host passes packets again."""
    lines = parts.configuration
    changes = [
        change
        for place, (change, spell) in enumerate(zip(lines.changes, lines.spells))
        if place not in parts.of_outages and not (has_passes and spell.target[1] > LAST_OF_LINKS)
    ]
    return Configuration(lines.path, changes)
