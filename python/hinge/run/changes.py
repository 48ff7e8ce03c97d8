"""Changes to links during a run: lines that apply from a moment on, and outages."""

from __future__ import annotations

from heapq import merge
from itertools import chain, islice
from operator import itemgetter
from typing import Iterable, Iterator, NamedTuple, Sequence, Union

from hinge.run.traces import Rates
from hinge.run.words import LAST_MOMENT, LINES, Wrong, around_bandwidth, configures, target_of


class Change(NamedTuple):
    """Describes a change of the links at a moment."""

    moment: int  # ns
    line: str  # a configuration line, a line for cuts (cuts.h), or `outage PIPE LENGTH` at an outage's beginning


def refuse_second(new: Sequence[Change], before: set[tuple[int, str, int]]) -> None:
    """Checks that no new change configures the target of another change at the same moment, which would then have no effect, and
    adds the new changes to `before`. Wrong: a new change does."""
    for change in new:
        target = target_of(change.line)
        subject = (change.moment, target.kind, target.number)
        if configures(change.line) and subject in before:
            raise Wrong(f"a line before changes {target.kind} {target.number} at this moment too; leave one of them out")
        if target.kind in LINES:  # unlike a line for a cut
            before.add(subject)


class Outage(NamedTuple):
    """Describes an outage that delays packets and loses none."""

    moment: int  # ns
    length: int  # ns
    pipe: int


Happening = Union[Change, Outage]


class Bandwidths(NamedTuple):
    """Yields a trace's changes to a pipe's bandwidth, one at a time; `text` is the pipe's line. A rate of 0 is an outage until the
    next rate."""

    pipe: int
    text: str
    rates: Rates

    def changes(self) -> Iterator[Change]:
        """Yields a change for each rate above 0."""
        front, back = around_bandwidth(self.text)
        for moment, rate in self.rates:
            if rate:
                yield Change(moment, f"{front} bw {rate}bit/s{back}")

    def outages(self) -> Iterator[Outage]:
        """Yields an outage for each rate of 0; the last rate of 0 lasts to the last possible moment."""
        ends = chain(islice(self.rates.moments, 1, None), [LAST_MOMENT])  # the next rates' moments
        for (moment, rate), end in zip(self.rates, ends):
            if not rate and end > moment:
                yield Outage(moment, end - moment, self.pipe)


def joined(outages: Iterable[Outage]) -> Iterator[tuple[int, int]]:
    """Yields the start and end of a pipe's outages, which have to be sorted by moment. Merges overlapping outages."""
    begin = end = -1
    for moment, length, _ in outages:
        if moment > end:
            if end >= 0:
                yield begin, end
            begin, end = moment, moment + length
        end = max(end, moment + length)
    if end >= 0:
        yield begin, end


class Changes:
    """Holds all changes of a run, in the order of the command line."""

    def __init__(self, longest: int, first: int = 1) -> None:
        """Creates an empty list. The longest packet has `longest` bytes. `first` is the number of the first cut; a number must be
        unique within a run."""
        self.longest = longest
        self.latest = first - 1  # the number of the last cut
        self.lines: list[Change] = []
        self.traces: list[tuple[int, Bandwidths]] = []  # each trace with the number of lines before the trace
        self.outages: dict[int, tuple[list[Outage], list[Bandwidths]]] = {}  # by pipes, outages from lines and from traces

    def add(self, happenings: Iterable[Happening]) -> None:
        """Adds changes and outages."""
        for happening in happenings:
            if isinstance(happening, Outage):
                self.outages.setdefault(happening.pipe, ([], []))[0].append(happening)
            else:
                self.lines.append(happening)

    def follow(self, trace: Bandwidths) -> None:
        """Adds a trace's changes, behind the changes so far."""
        self.traces.append((len(self.lines), trace))
        if 0 in trace.rates.rates:
            self.outages.setdefault(trace.pipe, ([], []))[1].append(trace)

    def in_order(self) -> Iterator[Iterable[Change]]:
        """Yields in turn the changes from lines before a trace, and the trace's changes; at last the changes behind the last
        trace."""
        begin = 0
        for end, trace in self.traces:
            yield self.lines[begin:end]
            yield trace.changes()
            begin = end
        yield self.lines[begin:]

    def every(self) -> Iterator[Change]:
        """Yields all changes except outages, in the order of the command line."""
        return chain.from_iterable(self.in_order())

    def cut(self, moment: int, length: int, pipe: int, port: str) -> list[Change]:
        """Returns the lines that tell the host program to begin a cut of a pipe and to end the cut, if the cut ends before the last
        moment. `port` restricts the cut to a port's packets. Each cut has its own number: the pipe opens when the last of several
        simultaneous cuts ends."""
        self.latest += 1
        changes = [Change(moment, f"cut {pipe} {self.latest}{port}")]
        if moment + length < LAST_MOMENT:
            changes.append(Change(moment + length, f"open {pipe} {self.latest}"))
        return changes

    def held(self) -> dict[int, Iterator[tuple[int, int]]]:
        """Returns the starts and ends of outages in ns, by pipes."""
        holds = dict[int, Iterator[tuple[int, int]]]()
        for pipe in sorted(self.outages):
            outages, traces = self.outages[pipe]
            holds[pipe] = joined(merge(sorted(outages), *(trace.outages() for trace in traces)))
        return holds

    def holds(self) -> Iterator[tuple[int, int, int]]:
        """Yields the outages, each as a pipe, a start and an end in ns."""
        return ((pipe, begin, end) for pipe, holds in self.held().items() for begin, end in holds)

    def outage_changes(self, pipe: int, holds: Iterable[tuple[int, int]]) -> Iterator[Change]:
        """Yields a change for the beginning of each outage of a pipe."""
        text = f"outage {pipe} {self.longest}"
        return (Change(begin, text) for begin, _ in holds)

    def all(self) -> Iterable[Change]:
        """Returns all changes, sorted by moment. At the same moment, an outage comes after other changes."""
        by_moment = itemgetter(0)
        parts = (sorted(part, key=by_moment) if isinstance(part, list) else part for part in self.in_order())
        outages = (self.outage_changes(pipe, holds) for pipe, holds in self.held().items())
        return merge(*parts, *outages, key=by_moment)
