"""The search for events without effect: a cut within a cut, a hold within a hold, a kill or a stop of a dead host.

In place of a nemesis, users may write the lines that a seed drew from it, and some of these lines have no effect. So such lines
aren't refused; instead, the verdict on a run lists them.
"""

from __future__ import annotations

from bisect import bisect_left, bisect_right
from collections import defaultdict
from typing import Container, NamedTuple, Sequence, Tuple, Union

from hinge.events.forms import ACTS, ENDS
from hinge.events.kinds import FaultEnds, HoldingOutage, TimedEvent
from hinge.run.words import LAST_MOMENT

Key = Tuple[bool, str, Union[int, str]]  # the base, and the kind of a fault of a way or a host


class FaultSpan(NamedTuple):
    """Describes a fault by its begin and end in ns, and by its event's place in the list of all events."""

    begin: int
    place: int
    end: int


def fault_kind(at_line: TimedEvent) -> str:
    """Returns a fault's kind: hold, cut, a port's cut, or the word for a host's fault. Returns an empty text for an event that
    isn't a fault."""
    event = at_line.event
    if isinstance(event, HoldingOutage) and not event.ending:
        return "hold"
    if event.ending == "heal":
        return f"cut {event.port}" if event.port else "cut"
    return event.word if event.ending else ""


class FaultCourse:
    """Holds faults on one way or host, all with the same kind, in the order in which they begin."""

    def __init__(self) -> None:
        self.spans = list[FaultSpan]()
        self.latest = list[int]()  # for each span, the latest end of all spans up to it
        self.stretches = list[FaultSpan]()  # joined effective faults, from the last on
        self.begins = list[int]()  # the begins of the stretches as numbers below 0, so that they ascend

    def add(self, span: FaultSpan) -> None:
        """Adds a fault that begins after all faults so far."""
        self.spans.append(span)
        self.latest.append(max([span.end, *self.latest[-1:]]))

    def keep(self, span: FaultSpan) -> None:
        """Adds a fault that has an effect, and joins the fault with later effective faults that overlap. Call it for the latest
        fault first."""
        if span.begin < span.end:
            while self.stretches and self.stretches[-1].begin < span.end:
                span = span._replace(end=max(span.end, self.stretches.pop().end))
                self.begins.pop()
            self.stretches.append(span)
            self.begins.append(-span.begin)

    def before(self, span: FaultSpan) -> list[FaultSpan]:
        """Returns a list with the first earlier fault that goes on when `span` begins; an empty list without such a fault. The
        fault's end is replaced by the latest end of all earlier faults."""
        count = bisect_left(self.spans, span)
        first = bisect_right(self.latest, span.begin, 0, count)
        return [self.spans[first]._replace(end=self.latest[count - 1])] if first < count else []

    def around(self, moment: int) -> list[FaultSpan]:
        """Returns a list with the last joined fault that begins before a moment; an empty list without such a fault."""
        index = bisect_right(self.begins, -moment)
        return self.stretches[index : index + 1]


class NetFaults:
    """Finds the faults in a net that cover another fault's whole time. `idle` contains places to leave out."""

    def __init__(self, events: Sequence[TimedEvent], places: Sequence[int], idle: Container[int]) -> None:
        self.events = events
        self.ends = FaultEnds(events)
        self.courses = defaultdict[Key, FaultCourse](FaultCourse)
        for place in places:
            if place not in idle and fault_kind(events[place]):
                for target in events[place].event.of:
                    self.courses[self.key(place, target)].add(self.span(place, target))

    def key(self, place: int, target: Union[int, str]) -> Key:
        """Returns the key for the FaultCourse that contains the fault at a place, on a way or host."""
        return self.events[place].moment.of_main, fault_kind(self.events[place]), target

    def span(self, place: int, target: Union[int, str]) -> FaultSpan:
        """Returns a fault's time on a way or host. The fault ends at the latest with the first event that ends such a fault."""
        (begin, of_main, _), event, _ = self.events[place]
        ends = self.ends.first(of_main, event, target, (begin, place))
        return FaultSpan(begin, place, min([begin + event.length, LAST_MOMENT, *(end for end, _ in ends)]))

    def covering(self, place: int, kinds: Sequence[str]) -> list[int]:
        """Returns the places where faults with these kinds cover the whole time from the begin to the end at `place`: the first
        covering fault for each way or host. Returns an empty list if such faults leave a way or host uncovered for a time."""
        result = list[int]()
        for target in self.events[place].event.of:
            span = self.span(place, target)
            courses = [self.courses[self.events[place].moment.of_main, kind, target] for kind in kinds]
            firsts = [first for course in courses for first in course.before(span)]
            firsts = firsts or [stretch for course in courses for stretch in course.around(span.begin + 1)]
            if reach(courses, max([span.begin, *(first.end for first in firsts)]), span.end) < span.end:
                return []
            if span.begin < span.end:
                result.append(min(firsts).place)
        return result

    def keep(self, place: int) -> None:
        """Notes that the fault at a place has an effect."""
        for target in self.events[place].event.of:
            self.courses[self.key(place, target)].keep(self.span(place, target))


def reach(courses: Sequence[FaultCourse], moment: int, end: int) -> int:
    """Returns the moment up to which effective faults follow one another without a gap, from a moment on. Stops searching at `end`."""
    while moment < end:
        stretches = [stretch for course in courses for stretch in course.around(moment)]
        latest = max([stretch.end for stretch in stretches], default=0)
        if latest <= moment:
            break
        moment = latest
    return moment


def repeated(events: Sequence[TimedEvent]) -> dict[int, int]:
    """Returns the place where each event repeats an earlier event's moment and words, with the earlier event's place."""
    firsts = dict[Tuple[bool, int, str], int]()
    repetitions = dict[int, int]()
    for place, (moment, event, _) in enumerate(events):
        first = firsts.setdefault((moment.of_main, moment.ns, event.words), place)
        if first != place:
            repetitions[place] = first
    return repetitions


def idle_events(events: Sequence[TimedEvent], is_open: bool) -> "list[tuple[TimedEvent, TimedEvent]]":
    """Returns each event without effect, with the ongoing or equal event that is the cause. In a net that is open to `hinge
    exec`, commands may run even on a killed host, so a stop of this host has an effect."""
    causes = repeated(events)  # by the place of the event without effect
    places = sorted(range(len(events)), key=lambda place: events[place].moment.ns)
    faults = NetFaults(events, places, causes)
    for place in reversed(places):  # so that the first of two equal faults counts
        if place in causes or not fault_kind(events[place]):
            continue
        covering = faults.covering(place, covering_kinds(events[place], is_open))
        if covering:
            causes[place] = covering[0]
        else:
            faults.keep(place)
    return [(events[place], events[causes[place]]) for place in sorted(causes)]


def covering_kinds(at_line: TimedEvent, is_open: bool) -> list[str]:
    """Returns the kinds of faults during which a fault has no effect."""
    kind = fault_kind(at_line)
    if kind in ACTS:
        return [kind, *(word for word in ACTS[kind].within if not is_open or ENDS.get(word) == ENDS.get(kind))]
    return [kind, "cut"] if at_line.event.port else [kind]
