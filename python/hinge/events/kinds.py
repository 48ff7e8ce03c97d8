"""The kinds of events in a run: changes to links, and acts on hosts."""

from __future__ import annotations

from bisect import bisect_right
from collections import defaultdict
from dataclasses import dataclass, replace
from typing import Iterator, NamedTuple, Optional, Sequence, Union

from hinge.events.forms import ACTS, WORDS
from hinge.run.words import LAST_MOMENT, SECOND
from hingetulip_words.link import LinkWords

ENDINGS = {word.ending for word in WORDS.values() if word.ending}


def spelled_ns(ns: int) -> str:
    """Returns a time in ns as a text in seconds, such as 1.5s."""
    return f"{ns / SECOND:.9f}".rstrip("0").rstrip(".") + "s"


class Moment(NamedTuple):
    """Describes an `at` line's moment, counted from the links' start or the main command's start."""

    ns: int
    of_main: bool  # whether the moment counts from the main command
    base: str  # how the file names the start: main+, start+ or an empty text

    def __str__(self) -> str:
        return self.base + spelled_ns(self.ns)


class Port(NamedTuple):
    """Describes a TCP or UDP port, for a cut that loses only the packets to and from this port."""

    protocol: int  # a value of PROTOCOLS
    number: int


@dataclass(frozen=True)
class Event:
    """Describes an event on a host or on ways (directions of links). Link L, counted from 0, has the ways 2L and 2L + 1."""

    of: "tuple[Union[int, str], ...]"  # the numbers of the ways, or the name of the host
    words: str  # the words of the `at` line after the moment
    port: "Optional[Port]" = None  # the port whose packets a cut loses; None if a cut loses all packets
    word = ""  # the word that begins the event's form
    ending = ""  # the word of the event that ends this event's fault
    length = LAST_MOMENT  # ns

    @property
    def ways(self) -> "list[int]":
        """Returns the numbers of the event's ways; an empty list for an event on a host."""
        return [way for way in self.of if isinstance(way, int)]


@dataclass(frozen=True)
class Cut(Event):
    """Describes a cut: a host's links, or only the links to some hosts, lose packets."""

    word, ending = "cut", "heal"
    length: int = LAST_MOMENT


@dataclass(frozen=True)
class Heal(Event):
    """Describes an event that ends cuts and lossy outages early."""

    word = "heal"


@dataclass(frozen=True)
class HoldingOutage(Event):
    """Describes a link's outage, during which packets wait until the outage ends."""

    length: int = LAST_MOMENT


@dataclass(frozen=True)
class LossyOutage(HoldingOutage):
    """Describes a link's outage that loses packets."""

    ending = "heal"


@dataclass(frozen=True)
class NewWords(Event):
    """Describes new words for a link, such as `10Mbit/s 20ms`. In a net, `ends` names the link's two hosts. If only one way
    changes, `side` is `up` or `down`."""

    links: "tuple[LinkWords, ...]" = ()
    ends: str = ""
    side: str = ""


@dataclass(frozen=True)
class NewLine(Event):
    """Describes a configuration line for a link's emulator. Pipe 1 leads from the host that the event names first."""

    line: str = ""


@dataclass(frozen=True)
class HostAct(Event):
    """Describes an event on a host: on the host's processes, disks or clock."""

    word: str = ""
    length: int = LAST_MOMENT
    skew: str = ""  # the words that the kernel reads for a skew

    @property
    def host(self) -> str:
        return str(self.of[0])

    @property
    def ending(self) -> str:  # type: ignore[override]
        return ACTS[self.word].ending


class TimedEvent(NamedTuple):
    """Describes an event of an `at` line, with its moment."""

    moment: Moment
    event: Event
    is_drawn: bool = False  # whether a seed drew the event or its moment

    def __str__(self) -> str:
        return f"at {self.moment} {self.event.words}"


class PlannedAct(NamedTuple):
    """Describes a host's fault at a moment (kill, crash, stop or skew), or the end of such a fault (restart or cont)."""

    moment: Moment
    word: str
    host: str
    fault: int = 0  # the number of a fault, which the act that ends the fault has too
    more: str = ""  # the words that the kernel reads for a skew


def kept(event: Event) -> Event:
    """Returns the event that a net remembers: without new words for links, because the plan has them as configuration lines."""
    return replace(event, links=(), ends="") if isinstance(event, NewWords) else event


class FaultEnds:
    """Finds the events that end faults, such as a heal after a cut. An event's place is its index in the list of all events."""

    def __init__(self, events: Sequence[TimedEvent]) -> None:
        # The moments and places by the base, the event's word, the way or host, and the port.
        self.table = defaultdict[tuple[bool, str, Union[int, str], Optional[Port]], list[tuple[int, int]]](list)
        for place, (moment, event, _) in enumerate(events):
            if event.word in ENDINGS:
                for target in event.of:
                    self.table[moment.of_main, event.word, target, event.port].append((moment.ns, place))
        for places in self.table.values():
            places.sort()

    def first(self, of_main: bool, fault: Event, target: Union[int, str], after: tuple[int, int]) -> list[tuple[int, int]]:
        """Returns a list with the moment and place at which the first event after `after` ends a fault on a way or host; an empty
        list without such an event. An event without a port ends the faults on all ports."""
        firsts = list[tuple[int, int]]()
        for port in {None, fault.port}:
            ends = self.table.get((of_main, fault.ending, target, port), [])
            index = bisect_right(ends, after)
            firsts += ends[index : index + 1]
        return [min(firsts)] if firsts else []


def fault_ends(events: Sequence[TimedEvent]) -> Iterator[tuple[int, int]]:
    """For each fault that an event ends early, yields the fault's place and the event's place, for each way or host. Moments that
    count from different starts can't be compared, so an event that counts from the other start is taken as early."""
    ends = FaultEnds(events)
    for place, (moment, event, _) in enumerate(events):
        if not event.ending:
            continue
        for target in event.of:
            firsts = ends.first(not moment.of_main, event, target, (-1, -1))
            later = ends.first(moment.of_main, event, target, (moment.ns, place))
            firsts += [end for end in later if end[0] < moment.ns + event.length]
            if firsts:
                yield place, min(firsts)[1]
