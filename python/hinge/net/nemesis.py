"""The parser of a nemesis: a line that requests random faults. A seed draws the faults' hosts, moments and lengths; each fault is
an event that an `at` line could request instead."""

from __future__ import annotations

from dataclasses import dataclass, replace
from typing import Callable, Iterator, NamedTuple, Optional, Union

from hinge.border.files import Budget
from hinge.captures.random_words import word
from hinge.events.forms import ENDS
from hinge.events.kinds import Cut, Event, HostAct, spelled_ns
from hinge.events.parsed import refuse_act
from hinge.net.description import Description
from hinge.net.statements import Statement
from hinge.run.words import SECOND, Wrong, duration, placed

NEMESIS = "nemesis KIND every TIME for TIME [from TIME] [until TIME] [of HOST ..]"
LASTING = 3600 * SECOND  # without `until`
MOST_ACTS = 10_000
MOST_DRAWS = 1 << 22  # random numbers of a net
STREAM, OF_MOMENTS = 3 << 20, 1 << 19  # of random words, apart from those of the links; that of single moments
SPAN = ".."
MS = 10**6  # ns


class TimeSpan(NamedTuple):
    """Describes a range of times in ns."""

    least: int
    most: int


def read_span(text: str) -> TimeSpan:
    """Reads a time such as `5s`, or a range such as `5s..20s`; returns the range. Wrong: the range starts after its end."""
    least, dots, most = text.partition(SPAN)
    span = TimeSpan(duration(least), duration(most if dots else least))
    if span.least > span.most:
        raise Wrong(f"{text}: the first time is the greater one")
    return span


class Draw:
    """Makes the random choices for one nemesis. `place` distinguishes a net's nemeses; `budget` limits how many choices are
    possible."""

    def __init__(self, seed: int, place: int, budget: Budget) -> None:
        self.seed = seed
        self.stream = STREAM + place
        self.count = 0
        self.budget = budget

    def below(self, limit: int) -> int:
        """Draws a random number from 0 to below a limit."""
        self.count += 1
        self.budget.spend(1)
        return word(self.seed, self.count, self.stream) % limit

    def some(self, names: list[str], count: int) -> list[str]:
        """Chooses `count` of the names; returns them in their original order."""
        choice = set(self.shuffled(names)[:count])
        return [name for name in names if name in choice]

    def shuffled(self, names: list[str]) -> list[str]:
        """Returns the names in a random order."""
        rest = list(names)
        return [rest.pop(self.below(len(rest))) for _ in names]

    def time(self, span: TimeSpan) -> int:
        """Draws a random time from a range: in whole milliseconds after the least time, or in whole ns if the range is shorter
        than 1 ms."""
        length = span.most - span.least
        step = MS if length >= MS else 1
        return span.least + (step * self.below(length // step + 1) if length else 0)


RandomFault = Union[Cut, HostAct]  # of a length that is drawn behind it
Kind = Callable[[Description, list[str], Draw], list[RandomFault]]


@dataclass(frozen=True)
class Nemesis:
    """Describes the random faults that a line `nemesis` requests."""

    kind: str  # a key of KINDS
    every: TimeSpan  # the time from a fault's start to the next fault's start
    lasting: TimeSpan  # the length of a fault
    first: TimeSpan  # the moment when the first fault starts
    until: int  # the last moment when a fault may start, in ns
    hosts: list[str]  # the hosts that the faults may disturb


def linked(net: Description, name: str, others: dict[str, int]) -> list[str]:
    """Returns the hosts that share a link with a host. `others` contains the possible hosts, and a number for each, by which the
    result is sorted."""
    return sorted((other for other in net.links_of.get(name, ()) if other in others), key=others.__getitem__)


def placed_hosts(hosts: list[str]) -> dict[str, int]:
    """Returns the hosts with their places in the list, from 0."""
    return {name: place for place, name in enumerate(hosts)}


def cut(net: Description, host: str, *others: str) -> Cut:
    """Returns a cut that affects a host's links, or only the links to other hosts."""
    words = ["cut", host, "from", *others] if others else ["cut", host]
    return Cut(net.ways_between(host, others), " ".join(words))


def cuts(net: Description, are_parted: Callable[[str, str], bool], starts: list[str], hosts: list[str]) -> list[RandomFault]:
    """Returns the cuts that separate hosts: each link from a host in `starts` to another host is cut once, if `are_parted` is true
    for both hosts."""
    faults = list[RandomFault]()
    rest = placed_hosts(hosts)
    for host in starts:
        del rest[host]
        others = [other for other in linked(net, host, rest) if are_parted(host, other)]
        if others:
            faults.append(cut(net, host, *others))
    return faults


def halves(net: Description, hosts: list[str], draw: Draw) -> list[RandomFault]:
    """Separates half the hosts, chosen at random, from the other half."""
    half = draw.some(hosts, len(hosts) // 2)
    members = {*half}
    return cuts(net, lambda _, other: other not in members, half, hosts)


def one_apart(net: Description, hosts: list[str], draw: Draw) -> list[RandomFault]:
    """Separates a random host from the other hosts."""
    return cuts(net, lambda *_: True, draw.some(hosts, 1), hosts)


def ring(net: Description, hosts: list[str], draw: Draw) -> list[RandomFault]:
    """Arranges the hosts in a random ring, in which each host reaches only its two neighbours."""
    order = draw.shuffled(hosts)
    near = {host: {order[place - 1], order[(place + 1) % len(order)], host} for place, host in enumerate(order)}
    return cuts(net, lambda host, other: other not in near[host], hosts, hosts)


def majorities(net: Description, hosts: list[str], draw: Draw) -> list[RandomFault]:
    """Cuts links in random order as long as each host still reaches a majority, counting itself."""
    table: dict[str, set[str]] = {name: set() for name in hosts}
    spare = len(hosts) - (len(hosts) // 2 + 1)
    places = placed_hosts(hosts)
    for one in draw.shuffled(hosts):
        for two in draw.shuffled([name for name in linked(net, one, places) if name not in table[one]]):
            if len(table[one]) < spare and len(table[two]) < spare:
                table[one].add(two)
                table[two].add(one)
    return cuts(net, lambda host, other: other in table[host], hosts, hosts)


def isolated(net: Description, hosts: list[str], draw: Draw) -> list[RandomFault]:
    """Cuts a random host's links."""
    return [cut(net, *draw.some(hosts, 1))]


def of_one(act: str) -> Kind:
    """Returns a function that draws an act on a random host."""

    def drawn(net: Description, hosts: list[str], draw: Draw) -> list[RandomFault]:
        (host,) = draw.some(hosts, 1)
        return [HostAct((host,), f"{act} {host}", word=act)]

    return drawn


OF_COMMANDS = {f"{act}-one": act for act in ENDS}
KINDS: dict[str, Kind] = {
    "partition-halves": halves,
    "partition-one": one_apart,
    "partition-ring": ring,
    "partition-majorities": majorities,
    "isolate-one": isolated,
    **{kind: of_one(act) for kind, act in OF_COMMANDS.items()},
}
LEAST = {"partition-halves": 2, "partition-one": 2, "partition-ring": 4, "partition-majorities": 3}  # hosts


def named_hosts(net: Description, statement: Statement, kind: str) -> list[str]:
    """Reads the hosts that a nemesis may disturb: the hosts after `of`, or by default all hosts that can have its faults, except
    routers and the main command's host. Returns their names. Wrong: a host can't have such a fault, or there are too few
    hosts."""
    if statement.peek() == "of":
        statement.take(NEMESIS)
        items = []
        while statement.peek():
            items.append(read_host(net, statement, kind))
    else:
        items = [name for name in net.hosts if may_disturb(net, name, kind)]
    for name in items:
        if kind == "isolate-one" and not net.ways_between(name, ()):
            raise statement.wrong(name, "it has no link")
    statement.refuse_twice(items)
    refuse_too_few(net, statement, kind, items)
    return items


def read_host(net: Description, statement: Statement, kind: str) -> str:
    """Reads a host that a nemesis may disturb; returns its name. Wrong: the host can't have the nemesis's faults."""
    if kind not in OF_COMMANDS:
        return net.host(statement, NEMESIS)
    name = net.room(statement, NEMESIS)
    word = OF_COMMANDS[kind]
    refuse_act(statement, net, word, name, ENDS[word] == "restart")
    return name


def may_disturb(net: Description, name: str, kind: str) -> bool:
    """Returns whether a nemesis without `of` disturbs a host: acts need a command on the host, and crashes need a disk."""
    host = net.hosts[name]
    if host.forwards or name == net.main:
        return False
    if kind == "crash-one" and not host.disks:
        return False
    return kind not in OF_COMMANDS or host.command != ""


def refuse_too_few(net: Description, statement: Statement, kind: str, items: list[str]) -> None:
    """Checks that a nemesis can draw faults. Wrong: there are too few hosts, or no link that a partition could cut."""
    least = LEAST.get(kind, 1)
    if len(items) < least:
        raise statement.wrong(kind, f"it takes {least} host{'s' if least > 1 else ''} or more")
    places = placed_hosts(items)
    if kind in LEAST and not any(linked(net, name, places) for name in items):
        raise statement.wrong(
            kind, "no link leads from one of its hosts to another one; `isolate-one` is for hosts behind a switch"
        )


def span_behind(statement: Statement, key: str, otherwise: Optional[TimeSpan] = None) -> TimeSpan:
    """Reads the times after a key word; returns the range, or `otherwise` if the key word is missing. Wrong: the key word is
    missing without `otherwise`, or its times are wrong."""
    if statement.peek() != key:
        if otherwise is not None:
            return otherwise
        raise statement.wrong(statement.peek(), f"`{key}` is missing: {NEMESIS}")
    statement.take(NEMESIS)
    with placed(statement.place):
        return read_span(statement.take(NEMESIS))


def read_nemesis(net: Description, statement: Statement) -> Nemesis:
    """Reads a line `nemesis`; returns the nemesis. Wrong: a word is wrong, or the times allow no fault or too many faults."""
    kind = statement.take(NEMESIS)
    if kind not in KINDS:
        raise statement.unknown(kind, KINDS, "not a nemesis", f"write one of {', '.join(KINDS)}")
    every = span_behind(statement, "every")
    lasting = span_behind(statement, "for")
    first = span_behind(statement, "from", every)
    until = span_behind(statement, "until", TimeSpan(LASTING, LASTING)).most
    if not 0 < lasting.least <= lasting.most <= every.least:
        raise statement.wrong(
            spelled_ns(lasting.most), f"write more than 0s, and at most {spelled_ns(every.least)}, the least time to the next fault"
        )
    if first.least > until:
        raise statement.wrong(kind, f"no fault: the first would start at {spelled_ns(first.least)}, after {spelled_ns(until)}")
    if until // every.least > MOST_ACTS:
        raise statement.wrong(kind, f"more than {MOST_ACTS} faults; write a shorter `until TIME`")
    return Nemesis(kind, every, lasting, first, until, named_hosts(net, statement, kind))


def drawn_events(net: Description, nemesis: Nemesis, draw: Draw) -> Iterator[tuple[int, Event]]:
    """Draws a nemesis's events; yields each with its moment in ns."""
    start = draw.time(nemesis.first)
    while start <= nemesis.until:
        lasting = draw.time(nemesis.lasting)
        for fault in KINDS[nemesis.kind](net, nemesis.hosts, draw):
            yield start, replace(fault, length=lasting, words=f"{fault.words} {spelled_ns(lasting)}")
        start += draw.time(nemesis.every)
