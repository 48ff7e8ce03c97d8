"""A net's file: hosts with their commands, links, ports to wait for, and scheduled events."""

from __future__ import annotations

import re
from collections import Counter
from dataclasses import dataclass, field, replace
from typing import Callable, Optional

from hinge.arguments import is_number
from hinge.events.forms import WORDS as WORDS_OF_EVENTS
from hinge.net.disks import DISK, read_disk
from hinge.net.parts import NetHost, NetLink, Port, Wait
from hinge.net.statements import UNKNOWN_HOST, Statement, statements
from hinge.run.words import Wrong, bytes_of_mtu, placed

NAME = re.compile(r"[A-Za-z][A-Za-z0-9-]{0,62}", re.ASCII)
TAKEN = {"localhost", "from", *WORDS_OF_EVENTS}  # words that can't be names of hosts
MOST_NAMED = 10  # the hosts that a refusal lists
KEYWORDS = {"at", "of", "every", "for", "until", "to", "and", *TAKEN}  # words that are hardly meant as names of hosts
HOST, MAIN, ROUTER = "host NAME [COMMAND]", "main NAME [COMMAND]", "router NAME [COMMAND]"
MTU, ROUTES = "mtu A B [N] BYTES", "routes none"
LINK, SWITCH, WAIT = "link A B LINK [/ LINK]", "switch NAME A B .. LINK [/ LINK]", "wait NAME port N [TIME] [optional]"
PATIENCE = 30.0  # s to wait for a port, unless its line names a time
MOST_LINKS = 32767  # as each link needs two of 65,535 pipes
MOST_PORTS = 254  # the hosts in a segment, as IPv4 addresses end in 1 to 254


@dataclass
class Description:
    """Holds everything that a net's file describes."""

    hosts: dict[str, NetHost] = field(default_factory=dict)
    links: list[NetLink] = field(default_factory=list)
    waits: list[Wait] = field(default_factory=list)
    of_links: list[Statement] = field(default_factory=list)  # the lines that net_plan.py reads
    main: Optional[str] = None  # the main command's host
    has_shell: bool = False  # whether a shell is the main command
    has_routes: bool = True  # whether hosts get routes to hosts that aren't neighbours
    links_of: dict[str, dict[str, list[int]]] = field(default_factory=dict)  # the numbers of each host's links, by the other end

    def between(self, statement: Statement, form: str) -> tuple[int, bool]:
        """Reads a link from the next words, `A B`, or `A B N` for the N-th link between both hosts.

        Returns the link's number, and whether A is the second end. Wrong: there is no such link.
        """
        one = self.host(statement, form)
        two = self.host(statement, form)
        numbers = self.links_of.get(one, {}).get(two, [])
        place = int(statement.take(form)) if is_number(statement.peek()) else 1
        if not numbers:
            raise statement.wrong(f"{one} {two}", "there is no link between them")
        if not 1 <= place <= len(numbers):
            raise statement.wrong(f"{one} {two}", f"there is no link {place} between them")
        number = numbers[place - 1]
        return number, self.links[number].ends[0] != one

    def ways_between(self, host: str, others: tuple[str, ...], side: str = "") -> tuple[int, ...]:
        """Returns the way numbers for a host's links, or only for the links to some hosts. `side` restricts them to the ways from
        the host (`up`) or to the host (`down`)."""
        table = self.links_of.get(host, {})
        ways = list[int]()
        for number in sorted(number for other in {*others} or table for number in table.get(other, ())):
            for end in (0, 1):
                way_side = "up" if self.links[number].ends[end] == host else "down"
                if side in ("", way_side):
                    ways.append(2 * number + end)
        return tuple(ways)

    def host(self, statement: Statement, form: str) -> str:
        """Reads and returns the name of a host or switch. Wrong: the net has no such host; the message suggests what to write."""
        name = statement.take(form)
        if name not in self.hosts:
            hint = f"it has {', '.join(list(self.hosts)[:MOST_NAMED])}"
            if statement.number > 0 and statement.word != "at" and NAME.fullmatch(name) and name not in KEYWORDS:
                hint = f"write host {name}"
            raise statement.unknown(name, self.hosts, UNKNOWN_HOST, hint)
        return name

    def is_room(self, name: str) -> bool:
        """Returns whether programs can run on the host with this name. Switches run no programs."""
        return name in self.hosts and not self.hosts[name].is_switch

    def room(self, statement: Statement, form: str) -> str:
        """Reads and returns the name of a host on which programs can run. Wrong: there is no such host."""
        name = self.host(statement, form)
        if not self.is_room(name):
            raise statement.wrong(name, "a switch, on which nothing runs")
        return name

    def declare(self, statement: Statement, form: str, forwards: bool = False) -> NetHost:
        """Reads the name of a new host, and adds the host; returns the host. Wrong: the name is taken, or can't be a name."""
        name = statement.take(form)
        if name in TAKEN:
            raise statement.wrong(name, "a word with a meaning of its own; take another name")
        if not NAME.fullmatch(name):
            raise statement.wrong(name, "a name has letters, digits and hyphens, begins with a letter and has at most 63")
        if name in self.hosts:
            raise statement.wrong(name, "a second host of this name")
        self.hosts[name] = NetHost(name, forwards, command=statement.rest)
        return self.hosts[name]

    def main_of(self, statement: Statement) -> None:
        """Reads a line `main`, which names the main command's host and may contain the command."""
        if self.main is not None:
            raise statement.wrong("main", f"a second one; the first is of {self.main}")
        if statement.peek() in self.hosts:
            host = self.hosts[self.room(statement, MAIN)]
            if host.command and statement.rest:
                raise statement.wrong(host.name, "it has a command already; a host has one")
            host.command = host.command or statement.rest
        else:
            host = self.declare(statement, MAIN)
        self.main = host.name

    def add_link(self, statement: Statement, one: str, two: str, words: str) -> None:
        """Adds a link between two hosts, described by words."""
        if one == two:
            raise statement.wrong(two, "a link has two ends")
        if len(self.links) == MOST_LINKS:
            raise statement.wrong("", f"more than {MOST_LINKS} links")
        for end, other in ((one, two), (two, one)):
            self.links_of.setdefault(end, {}).setdefault(other, []).append(len(self.links))
        self.links.append(NetLink((one, two), statement.both_ways(words), statement))

    def link(self, statement: Statement) -> None:
        one = self.host(statement, LINK)
        two = self.host(statement, LINK)
        self.add_link(statement, one, two, statement.rest)

    def switch(self, statement: Statement) -> None:
        """Reads a line `switch`, which adds a link from each named host to the switch."""
        name = statement.take(SWITCH)
        members = list[str]()
        while statement.peek() in self.hosts:
            members.append(statement.take(SWITCH))
        if not members:
            raise statement.unknown(statement.peek(), self.hosts, f"{UNKNOWN_HOST}: {SWITCH}")
        statement.refuse_twice(members)
        for member in members:
            self.add_link(statement, member, name, statement.rest)

    def mtu(self, statement: Statement) -> None:
        """Reads a line `mtu`, which sets the MTU at both ends of a link."""
        words = statement.rest.split()
        if len(words) == 3:  # without the place among several links
            statement.rest = " ".join([*words[:2], "1", words[2]])
        number, _ = self.between(statement, MTU)
        word = statement.take(MTU)
        statement.done(MTU)
        with placed(statement.place):
            self.links[number] = replace(self.links[number], mtu=bytes_of_mtu(word))

    def longest(self, otherwise: int) -> int:
        """Returns the length of the longest packet in bytes. `otherwise` is the MTU of interfaces that don't specify one."""
        return max(otherwise if link.mtu is None else link.mtu for link in self.links)

    def routes(self, statement: Statement) -> None:
        if statement.take(ROUTES) != "none":
            raise statement.wrong(statement.text, f"the one such line is `{ROUTES}`")
        statement.done(ROUTES)
        self.has_routes = False

    def wait(self, statement: Statement) -> None:
        """Reads a line `wait`, which names a port to wait for."""
        host = self.room(statement, WAIT)
        word = statement.take(WAIT)
        port = statement.take(WAIT)
        if word != "port" or not is_number(port) or not 1 <= int(port) <= 65535:
            raise statement.wrong(f"{word} {port}", f"no port from 1 to 65535: {WAIT}")
        lasting = statement.take_time(WAIT) / 1e9 if statement.peek() not in ("", "optional") else PATIENCE
        is_optional = statement.peek() == "optional"
        if is_optional:
            statement.take(WAIT)
        statement.done(WAIT)
        self.waits.append(Wait(host, int(port), lasting, is_optional))

    def disk(self, statement: Statement) -> None:
        self.hosts[self.room(statement, DISK)].disks.append(read_disk(statement))

    def declare_switch(self, statement: Statement) -> None:
        rest = statement.rest
        host = self.declare(statement, SWITCH, forwards=True)
        host.command = ""
        host.is_switch = True
        statement.rest = rest  # for `switch`, which reads the line again when all hosts are known

    def ways(self) -> list[str]:
        """Returns the names of all ways: `A > B`, or `A > B 2` on the second link between both."""
        names = list[str]()
        counts = Counter[str]()
        for name in (" > ".join(ends) for link in self.links for ends in (link.ends, link.ends[::-1])):
            counts[name] += 1
            names.append(f"{name} {counts[name]}" if counts[name] > 1 else name)
        return names

    def ways_into_switches(self) -> dict[str, list[int]]:
        """Returns the numbers (from 0) of the ways that end at each switch."""
        table: dict[str, list[int]] = {name: [] for name, host in self.hosts.items() if host.is_switch}
        for number, link in enumerate(self.links):
            start, end = link.ends
            if end in table:
                table[end].append(2 * number)
            if start in table:
                table[start].append(2 * number + 1)
        return table

    def joined_switches(self) -> dict[str, set[str]]:
        """Returns each switch with the set of all switches in its segment. Wrong: switches form a loop, in which a broadcast
        would circulate forever."""
        union = {name: {name} for name, host in self.hosts.items() if host.is_switch}
        for link in self.links:
            one, two = link.ends
            if one in union and two in union:
                if union[one] is union[two]:
                    raise link.statement.wrong(two, "switches in a circle, in which a broadcast would go round for ever")
                union[one] |= union[two]
                union.update(dict.fromkeys(union[one], union[one]))
        return union

    def ports(self) -> dict[tuple[int, str], Port]:
        """Returns all hosts' ports at switches, by the link's number (from 0) and the host's name. Wrong: switches form a loop,
        or a segment has too many hosts."""
        union = self.joined_switches()
        table = dict[tuple[int, str], Port]()
        last = dict[str, Port]()
        for number, link in enumerate(self.links):
            for name in link.ends:
                switch = link.other(name)
                if switch in union and name not in union:
                    segment = min(union[switch])
                    port = last.get(segment, Port(number, 0))
                    if port.number == MOST_PORTS:
                        raise link.statement.wrong(name, f"switches that are joined have {MOST_PORTS} hosts at most")
                    last[segment] = port._replace(number=port.number + 1)
                    table[number, name] = last[segment]
        return table


Does = Callable[[Description, Statement], object]
DECLARES: dict[str, Does] = {
    "host": lambda net, statement: net.declare(statement, HOST),
    "router": lambda net, statement: net.declare(statement, ROUTER, forwards=True),
    "switch": Description.declare_switch,
}
FOLLOWS: tuple[dict[str, Does], ...] = (
    DECLARES,
    {"main": Description.main_of},
    {"link": Description.link, "switch": Description.switch},
    {
        "wait": Description.wait,
        "disk": Description.disk,
        "mtu": Description.mtu,
        "routes": Description.routes,
        **{
            word: lambda net, statement: net.of_links.append(statement)
            for word in ("loss", "faults", "line", "map", "trace", "at", "nemesis")
        },
    },
)
LINE_WORDS = sorted({word for kinds in FOLLOWS for word in kinds})


def read_description(path: str) -> Description:
    """Reads a net's file, in which a line may use names that a later line defines; returns the description. Wrong: a line is
    wrong, or there is no link."""
    net = Description()
    lines = list[Statement]()
    for statement in statements(path):
        if statement.word not in LINE_WORDS:
            raise statement.unknown(statement.word, LINE_WORDS, "not a word of a net", f"write one of {', '.join(LINE_WORDS)}")
        lines.append(statement)
    for kinds in FOLLOWS:
        for statement in lines:
            if statement.word in kinds:
                kinds[statement.word](net, statement)
    if not net.links:
        raise Wrong(f"{path}: no link: {LINK}")
    net.ports()  # for its refusals
    return net
