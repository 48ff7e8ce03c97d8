"""A net's plan: the text that describes the emulation to the links' process. Link L, from 0, uses pipes 2L+1 and 2L+2."""

from __future__ import annotations

import os
import re
from contextlib import contextmanager
from itertools import count
from operator import itemgetter
from typing import Iterator

from hinge.border.files import MOST_SAID, Budget, untrusted
from hinge.captures.rule_words import NETS
from hinge.checks.lines import judged_lines, refuse_long
from hinge.events.forms import WORDS
from hinge.events.kinds import PlannedAct, Event, HostAct, Moment, NewLine, NewWords, TimedEvent, fault_ends, kept
from hinge.events.parsed import read_event
from hinge.net.description import Description
from hinge.net.nemesis import NEMESIS, MOST_DRAWS, OF_MOMENTS, SPAN, Draw, drawn_events, read_nemesis, read_span
from hinge.net.net_rooms import own_addresses
from hinge.net.statements import Statement, Unobeyed
from hinge.run.changes import Change, Changes, Happening
from hinge.run.plan import Plan
from hinge.run.words import LAST_MOMENT, Wrong, read_link_words, placed, renumbered, target_of
from hingetulip_words.explained import explained
from hingetulip_words.link import Place

LOSS, LINE, MAP = "loss A B [N] MODEL", "line A B [N] LINE", "map A B [N] RULE"
FAULTS_LINE, TRACE, AT = "faults FILE", "trace A B [N] FILE", "at TIME EVENT"
BACK = {"up": "down", "down": "up"}
BASES = ("start", "main")
TRACE_LASTING = 3600 * 10**9  # ns


@contextmanager
def with_place(place: str) -> Iterator[None]:
    """Replaces the option's name in an error message by the line's place in the net's file. Wrong: the line is wrong."""
    with placed(place):
        try:
            with untrusted(place):
                yield
        except Wrong as wrong:
            raise Wrong(str(wrong).removeprefix("--map ").removeprefix("--loss ")) from None


class NetPlan:
    """Builds a net's plan from the description, and checks all lines."""

    def __init__(self, net: Description, longest: int, seed: int = 0) -> None:
        """`longest` is the longest packet's length in bytes. `seed` determines each nemesis's faults."""
        self.net = net
        self.plan = Plan(longest, len(net.links))
        self.queues: dict[tuple[int, int], int] = {}  # the net's number of each queue, by the link and its own number
        # For each configuration line: whether its moment counts from the main command, the moment, the line, and its statement.
        self.places: list[tuple[bool, int, str, Statement]] = []
        self.events: list[TimedEvent] = []  # from lines `at` and `nemesis`
        self.lines_at: list[Statement] = []  # the statement of each of these events
        self.acts: list[PlannedAct] = []
        self.host_faults = count(1)
        self.seed = seed
        self.draws = Budget(MOST_DRAWS, "random numbers")
        self.nemeses = count()
        self.moments = Draw(seed, OF_MOMENTS, self.draws)
        self.rest = Budget(MOST_SAID, "events of links and hosts")
        for number, link in enumerate(net.links):
            for way, text in enumerate(link.ways):
                words = read_link_words(text, link.statement.place, Place.KERNELS)
                self.configure(link.statement, words.line(2 * number + way + 1))
                self.plan.words(2 * number + way, words)
        for add in (self.line, self.loss, self.faults, self.map, self.trace, self.at, self.nemesis):
            for statement in net.of_links:
                if statement.word == add.__name__:
                    with with_place(statement.place):
                        add(statement)
        self.judge_ends()
        self.judge()

    @property
    def has_main(self) -> bool:
        """Returns whether the net has a main command or a shell in its place."""
        return self.net.main is not None or self.net.has_shell

    def configure(self, statement: Statement, line: str) -> None:
        """Adds a configuration line for the links' start, which a statement of the net's file requests."""
        self.places.append((False, 0, line, statement))
        self.plan.link(line)

    @property
    def drawn(self) -> list[str]:
        """Returns the `at` lines that the seed drew."""
        return [str(at_line) for at_line in self.events if at_line.is_drawn]

    def unruled(self) -> list[str]:
        """Returns the lines that configure queues to which no rule sends packets."""
        lines = {target_of(line): statement.text for _, _, line, statement in self.places}
        return [f"`{lines[queue]}`" for queue in self.plan.unruled()]

    def own(self, link: int, is_back: bool, line: str) -> str:
        """Converts a link's configuration line to the net's numbers for pipes and queues. The line's pipe 1 leads from the host
        that is named first. Wrong: the line names a pipe other than 1 and 2."""

        def pipe(own: int) -> int:
            if own not in (1, 2):
                raise Wrong(f"'pipe {own}': a link has the pipes 1, from its first host, and 2")
            return 2 * link + (3 - own if is_back else own)

        return renumbered(line, pipe, lambda own: self.queues.setdefault((link, own), len(self.queues) + 1))

    def line(self, statement: Statement) -> None:
        """Reads a line `line`: a configuration line for a link."""
        number, is_back = self.net.between(statement, LINE)
        self.configure(statement, self.own(number, is_back, statement.rest))

    def loss(self, statement: Statement) -> None:
        """Reads a line `loss`: a loss model for a link."""
        number, is_back = self.net.between(statement, LOSS)
        first, colon, rest = statement.rest.partition(":")
        if is_back:
            first = BACK.get(first, first)
        self.plan.loss(first + colon + rest, number)

    def map(self, statement: Statement) -> None:
        """Reads a line `map`: a rule that sends some packets on a link to a pipe or queue."""
        number, is_back = self.net.between(statement, MAP)
        test, arrow, target = statement.rest.partition("=>")
        words = test.split()
        if is_back:
            words = [BACK.get(word, word) for word in words]
        target = self.own(number, is_back, target)
        for test in dict.fromkeys((self.addressed(words, 0), self.addressed(words, 1))):
            self.plan.rule(f"{test} {arrow} {target}", number, statement.text)

    def addressed(self, words: list[str], kind: int) -> str:
        """Replaces host names in a rule with addresses: IPv4 if `kind` is 0, IPv6 if `kind` is 1."""
        names = {name: place for place, name in enumerate(self.net.hosts, 1) if not self.net.hosts[name].is_switch}
        return " ".join(
            own_addresses(names[word])[kind] if before in NETS and word in names else word
            for before, word in zip(["", *words], words)
        )

    def faults(self, statement: Statement) -> None:
        """Reads a line `faults`: a file with faults for single packets."""
        self.plan.faults(self.file(statement, FAULTS_LINE), self.net.ways(), is_net=True)

    def file(self, statement: Statement, form: str) -> str:
        """Reads a statement's last word; returns the path that the word names, relative to the net file's folder."""
        path = os.path.join(os.path.dirname(statement.path), statement.take(form))
        statement.done(form)
        return path

    def trace(self, statement: Statement) -> None:
        """Reads a line `trace`: a file that the bandwidth of a way follows."""
        number, is_back = self.net.between(statement, TRACE)
        way = 2 * number + 1 if is_back else 2 * number
        self.plan.trace(way, self.file(statement, TRACE), None, TRACE_LASTING)

    def moment(self, word: str) -> Moment:
        """Returns the moment that a word names. `main+5s` counts from the main command's start, and `start+5s` from the links'
        start.

        A plain `5s` counts from the main command if there is one. Wrong: `main+` without a main command.
        """
        base, plus, text = word.partition("+")
        if not plus or base not in BASES:
            return Moment(self.drawn_time(word), self.has_main, "")
        if base == "main" and not self.has_main:
            raise Wrong(f"{word}: the net has no main command")
        return Moment(self.drawn_time(text), base == "main", f"{base}+")

    def drawn_time(self, text: str) -> int:
        """Returns a time in ns. From a range such as 5s..20s, the seed draws a time."""
        return self.moments.time(read_span(text))

    def at(self, statement: Statement) -> None:
        """Reads a line `at`: a moment and an event."""
        word = statement.take(AT)
        self.add(TimedEvent(self.moment(word), read_event(statement, self.net), SPAN in word), statement)

    def nemesis(self, statement: Statement) -> None:
        """Reads a line `nemesis`, and adds the events that the seed draws."""
        nemesis = read_nemesis(self.net, statement)
        statement.done(NEMESIS)
        for moment, event in drawn_events(self.net, nemesis, Draw(self.seed, next(self.nemeses), self.draws)):
            self.add(TimedEvent(Moment(moment, self.has_main, ""), event, True), statement)

    def add(self, at_line: TimedEvent, statement: Statement) -> None:
        """Adds an event, which a statement of the net's file requests, to the plan."""
        moment, event, _ = at_line
        self.rest.spend(len({target // 2 if isinstance(target, int) else target for target in event.of}))  # links, or a host
        self.events.append(at_line._replace(event=kept(event)))
        self.lines_at.append(statement)
        if isinstance(event, HostAct):
            self.acts += self.acts_of(event, moment)
            return
        changes = self.plan.behind_main if moment.of_main else self.plan.changes
        new = self.happenings(event, moment.ns, changes)
        changes.add(new)
        if isinstance(event, (NewWords, NewLine)):
            self.places += [(moment.of_main, moment.ns, change.line, statement) for change in new if isinstance(change, Change)]

    def happenings(self, event: Event, ns: int, changes: Changes) -> list[Happening]:
        """Returns what the links have to do for an event at a moment; `changes` numbers the cuts. Wrong: the links can't do it."""
        if isinstance(event, NewLine):
            line = self.own(event.ways[0] // 2, event.ways[0] > event.ways[1], event.line)
            self.plan.note_line(line)
            return [Change(ns, line)]
        return self.plan.happenings(event, ns, changes)

    def acts_of(self, event: HostAct, moment: Moment) -> list[PlannedAct]:
        """Returns the acts for an event on a host: its begin, and its end if the event has a length."""
        fault = next(self.host_faults) if event.ending else 0
        acts = [PlannedAct(moment, event.word, event.host, fault, event.skew)]
        if event.ending and event.length < LAST_MOMENT:
            end = moment._replace(ns=moment.ns + event.length)
            acts.append(PlannedAct(end, event.ending, event.host, fault))
        return acts

    def judge_ends(self) -> None:
        """Checks that each heal and cont ends a fault. Wrong: no cut goes on when a heal comes, or no stop when a cont comes."""
        ends = {end for _, end in fault_ends(self.events)}
        for place, (at_line, statement) in enumerate(zip(self.events, self.lines_at)):
            word = WORDS.get(at_line.event.word)
            if word and word.none and place not in ends:
                raise Wrong(f"{statement.place}: {at_line.event.word!r}: {word.none} goes on then")

    def judge(self) -> None:
        """Makes the emulator check all configuration lines in order, before anything starts. Unobeyed: the emulator rejects a
        line."""
        by_moment = sorted(self.places, key=itemgetter(1))
        sequence = sorted(by_moment, key=itemgetter(0))  # in two steps, because keys with two values would need memory
        lines = [line for _, _, line, _ in sequence]
        refuse_long((statement.place for *_, statement in sequence), lines)
        for verdict in judged_lines(lines):
            _, _, line, statement = sequence[verdict.line - 1]
            where = f"{statement.path} line {statement.number}"
            if verdict.name == "bad":
                raise Unobeyed(f"{where}: {re.sub('^word [0-9]+ ', '', explained(line, verdict.text))}")
            if verdict.name != "ok":
                raise Unobeyed(f"{where}: {statement.text}: {verdict.name.replace('-', ' ')}")
