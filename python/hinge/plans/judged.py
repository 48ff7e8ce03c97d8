"""The check of a transcript against a net's file or a run's words: each line was in force when these say so, each cut lost all
packets, each hold held them, each act happened at its moment, a stopped or killed host sent no packet, the seed drew the recorded
values, and nothing else happened."""

from __future__ import annotations

import re
from heapq import heapify, heappop, heappush
from typing import Iterable, Iterator, Optional

from hinge.plans.meaning import LineEvent, Meaning
from hinge.plans.of_draws import OfDraws
from hinge.plans.of_hosts import MS, seconds
from hinge.plans.spelling import LineOptions, Target, options_of

NOBODY = "255"  # the protocol of the packet with which an outage begins
ENTRIES_TOLD = 3  # the first format in which a net's transcript contains remarks of `hinge exec`
DOUBT = 100 * MS  # within which the links carry out a request of the control socket
WORDS_OF_CUT = re.compile("(?= ((?:cut|heal)[^`]*)`)")  # within an event's `where`


class Judge(OfDraws):
    """Reads a transcript line by line, and collects its faults."""

    def __init__(self, meaning: Meaning, limit: int) -> None:
        """Acts on hosts may be late by the limit, in ns."""
        super().__init__(meaning, limit)
        self.configured_at: dict[Target, int] = {}  # the moment of each target's latest line
        self.paced: set[Target] = {("pipe", number) for number in meaning.traced}  # pipes with a bandwidth from a trace
        self.unjudged: list[tuple[Target, LineOptions, str]] = []  # lines at the present moment that don't fit yet
        self.due: list[tuple[int, int, LineEvent]] = []  # events by the moments at which their effect must be in force
        self.lines_of_cuts: set[tuple[int, str]] = set()  # the words of lines that cut or heal, and their moments
        self.note(meaning.events)
        self.asked: set[str] = set()  # the control socket's latest change
        self.before: Optional[
            tuple[Target, LineOptions, str]
        ] = None  # a target's options before a line without a reply, and the line
        self.held: dict[str, tuple[LineEvent, int]] = {}  # the hold of each held packet, and the link's delay
        self.packets = 0
        self.submitted: Optional[tuple[Target, int, list[str]]] = None  # a packet without a reply: target, moment and fields

    def note(self, events: list[LineEvent]) -> None:
        """Notes events, from the file or the control socket."""
        self.note_acts(events)
        self.lines_of_cuts |= {(event.moment, words) for event in events for words in WORDS_OF_CUT.findall(event.where)}
        for event in events:
            if event.host:
                continue
            self.of[event.target].add(event)
            if event.kind != "hold":
                heappush(self.due, (event.moment + event.doubt, event.place, event))
                heappush(self.due, (event.end + event.doubt, event.place, event))

    def fits(self, target: Target, options: LineOptions, moment: int, is_past: bool, until: int) -> bool:
        """Returns whether the file or the control socket requests a line's options at a moment. From a hold on, any bandwidth fits
        up to the pipe's next line, since the pipe has the rates of the waiting packets; the hold may begin up to `until`."""
        of = self.of[target]
        since = self.configured_at.get(target, 0)
        hold = of.hold(until + 1)
        is_paced = target in self.paced or hold is not None and since < hold.end
        return of.fits(options, moment, is_past, is_paced)

    # What the transcript says.

    def read(self, lines: Iterable[str]) -> None:
        """Reads a file of the transcript: calls (c), replies (r), deliveries (d) and remarks (#)."""
        for line in lines:
            kind, _, rest = line.rstrip("\n").partition(",")
            if kind == "c":
                self.call(rest.split(",", 1)[1])
            elif kind == "r":
                self.reply(rest)
            elif kind == "d":
                self.delivered(rest.split(","))
            elif kind == "#":
                self.remark(rest)

    def call(self, text: str) -> None:
        """Reads a call of the links: a configuration line, the collection of packets that are due, or a packet's submit."""
        word, _, rest = text.partition(",")
        if word == "configure":
            self.configured(rest)
            return
        self.pass_to(int(rest.rpartition(",")[2]))
        if word == "collect":
            self.no_flips()
        if word == "submit":
            target, number, *packet = rest.split(",")
            self.submitted = (target, int(number)), self.now, packet

    def pass_to(self, moment: int) -> None:
        """Advances the transcript's clock to a moment. Reports lines that no event requests, and events that had no effect by
        then."""
        for target, options, text in self.unjudged:
            if not self.fits(target, options, self.now, False, moment):
                self.fault(self.now, f"`{text}` isn't what {self.meaning.said} has for {self.name(target)} then")
        self.unjudged.clear()
        self.now = max(self.now, moment)
        while self.due and self.due[0][0] < self.now:
            at, _, event = heappop(self.due)
            options = self.in_force.get(event.target)
            if not self.fits(event.target, options, at, True, moment):
                text = self.options_text(options)
                self.fault(at, f"{event.where} wasn't done: {self.name(event.target)} is `{text}` at {seconds(at)}")

    def configured(self, text: str) -> None:
        """Puts a configuration line into force."""
        target, options = options_of(text)
        self.before = target, self.in_force.get(target), text
        self.in_force[target], self.configured_at[target] = options, self.now
        if target not in self.of and target[0] == "pipe" and target[1] > 2 * len(self.meaning.links):
            return  # a pipe for a second pass, which no line of the file configures
        if not self.fits(target, options, self.now, False, self.now):
            self.unjudged.append((target, options, text))

    def refused(self, target: Target, before: LineOptions, line: str, reply: str) -> None:
        """Restores a target's options after the links refused a line, and removes the control socket's request for the line.
        Reports a refusal without such a request."""
        self.in_force[target] = before
        requests = [one for one in self.of[target].lines if one.doubt and options_of(one.line) == options_of(line)]
        for one in requests[-1:]:
            self.of[target].lines.remove(one)
            self.due = [due for due in self.due if due[2] != one]
            heapify(self.due)
            self.remarks.append(f"{one.where} at {seconds(self.now)}: the links refused `{line}`: {reply}")
        if not requests:
            self.fault(self.now, f"the links refused `{line}`: {reply}")

    def reply(self, text: str) -> None:
        """Reads the links' reply to the latest line or submit."""
        if self.before and text not in ("configured", "deleted"):
            self.refused(*self.before, text)
        self.before = None
        if self.submitted is None:
            return
        (target, moment, packet), self.submitted = self.submitted, None
        outcome, _, rest = text.partition(",")
        number = int((self.in_force.get(target) or {}).get("pipe", 0)) if target[0] == "queue" else target[1]
        pipe: Target = ("pipe", number)
        if packet[2] == NOBODY:
            if number not in self.meaning.traced and not self.of[pipe].begins_hold(moment):
                self.fault(moment, f"an outage of {self.name(pipe)} isn't {self.meaning.said}'s")
        elif number > 2 * len(self.meaning.links):
            self.passed_again(moment, pipe, rest.split(",")[2] if outcome == "queued" else "")
        else:
            self.entered_pipe(target, pipe, moment, packet, rest.split(",")[2] if outcome == "queued" else "")

    def entered_pipe(self, target: Target, pipe: Target, moment: int, packet: list[str], number: str) -> None:
        """Notes that a packet entered a link's pipe or queue, where the packet got a number unless it was lost."""
        self.packets += 1
        course = self.of[pipe]
        self.drawn(pipe[1], moment, packet, number)
        for port in [(), *course.ports_of(packet)] if number else ():
            if course.is_cut(moment, port) == {True} == course.is_cut(moment - 1, port):
                way = f"one from {packet[0]} to {packet[1]} passed by {target[0]} {target[1]}"
                self.fault(moment, f"{course.cut_at(moment, port).where} didn't lose all packets: {way}")
        if number and (hold := course.hold(moment)) and moment < hold.end:
            self.held[number] = hold, self.delay(pipe)
        self.lossless(target, pipe, moment)
        self.from_stopped(moment, packet)

    def lossless(self, target: Target, pipe: Target, moment: int) -> None:
        """Reports a queue without a loss whose link has one."""
        lines = self.of[pipe].latest(moment)
        own = self.of[target].latest(moment)
        if target[0] != "queue" or not lines or not own or own.place in self.meaning.own_loss or pipe[1] in self.meaning.decided:
            return
        if "plr" in (options_of(lines.line)[1] or {}):
            self.fault(moment, f"{lines.where}: its loss isn't that of packets which a rule sends to queue {target[1]}")

    def delivered(self, fields: list[str]) -> None:
        """Reads a packet's delivery, and reports a packet that left during a hold."""
        if fields[0] in self.passing:
            self.left.append(self.passing.pop(fields[0]))
        if fields[0] in self.leaving:
            draws = self.leaving.pop(fields[0])
            place = draws.flipped()
            if place:
                self.flips[fields[0]] = draws, place
        hold, delay = self.held.pop(fields[0], (None, 0))
        if hold and int(fields[3]) < hold.end + min(delay, self.delay(hold.target)):
            self.fault(int(fields[3]), f"{hold.where} didn't hold: a packet left before its end")

    def remark(self, text: str) -> None:
        """Reads a remark, and reports a change that neither the file nor the control socket requests."""
        kind, _, rest = text.partition(",")
        if kind == "host":
            name, *addresses = rest.split(",")
            self.own.update(dict.fromkeys(addresses, name))
        elif kind == "pipe":
            number, start, end = rest.split(",")[:3]
            if "~" in end:
                self.middles[end] = int(number)
            if start in self.middles:
                self.way_of[int(number)] = self.middles[start]
        elif kind == "change":
            self.add(rest)
        elif kind == "act" and rest.split()[0] not in ("cut", "heal"):
            self.note_act(self.now + self.late_act, *rest.split()[:2])
            self.late_act = 0
        elif kind == "corrupt":
            number, bit, bits = rest.split(",")[:3]
            self.flipped(number, int(bit), int(bits))
        elif kind == "seed":
            self.seed = int(rest)
        elif kind == "exec":
            self.entered[rest] = self.now
        elif kind == "late-act":
            self.late_act = int(rest)
        elif kind == "act" and rest not in self.asked and (self.now, rest) not in self.lines_of_cuts:
            if self.tells_changes:
                self.fault(self.now, f"`{rest}` at {seconds(self.now)} isn't the file's, nor was the control socket asked for it")
            else:
                self.add(rest)
        self.asked = {rest} if kind == "change" else self.asked
        self.tells_changes |= kind == "format"
        self.tells_entries |= kind == "format" and int(rest) >= ENTRIES_TOLD
        self.ends |= kind == "ending"  # stopped hosts then continue

    def add(self, words: str) -> None:
        """Adds the events of a request from the control socket, whose words mean the same as in a file."""
        self.remarks.append(f"at {seconds(self.now)} by the control socket: {words}")
        first = len(self.meaning.events)
        self.meaning.at(f"`{words}` by the control socket", f"start+{self.now}ns", words, DOUBT)
        self.meaning.spell()
        self.note(self.meaning.events[first:])

    def lines_told(self) -> Iterator[str]:
        """Yields the report: faults, requests of the control socket, and counts."""
        yield from (f"{self.meaning.path} {fault.text}" for fault in self.faults)
        yield from self.remarks
        past = [event.where for event in self.meaning.events if event.moment <= self.now]
        count = len({where for where in past if "control socket" not in where})
        verdict = "not as" if self.faults else "as"
        yield f"{verdict} {self.meaning.path} says: {count} lines, {len(self.acts)} acts, {self.packets} packets"

    @staticmethod
    def options_text(options: LineOptions) -> str:
        return "deleted" if options is None else " ".join(f"{key} {text}" for key, text in options.items()) or "open"
