"""The check of a transcript's acts on hosts against the net's file: each act happened at its moment, in order and for its length,
and a stopped or killed host sent no packet."""

from __future__ import annotations

from bisect import bisect_left, bisect_right, insort
from collections import defaultdict, deque
from heapq import heappop, heappush
from typing import Iterator, NamedTuple, Optional, Tuple

from hinge.plans.meaning import ACT_ENDS, FOR_EVER, SECOND, LineEvent, Meaning

MS = 10**6
Key = Tuple[str, str]  # a host and the word of an act
Place = Tuple[int, int]  # a moment, and the place of an event among all
DoneAct = Tuple[int, int, str, str]  # an act's moment in the transcript, its moment in the file, its host and its words
NO_ACT: DoneAct = (0, 0, "", "")
UDP = "17"  # a protocol that no kernel sends by itself


class Broken(NamedTuple):
    """Describes a contradiction between a transcript and the net's file, at a moment in ns."""

    moment: int
    text: str


def seconds(moment: int) -> str:
    return f"{moment / SECOND:.6f} s"


class OfHosts:
    """Judges the acts on hosts in a transcript, such as kills and stops."""

    def __init__(self, meaning: Meaning, limit: int) -> None:
        """Acts may be late by the limit, in ns."""
        self.meaning = meaning
        self.limit = limit
        self.now = 0  # the moment of the transcript's latest call, in ns
        self.faults: list[Broken] = []
        self.remarks: list[str] = []
        self.stops = defaultdict[Key, list[LineEvent]](list)  # and kills, in order, up to the first packet that shows if they hold
        self.ends_of = defaultdict[Key, list[int]](list)  # the moments of restarts and conts
        self.acts: list[tuple[int, str, str]] = []  # the transcript's acts: moment, word and host
        self.places = defaultdict[Key, deque[int]](deque)  # each act's places in `acts`
        self.latest = defaultdict[Key, list[int]](list)  # the growing moments of each act
        self.last: dict[str, str] = {}  # each host's last act, `stop` or `cont`
        self.late_act = 0  # the lateness in ns of the act in the next remark
        self.tells_changes = self.tells_entries = False  # as transcripts since 2.1 do, and those with a later format
        self.entered: dict[str, int] = {}  # when `hinge exec` began something on a host last
        self.own: dict[str, str] = {}  # hosts by their addresses
        self.ends = False
        self.gone_on: set[str] = set()  # hosts that were stopped, behind the end
        self.fronts: set[str] = set()  # of the faults

    def fault(self, moment: int, text: str) -> None:
        """Adds a fault, unless an earlier fault has the same text up to a colon."""
        front = text.partition(":")[0]
        if front not in self.fronts:
            self.fronts.add(front)
            self.faults.append(Broken(moment, text))

    def note_acts(self, events: list[LineEvent]) -> None:
        """Notes the requested acts among these events."""
        for event in events:
            if event.kind in ACT_ENDS:
                heappush(self.stops[event.host, event.kind], event)
            elif event.kind in ACT_ENDS.values():
                insort(self.ends_of[event.host, event.kind], event.moment)

    def from_stopped(self, moment: int, packet: list[str]) -> None:
        """Judges the faults that have begun at the packet's sender: reports a fault during which a stopped or killed host sent a
        datagram, since a kernel answers but sends no datagram by itself. `hinge exec` may run programs on a killed host. The first
        packet after a fault's begin decides, since a reason that excuses this packet also excuses later packets."""
        host = self.own.get(packet[0], "") if packet[2] == UDP and not self.ends else ""
        for kind in ACT_ENDS if self.tells_entries else ("stop",):
            faults = self.stops[host, kind]
            while faults and self.has_begun(faults[0], moment):
                fault = heappop(faults)
                may_run = kind != "stop" and self.entered.get(host, -1) >= fault.moment
                if moment < fault.end - MS and not self.goes_on(fault, moment) and not may_run:
                    self.fault(moment, f"{fault.where} doesn't hold: at {seconds(moment)} {host} sends to {packet[1]}")

    def has_begun(self, fault: LineEvent, moment: int) -> bool:
        """Returns whether a fault's act happened before a moment, by more than the limit."""
        latest = self.latest[fault.host, fault.kind]
        first = bisect_left(latest, fault.moment - MS)
        return first < len(latest) and max(latest[first], fault.moment) + self.limit < moment

    def goes_on(self, fault: LineEvent, moment: int) -> bool:
        """Returns whether a restart or cont has ended a fault before a moment, so that the host runs again."""
        ends = self.ends_of[fault.host, ACT_ENDS[fault.kind]]
        return bisect_right(ends, fault.moment) < bisect_right(ends, moment)

    def expected(self) -> Iterator[tuple[int, str, str, LineEvent]]:
        """Yields the acts that a transcript must contain, with their moments. A fault's end counts only when no other fault of the
        same kind continues."""
        acts = sorted(event for event in self.meaning.events if event.host and event.kind != "skew")
        ends = defaultdict[Key, list[Place]](list)  # the acts of each host and word, among these restarts and conts
        same = defaultdict[Key, list[Place]](list)  # the faults that the same word ends at the same host
        latest = defaultdict[Key, list[Place]](list)  # for each of `same`, the latest end of the faults since the last of `ends`
        for act in acts:
            ends[act.host, act.kind].append(act[:2])
            if act.kind in ACT_ENDS:
                key = (act.host, ACT_ENDS[act.kind])
                end = (act.end, act.place)
                goes_on = same[key] and (not ends[key] or ends[key][-1] < same[key][-1])
                latest[key].append(max([end, *latest[key][-1:]]) if goes_on else end)
                same[key].append(act[:2])
        for act in acts:
            yield act.moment, act.kind, act.host, act
            if act.kind in ACT_ENDS and act.end < FOR_EVER:
                key = (act.host, ACT_ENDS[act.kind])
                end = (act.end, act.place)
                before = bisect_left(ends[key], end)
                last = ends[key][before - 1] if before else (-1, -1)
                others = bisect_left(same[key], end)
                if last <= act[:2] and (not others or latest[key][others - 1] <= end):
                    yield act.end, ACT_ENDS[act.kind], act.host, act

    def note_act(self, moment: int, word: str, host: str) -> None:
        """Notes an act of the transcript. Omits the conts with which stopped hosts continue after the main command's end, which no
        line requests."""
        if self.ends and word == "cont" and self.last.get(host) == "stop" and host not in self.gone_on:
            self.gone_on.add(host)
            return
        if word in ("stop", "cont"):
            self.last[host] = word
        if not self.latest[host, word] or self.latest[host, word][-1] < moment:
            self.latest[host, word].append(moment)
        self.places[host, word].append(len(self.acts))
        self.acts.append((moment, word, host))

    def requested(self) -> Iterator[tuple[int, str, str, LineEvent, Optional[int]]]:
        """Yields the requested acts in order: moment, word, host, event, and the place in `acts` of the act that fulfils the
        request, or None without such an act."""
        for moment, word, host, event in sorted(self.expected(), key=lambda one: (one[0], one[3].place)):
            places = self.places[host, word]
            while places and self.acts[places[0]][0] < moment - MS:
                places.popleft()  # this act is also too early for later requests
            yield moment, word, host, event, places.popleft() if places else None

    def judge_acts(self) -> None:
        """Reports each requested act that is missing, late, in the wrong order or too short, and each act that no line requests. An
        act on another host at the same moment may precede a restart, which takes longer."""
        begun: dict[int, int] = {}  # the moments at which faults began, by the events' places
        done: set[int] = set()  # the places of the acts that lines request
        at = 0  # the present moment in the file
        before: dict[str, DoneAct] = {}  # the latest acts requested for this moment: restarts by their hosts, others under ""
        latest = NO_ACT  # the latest act requested for an earlier moment
        for moment, word, host, event, place in self.requested():
            if place is None:
                if moment + self.limit < self.now:
                    self.fault(moment, f"{event.where}: `{word} {host}` at {seconds(moment)} wasn't done")
                continue
            if at != moment:
                latest = max(latest, *before.values(), NO_ACT)
                at = moment
                before = {}
            came = self.acts[place][0]
            last = max(latest, before.get("", NO_ACT), before.get(host, NO_ACT))
            lateness = came - moment - event.doubt
            lack = event.end - event.moment - (came - begun[event.place]) if event.place in begun else 0
            if lateness > self.limit:
                self.fault(came, f"{event.where}: `{word} {host}` came {lateness / MS:.3f} ms late")
            elif came < last[0]:
                self.fault(came, f"{event.where}: `{word} {host}` came before {last[3]}")
            elif event.place in begun and lack > self.limit:
                self.fault(came, f"{event.where} lasted {lack / MS:.3f} ms less than it should")
            begun.setdefault(event.place, came)
            done.add(place)
            key = host if word == "restart" else ""
            before[key] = max(before.get(key, NO_ACT), (came, moment, host, f"`{word} {host}` of {event.where}"))
        self.judge_unrequested(done)

    def judge_unrequested(self, done: set[int]) -> None:
        """Reports the acts that no line requests, or adds remarks on them if the transcript doesn't tell the control socket's
        changes. `done` are the places of the other acts."""
        for moment, word, host in (act for place, act in enumerate(self.acts) if place not in done):
            text = f"`{word} {host}` at {seconds(moment)} isn't the file's"
            if self.tells_changes:
                self.fault(moment, text)
            else:
                self.remarks.append(text)
