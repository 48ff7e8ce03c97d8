"""The meaning of a net's file: each way's configuration at each moment, its cuts and holds, and each host's stops and acts. This
second reading of docs/NET.md shares no code with the programs that run nets, so that both don't share a fault. dummynet spells the
configuration lines, and the transcript contains the seed's draws."""

from __future__ import annotations

import re
from dataclasses import dataclass, field
from fractions import Fraction
from typing import Iterator, NamedTuple, Optional

from hinge.border.files import lines_in
from hinge.plans.draws import Chosen
from hinge.plans.spelling import OPTION_WORDS, Target, Unread, options_of, dummynet_lines
from hingetulip_words.presets import preset

SECOND = 10**9
UNITS = {"ns": 1, "us": 10**3, "ms": 10**6, "s": 10**9, "min": 60 * 10**9, "h": 3600 * 10**9, "": 10**9}
FOR_EVER = 2**62
RATE = re.compile(r"\d+[kmg]?(bits?|bytes?)/s", re.I)
DELAY = re.compile(r"\d+ms")
ACT_ENDS = {"kill": "restart", "crash": "restart", "stop": "cont"}
PROTOCOLS = {"tcp": "6", "udp": "17"}
OF_HOST = ("jitter", "duplicate", "corrupt")  # the words of a link that aren't dummynet's
NEMESES = {"kill-one": "kill", "crash-one": "crash", "stop-one": "stop"}  # the acts of nemeses; other nemeses cut links


def ns_of(text: str) -> int:
    """Converts a duration such as `1.5s` to ns. Unread: the text is no duration."""
    match = re.fullmatch(rf"(\d+(?:\.\d+)?)({'|'.join(UNITS)})", text)
    if not match:
        raise Unread(f"{text!r} isn't a duration")
    return round(Fraction(match[1]) * UNITS[match[2]])


def without_port(words: list[str]) -> tuple[list[str], tuple[str, ...]]:
    """Returns a cut's words without the words about a port, and the protocol's number and the port, or an empty tuple."""
    for at, (word, following) in enumerate(zip(words, words[1:])):
        if word in PROTOCOLS and following == "port" and words[at + 2 : at + 3]:
            return words[:at] + words[at + 3 :], (PROTOCOLS[word], words[at + 2])
    return words, ()


class LineEvent(NamedTuple):
    """A change that the file or the control socket requests for one way or host."""

    moment: int  # in ns
    place: int  # among all events: the order of the events at a moment
    end: int  # in ns
    where: str  # the line of the file, for messages
    kind: str  # line, cut, heal, hold, or an act
    target: Target = ("", 0)
    line: str = ""  # the configuration line
    host: str = ""
    port: tuple[str, ...] = ()  # the protocol and the port whose packets a cut loses; all packets if empty
    doubt: int = 0  # ns after the moment within which the control socket's change may happen


@dataclass
class Meaning:
    """What a net's file requests: hosts, links, and events. Link number N has the pipes 2N + 1 and 2N + 2, one for each way."""

    path: str  # the file
    main: Optional[int]  # the moment in ns at which the main command began
    drawn: list[str] = field(default_factory=list)  # the lines that the seed drew, from the transcript
    hosts: dict[str, str] = field(default_factory=dict)  # for each host the word that declares the host
    links: list[tuple[str, str]] = field(default_factory=list)  # each link's two hosts
    queues: dict[tuple[int, int], int] = field(default_factory=dict)  # queues' numbers in the net, by link and number in the file
    events: list[LineEvent] = field(default_factory=list)
    decided: set[int] = field(default_factory=set)  # the pipes whose losses a model or a file decides
    models: dict[int, str] = field(default_factory=dict)  # the models that decide about losses, by pipes
    chosen: dict[int, Chosen] = field(default_factory=dict)  # the packets that --faults names, by pipes
    words: dict[int, list[str]] = field(default_factory=dict)  # each pipe's words at the beginning
    said = "the file"
    spelt = 0  # the number of events whose lines have dummynet's spelling
    undrawn: set[int] = field(default_factory=set)  # the pipes whose random words the seed doesn't determine alone
    own_loss: set[int] = field(default_factory=set)  # the places of events whose lines contain a loss
    traced: set[int] = field(default_factory=set)  # the pipes whose bandwidth a trace sets; a bandwidth of 0 is an outage

    def read(self) -> Meaning:
        """Reads the whole file; returns the meaning. Unread: the seed drew other lines, or a line is unknown to this module."""
        self.declared()
        if self.main is None and any(words[0] == "main" for _, words in self.statements()):
            self.main = FOR_EVER // 2  # the main command never began
        self.take_all(("loss", "faults", "map"), ("line",), ("trace",), ("at",), ("nemesis",))
        if self.drawn:
            raise Unread(f"the transcript has drawn lines that no line of the file asks for: {self.drawn[0]}")
        self.spell()
        return self

    def declared(self) -> Meaning:
        """Reads the hosts, then the links; returns the meaning."""
        self.take_all(("host", "main", "router", "switch"), ("link", "switch"))
        return self

    def take_all(self, *all_kinds: tuple[str, ...]) -> None:
        """Reads the file once for each tuple of first words, and only the statements with these words."""
        for kinds in all_kinds:
            for number, (word, *rest) in self.statements():
                if word in kinds:
                    self.take(f"line {number}: `{' '.join([word, *rest])}`", word, rest, kinds)

    def statements(self) -> Iterator[tuple[int, list[str]]]:
        """Yields the number of the first line and the words of each statement. A backslash continues a line."""
        before, first = "", 0
        for number, line in enumerate(lines_in(self.path), 1):
            first = first if before else number
            line = before + line.strip()
            before = line[:-1] + " " if line.endswith("\\") else ""
            if not before and line and not line.startswith("#"):
                yield first, line.split() if line.split()[0] in ("host", "main", "router") else line.partition("#")[0].split()

    def take(self, where: str, word: str, rest: list[str], kinds: tuple[str, ...]) -> None:
        """Reads a statement, `word` and `rest`. A switch is read as a host if `kinds` contains hosts, otherwise as links."""
        if "host" in kinds:
            self.hosts.setdefault(rest[0], word)
        elif word == "link":
            self.link(where, (rest[0], rest[1]), rest[2:])
        elif word == "switch":
            members = 1
            while members < len(rest) and rest[members] in self.hosts:
                members += 1
            for member in rest[1:members]:
                self.link(where, (member, rest[0]), rest[members:])
        elif word == "faults":
            pipes = set(range(1, 2 * len(self.links) + 1))
            self.undrawn |= pipes
            self.decided |= pipes
        elif word == "nemesis":
            self.nemesis(where, rest)
        elif word == "at":
            self.at(where, rest[0], " ".join(rest[1:]))
        else:
            link, is_back, rest = self.between(rest)
            if word == "loss":
                self.model(rest[0], link, is_back)
            elif word == "map":
                self.undrawn |= {2 * link + 1, 2 * link + 2}
            elif word == "trace":
                self.traced.add(2 * link + 1 + is_back)
            else:
                self.add(where, 0, self.own(" ".join(rest), link, is_back))

    def between(self, words: list[str]) -> tuple[int, int, list[str]]:
        """Reads the link in `A B [N] ..`; returns its number, whether A is its second end, and the remaining words."""
        one, two, *rest = words
        which = int(rest.pop(0)) if rest and rest[0].isdigit() else 1
        link = [number for number, ends in enumerate(self.links) if set(ends) == {one, two}][which - 1]
        return link, int(self.links[link][0] != one), rest

    def model(self, text: str, link: int, is_back: int) -> None:
        """Sets a link's model of losses, for both ways or, after `up:` or `down:`, for one."""
        side, _, rest = text.partition(":")
        for way in {"up": [0], "down": [1]}.get(side, [0, 1]):
            self.models[2 * link + 1 + (way ^ is_back)] = rest if side in ("up", "down") else text
        self.decided |= {*self.models}

    def own(self, line: str, link: int, is_back: int) -> str:
        """Converts a link's configuration line, whose pipes are 1 and 2, to the net's numbers of pipes and queues."""
        words = line.removeprefix("ipfw ").split()
        for at, word in enumerate(words[:-1]):
            if (at == 0 or word == "pipe" and words[0] == "queue") and word in ("pipe", "queue"):
                at += 1 + (words[at + 1] == "delete")
                number = int(words[at])
                queue = self.queues.setdefault((link, number), len(self.queues) + 1) if word == "queue" else 0
                words[at] = str(queue or 2 * link + (3 - number if is_back else number))
        return " ".join(words)

    @staticmethod
    def ways(words: list[str]) -> tuple[list[str], list[str]]:
        """Returns the words of a link's two ways."""
        if words[:1] == ["preset"]:
            both = preset(" ".join(words[1:]))
            return both.up.split(), both.down.split()
        at = words.index("/") if "/" in words else None
        return words[:at], words if at is None else words[at + 1 :]

    @staticmethod
    def line_of(pipe: int, words: list[str]) -> str:
        """Returns the configuration line for a link's words."""
        result, before = f"pipe {pipe} config", ""
        for word in words:
            if before in OF_HOST or word in ("loss", *OF_HOST):
                pass  # words that aren't dummynet's; the transcript's remarks repeat them
            elif before == "loss":
                whole, digits = divmod(int(Fraction(word.rstrip("%")) * 10**16), 10**18)
                result += f" plr {whole}.{digits:018d}"
            else:
                if before not in OPTION_WORDS and RATE.fullmatch(word):
                    result += " bw"
                elif before not in OPTION_WORDS and DELAY.fullmatch(word):
                    result += " delay"
                result += f" {word}"
            before = "" if before in (*OPTION_WORDS[:-1], "loss", *OF_HOST) else word
        return result

    def link(self, where: str, ends: tuple[str, str], words: list[str]) -> None:
        """Adds a link and the configuration lines of its two pipes."""
        self.links.append(ends)
        for pipe, text in enumerate(self.ways(words), 2 * len(self.links) - 1):
            self.words[pipe] = text
            self.add(where, 0, self.line_of(pipe, text))

    def moment(self, text: str) -> int:
        """Converts a moment such as `1s` or `main+1s` to ns; `1s` counts from the main command's start, if there is one."""
        base, plus, time = text.rpartition("+")
        is_main = base == "main" or (not plus and self.main is not None)
        return ns_of(time) + ((self.main or 0) if is_main else 0)

    def add(self, where: str, moment: int, line: str = "", kind: str = "line", end: int = FOR_EVER, **more: object) -> None:
        self.events.append(LineEvent(moment, len(self.events), end, where, kind, line=line, **more))  # type: ignore[arg-type]

    def at(self, where: str, word: str, text: str, doubt: int = 0) -> None:
        """Adds the event of an `at` line, or of a request from the control socket with its doubt. Unread: the seed drew another
        line."""
        words = text.split()
        if ".." in word:
            least, most = word.rpartition("+")[2].split("..")
            line = self.draw(where)
            if line[2:] != words or not ns_of(least) <= ns_of(line[1].rpartition("+")[2]) <= ns_of(most):
                raise Unread(f"{where}: the seed's line is another one: {' '.join(line)}")
            word = line[1]
        start, name = self.moment(word), words[0]
        if name in ("cut", "heal"):
            self.cut(where, start, words, doubt)
        elif name in (*ACT_ENDS, *ACT_ENDS.values(), "skew"):
            end = start if name == "crash" else FOR_EVER
            if words[2:] and name in ACT_ENDS:
                end = start + ns_of(words[2])
            self.add(where, start, kind=name, end=end, host=words[1], doubt=doubt)
        else:
            self.link_change(where, start, *self.between(words), doubt)

    def cut(self, where: str, start: int, words: list[str], doubt: int) -> None:
        """Adds a cut or a heal for each pipe that the words select."""
        kind, host, *rest = words
        rest, port = without_port(rest)
        end = start + ns_of(rest.pop()) if rest and rest[-1] not in (*self.hosts, "up", "down") else FOR_EVER
        side = rest.pop() if rest and rest[-1] not in self.hosts else ""
        for pipe, (sender, receiver) in enumerate((way for ends in self.links for way in (ends, ends[::-1])), 1):
            if host in (sender, receiver) and side != ("down" if sender == host else "up"):
                if not rest or {sender, receiver} - {host} <= set(rest[1:]):
                    self.add(where, start, kind=kind, end=end, target=("pipe", pipe), port=port, doubt=doubt)

    def link_change(self, where: str, start: int, link: int, is_back: int, words: list[str], doubt: int) -> None:
        side = words.pop(0) if words[0] in ("up", "down") else ""
        ways = [0, 1] if not side else [(side == "down") ^ is_back]
        pipes = [2 * link + 1 + way for way in ways]
        if words[0] == "outage":
            words, port = without_port(words)
            kind = "cut" if words[2:] == ["lossy"] else "hold"
            for pipe in pipes:
                self.add(where, start, kind=kind, end=start + ns_of(words[1]), target=("pipe", pipe), port=port, doubt=doubt)
        elif words[0] in ("pipe", "queue", "ipfw") and {"config", "delete"} & set(words):
            self.add(where, start, self.own(" ".join(words), link, is_back), doubt=doubt)
        else:
            texts = self.ways(words)
            for way, pipe in zip(ways, pipes):
                self.add(where, start, self.line_of(pipe, texts[0 if side else way ^ is_back]), doubt=doubt)

    def draw(self, where: str) -> list[str]:
        """Returns the words of the next line that the seed drew. Unread: there is no other line."""
        if not self.drawn:
            raise Unread(f"{where}: the transcript has no line that the seed drew for it")
        return self.drawn.pop(0).split()

    def nemesis(self, where: str, words: list[str]) -> None:
        """Adds the lines that the seed drew for a nemesis, up to a line whose distance, length, kind or hosts don't fit."""
        keys = [key for key in ("every", "for", "from", "until") if key in words]
        times = {key: [ns_of(time) for time in words[words.index(key) + 1].split("..")] for key in keys}
        hosts = words[words.index("of") + 1 :] if "of" in words else list(self.hosts)
        last = -1
        until = times.get("until", [3600 * 10**9])[-1]
        while self.drawn:
            _, at, kind, *rest = self.drawn[0].split()
            moment = ns_of(at)
            span = times["every"] if last >= 0 else times.get("from", times["every"])
            is_next = span[0] <= moment - max(last, 0) <= span[-1] or moment == last
            allowed = {*hosts, *self.hosts} if kind == "cut" else {*hosts}
            is_fit = kind == NEMESES.get(words[0], "cut") and set(rest[:-1]) - {"from"} <= allowed
            if not (is_next and is_fit and moment <= until and times["for"][0] <= ns_of(rest[-1]) <= times["for"][-1]):
                break
            last = moment
            self.at(f"{where}, by the seed `{self.drawn[0]}`", at, " ".join(self.draw(where)[2:]))

    def spell(self) -> None:
        """Converts the new events' lines to dummynet's spelling, and adds a loss to each line of a pipe whose losses a model
        decides."""
        lines = [number for number in range(self.spelt, len(self.events)) if self.events[number].kind == "line"]
        self.spelt = len(self.events)
        for number, text in zip(lines, dummynet_lines([self.events[number].line for number in lines])):
            target, options = options_of(text)
            if " plr " in self.events[number].line:
                self.own_loss.add(number)
            pipe = target[1] if target[0] == "pipe" else int((options or {}).get("pipe", 0))
            if options is not None and pipe in self.decided and number not in self.own_loss and "plr" not in options:
                text += " plr 0.5"
            self.events[number] = self.events[number]._replace(target=target, line=text)
