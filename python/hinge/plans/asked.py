"""What the options of `hinge run` and `hinge udp` mean for the links. Remarks in the transcript repeat the options as typed, and
the lines of the options' files. A run counts as a net with a client and a server. This module is a second reading of docs/LINKS.md,
and meaning.py a second reading of docs/NET.md."""

from __future__ import annotations

import re
from typing import Iterator, NamedTuple

from hinge.plans.meaning import FOR_EVER, SECOND, Meaning, ns_of
from hinge.plans.spelling import Unread
from hingetulip_words.presets import preset

RUN_HOSTS = ("client", "server")
CHOSEN = re.compile(r"(?P<way>client > server|server > client) packet (?P<packet>\d+) (?P<kind>lost|twice|late)(?: (?P<ms>\d+)ms)?")
LINK_ACT = re.compile(r"at (?P<at>\S+) (?P<kind>cut|hold) (?P<way>client > server|server > client) (?P<length>\S+)")
SIDES = {"client > server": "up", "server > client": "down"}


class Asked(NamedTuple):
    """An option's value, or a line of the file that an option names."""

    option: str
    line: int  # the line's number in the file; 0 for a value
    text: str

    @property
    def where(self) -> str:
        """Returns the option and the text for messages."""
        if self.line:
            return f"{self.option} line {self.line}: `{self.text}`"
        return f"{self.option} `{self.text}`"


def asked_of(remark: str) -> Asked:
    """Reads the part of a remark after `#,asked,`, and returns the option."""
    option, line, text = remark.split(",", 2)
    return Asked(option, int(line), text)


class OfRun(Meaning):
    """The meaning of a run's command line."""

    said = "the command line"

    def __init__(self, asked: list[Asked]) -> None:
        super().__init__("the command line", None)
        self.asked = asked
        self.hosts = dict.fromkeys(RUN_HOSTS, "host")
        self.links = [RUN_HOSTS]

    def of(self, *options: str) -> Iterator[Asked]:
        """Yields the values and file lines of these options."""
        for option in options:
            yield from (asked for asked in self.asked if asked.option == option)

    def read(self) -> Meaning:
        """Reads all options; returns the meaning. Unread: this module can't read an option's line."""
        self.begin()
        if any(self.of("--map")):
            self.undrawn |= {1, 2}
        for loss in self.of("--loss"):
            self.model(loss.text, 0, 0)
        self.read_faults([*self.of("--faults")])
        for change in self.of("--timeline"):
            time, *words = change.text.split()
            self.link_change(change.where, ns_of(time), 0, 0, words, 0)
        self.spell()
        for pipe, option in enumerate(("--up-trace", "--down-trace"), 1):
            self.trace(pipe, option)
        self.spell()
        return self

    def read_faults(self, faults: list[Asked]) -> None:
        """Reads the lines of --faults, which decide about all losses of a way unless a model does and no packet is chosen."""
        if faults:
            self.chosen = {1: {}, 2: {}}
            self.decided |= {1, 2}
        for fault in faults:
            self.fault(fault)
        for pipe, chosen in list(self.chosen.items()):
            if not chosen and pipe in self.models:
                del self.chosen[pipe]

    def own(self, line: str, link: int, is_back: int) -> str:
        """Returns a configuration line with its numbers, since a run has a single link."""
        return line.removeprefix("ipfw ")

    def begin(self) -> None:
        """Adds the lines at the run's beginning. The line for a direction's words precedes the configuration lines, or follows if
        they configure the same pipe."""
        config_lines = [*self.of("--config", "--line")]
        configured = {" ".join(self.own(config.text, 0, 0).split()[:2]) for config in config_lines}
        presets = [preset(asked.text) for asked in self.of("--preset")]
        later_lines: list[tuple[str, str]] = []
        for pipe, side in enumerate(("up", "down"), 1):
            is_configured = f"pipe {pipe}" in configured
            text, where = "", f"pipe {pipe}"
            if any(self.of(f"--{side}")):
                words = next(self.of(f"--{side}"))
                text, where = words.text, words.where
            elif presets and not is_configured:
                text = getattr(presets[0], side)
            self.words[pipe] = text.split()
            line = self.line_of(pipe, text.split())
            if not is_configured:
                self.add(where, 0, line)
            elif line != f"pipe {pipe} config":
                later_lines.append((where, line))
        for config in config_lines:
            self.add(config.where, 0, self.own(config.text, 0, 0))
        for where, line in later_lines:
            self.add(where, 0, line)

    def fault(self, one: Asked) -> None:
        """Reads a line of --faults: a chosen packet, or a cut or hold of a way. Unread: the line is another fault."""
        chosen = CHOSEN.fullmatch(one.text)
        act = LINK_ACT.fullmatch(one.text)
        if chosen:
            of_way = self.chosen[2 if chosen["way"] == "server > client" else 1]
            of_way.setdefault(chosen["kind"], {})[int(chosen["packet"])] = int(chosen["ms"] or 0)
        elif act:
            lossy = ["lossy"] if act["kind"] == "cut" else []
            self.link_change(one.where, ns_of(act["at"]), 0, 0, [SIDES[act["way"]], "outage", act["length"], *lossy], 0)
        else:
            raise Unread(f"{one.where}: no fault of a run")

    def trace(self, pipe: int, option: str) -> None:
        """Reads a trace. A trace with rates changes the bandwidth in the pipe's first line; a trace of mahimahi only contains
        moments, and releases the pipe's packets."""
        all_rows = [line.text.split(",") for line in self.of(option)]
        rows = [row for row in all_rows if re.fullmatch(r"[\d.eE+-]+", row[0].strip())]
        if not rows:
            return
        if len(rows[0]) == 1:
            self.traced.add(pipe)
            return
        first_key = (("pipe", pipe), "line", 0)
        first = [event for event in self.events if (event.target, event.kind, event.moment) == first_key][-1].line
        bare = re.sub(r" bw \S+", "", first)
        rates = [(round(float(at) * SECOND), round(float(rate))) for at, rate in rows]
        for (at, rate), end in zip(rates, [*(at for at, _ in rates[1:]), FOR_EVER]):
            where = f"{option} `{at / SECOND:g},{rate}`"
            if rate:
                self.add(where, at, bare.replace(" config", f" config bw {rate}bit/s", 1))
            elif end > at:
                self.add(where, at, kind="hold", end=end, target=("pipe", pipe))

    def at(self, where: str, word: str, text: str, doubt: int = 0) -> None:
        """Adds a request from the control socket."""
        self.link_change(where, self.moment(word), 0, 0, text.split(), doubt)
