"""Chosen faults: the packets that a link loses, doubles or delays, and acts on hosts and links at given moments.

    client > server packet 3 lost
    server > client packet 1 twice
    client > server packet 4 late 80ms
    at 1.5s cut server 2s
    at 2s cut client > server 300ms
    at 4s hold server 1s
    at 5s crash server 1s
    at 6s skew client -2s

A file contains a fault on each line, for `pytest --link-faults FILE`, `hinge run --faults FILE`, and a net's line `faults FILE`."""

from __future__ import annotations

import re
from dataclasses import dataclass
from pathlib import Path
from typing import Iterable, List, Tuple, Union

from hinge.border.files import lines_in
from hinge.events.forms import line_meant

IS_LOST, IS_TWICE, IS_LATE = "lost", "twice", "late"
CUT, HOLD, CRASH, SKEW = ACT_KINDS = "cut", "hold", "crash", "skew"
LINE = re.compile(r"(?P<link>\S.* > .*\S) packet (?P<packet>[1-9]\d{0,17}) (?:(?P<kind>lost|twice)|late (?P<ms>[1-9]\d{0,6})ms)")
TIME = r"\d{1,9}(?:\.\d{1,9})?(?:ms|s)"
ACT = re.compile(rf"at (?P<moment>{TIME}) (?P<kind>{'|'.join(ACT_KINDS)}) (?P<of>\S(?:.*\S)?) (?P<sign>[+-]?)(?P<length>{TIME})")
LATEST = 3_600_000  # the most ms that a pipe can delay a packet
FAULT_ADVICE = (  # patterns of lines that people write, and their replacements
    (r"(?:lose|drop) (.*)", r"\1 lost"),
    (r"(?!packet)(\w+)(?: ?[-=]?> ?| to | )(?!packet)([A-Za-z]\w*) (?:packet )?(\d.*)", r"\1 > \2 packet \3"),
    (r"(?:up )?(packet \d.*)", r"client > server \1"),
    (r"down (packet \d.*)", r"server > client \1"),
    (r"(.* packet \d+) (?:drop|dropped|lose|loss)", r"\1 lost"),
    (r"(.* packet \d+) (?:duplicated?|double)", r"\1 twice"),
    (r"(.* packet \d+) (?:late|delay(?:ed)?)(?: by)? (\d+)(?:ms)?", r"\1 late \2ms"),
)
NO_FAULT = "not a fault; write `client > server packet 3 lost`, `twice` or `late 80ms`, or `at 1.5s cut server 2s`, `hold`, `crash` or `skew`"


@dataclass(frozen=True, order=True)
class Fault:
    """Describes a packet's fault on a link: a loss, a copy, or a delay by some ms."""

    link: str  # the link's hosts, as `client > server`
    packet: int  # the packet's place among the packets that come to the link, from 1
    kind: str  # IS_LOST, IS_TWICE or IS_LATE
    ms: int = 0  # the delay if the packet is late

    def __str__(self) -> str:
        delay = f" {self.ms}ms" if self.kind == IS_LATE else ""
        return f"{self.link} packet {self.packet} {self.kind}{delay}"


@dataclass(frozen=True, order=True)
class Act:
    """Describes an act on a host or link: a cut, a hold or a crash for some seconds, or a new offset for a host's clock."""

    moment: float  # s since the beginning
    kind: str  # one of ACT_KINDS
    of: str  # a host, or for a cut or a hold a link as `client > server`
    seconds: float  # the length, or the clock's offset

    def __str__(self) -> str:
        sign = "+" if self.kind == SKEW and self.seconds >= 0 else ""
        return f"at {spelled_seconds(self.moment)} {self.kind} {self.of} {sign}{spelled_seconds(self.seconds)}"


AnyFault = Union[Fault, Act]


def spelled_seconds(seconds: float) -> str:
    """Returns a time as a fault's line spells it, such as `1.5s`."""
    return f"{seconds:.9f}".rstrip("0").rstrip(".") + "s"


def seconds_of(text: str) -> float:
    """Returns the seconds of a time such as `1.5s` or `80ms`."""
    return float(text[:-2]) / 1000 if text.endswith("ms") else float(text[:-1])


def read_act(line: str) -> Act:
    """Returns the act that a line describes. ValueError: the line is malformed."""
    match = ACT.fullmatch(line)
    if match is None:
        raise ValueError(f"{line!r}: {NO_FAULT}")
    has_sign = bool(match["sign"])
    is_skew = match["kind"] == SKEW
    is_of_host = match["kind"] in (CRASH, SKEW)
    if has_sign != is_skew or (is_of_host and " > " in match["of"]):
        raise ValueError(f"{line!r}: {NO_FAULT}")
    seconds = seconds_of(match["length"])
    if match["sign"] == "-":
        seconds = -seconds
    return Act(seconds_of(match["moment"]), match["kind"], match["of"], seconds)


def read_fault(line: str) -> AnyFault:
    """Returns the fault or act that a line describes. ValueError: the line is malformed."""
    match = LINE.fullmatch(line)
    if match is None and line.startswith("at "):
        return read_act(line)
    if match is None or int(match["ms"] or 0) > LATEST:
        right = line_meant(line, FAULT_ADVICE)
        advice = f"not a fault; write {right}" if LINE.fullmatch(right) else NO_FAULT
        raise ValueError(f"{line!r}: {advice}")
    return Fault(match["link"], int(match["packet"]), match["kind"] or IS_LATE, int(match["ms"] or 0))


class Faults(Tuple[AnyFault, ...]):
    """Holds faults of packets and acts on hosts and links, in order. Each argument is a Fault, an Act, or a line of text such as
    `client > server packet 3 lost`."""

    def __new__(cls, *lines: Union[str, AnyFault]) -> Faults:
        faults = (read_fault(line) if isinstance(line, str) else line for line in lines)
        return super().__new__(cls, faults)  # type: ignore[arg-type]

    @property
    def packets(self) -> List[Fault]:
        """Returns the faults of packets."""
        return [fault for fault in self if isinstance(fault, Fault)]

    @property
    def acts(self) -> List[Act]:
        """Returns the acts on hosts and links."""
        return [act for act in self if isinstance(act, Act)]

    def __repr__(self) -> str:
        return f"Faults({', '.join(repr(str(fault)) for fault in self)})"

    def __str__(self) -> str:
        return "".join(f"{fault}\n" for fault in self)


class Drawn(Faults):
    """Holds faults that hypothesis draws, or that a search tries while it shrinks a failure. Their packets may never arrive."""


def faults_in(path: Union[str, Path], lines: Iterable[str]) -> Faults:
    """Returns the faults in a file's lines; comments begin with `#`. ValueError: a line is malformed."""
    faults = dict[object, AnyFault]()
    for number, line in enumerate(lines, 1):
        text = line.partition("#")[0].strip()
        if not text:
            continue
        try:
            fault = read_fault(text)
            subject = (fault.link, fault.packet, fault.kind) if isinstance(fault, Fault) else fault
            if subject in faults:
                raise ValueError(f"{text!r}: a line before says this; leave one of them out")
            faults[subject] = fault
        except ValueError as error:
            raise ValueError(f"{path} line {number}: {error}") from None
    return Faults(*faults.values())


def read_faults(path: Union[str, Path]) -> Faults:
    """Returns the faults in a file. ValueError: a line is malformed."""
    return faults_in(path, lines_in(path))
