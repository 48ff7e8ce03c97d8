"""The removable parts in a run: faults, pauses and the links' losses."""

from __future__ import annotations

import re
from dataclasses import dataclass, replace
from typing import Any, Callable, Iterable, Iterator, NamedTuple, Optional, Sequence

from hinge.events.kinds import TimedEvent, fault_ends
from hinge.net.description import read_description
from hinge.net.net_plan import NetPlan
from hinge.net.statements import statements
from hinge.simulated.pauses import Paused

LONGEST_PACKET = 1500  # bytes
LOSS = re.compile(r"\s(?:loss|plr) \S+")
LINKS = re.compile(r"(link|switch|--(link|up|down|line))[ =]")
LOSSES = re.compile(r"(--)?loss[ =]")


class Part(NamedTuple):
    """Describes a part of a run; a search leaves out the whole part."""

    kind: str  # one of KINDS
    what: "tuple[str, ...]"  # lines `at`, a word of --pauses, or a line with losses, such as a line that loses one packet


SINGULARS = {"faults": "fault", "pauses": "pause", "losses": "loss"}
KINDS = tuple(SINGULARS)  # a search leaves out parts in the order of their kinds


@dataclass(frozen=True)
class Case:
    """Describes a run: a net or the options of `hinge run`, with a seed and removable parts. A line with losses is left out as a
    part by removing only its words for losses."""

    seed: int
    lines: "tuple[str, ...]"  # the lines of a net's file without faults, or the options of `hinge run`, each with its value
    parts: "tuple[Part, ...]"

    def of_kind(self, kind: str) -> "tuple[Part, ...]":
        return tuple(part for part in self.parts if part.kind == kind)

    def lines_left(self) -> "list[str]":
        """Returns the case's lines after a search has left out some losses: a line loses its words for losses, and disappears if
        nothing else remains. Lines for single lost packets are joined at the end."""
        lossy = [part.what[0] for part in self.of_kind("losses")]
        lines = [line if line in lossy else lossless(line) for line in self.lines]
        single_losses = [line for line in lossy if line not in self.lines]
        return [line for line in [*lines, *joined_losses(single_losses)] if line]

    def faults(self) -> "list[str]":
        """Returns the net's lines that disturb the net: single lost packets, and the faults."""
        losses = [line for line in self.lines_left() if line.startswith("loss ")]
        return [*losses, *(line for part in self.of_kind("faults") for line in part.what)]

    def net(self) -> str:
        """Returns the text for the net's file."""
        lines = [line for line in self.lines_left() if not line.startswith("loss ")]
        return "".join(f"{line}\n" for line in [*lines, *self.faults()])

    def options(self) -> "list[str]":
        """Returns the options for `hinge run`. If a link's only words were losses, leaves out the option."""
        return [word for line in self.lines_left() for word in line.split(" ", 1) if not line.endswith(" ")]

    def pauses(self) -> Optional[str]:
        """Returns the value for the option --pauses: the case's pauses, joined by commas; None without pauses."""
        return ",".join(word for part in self.of_kind("pauses") for word in part.what) or None

    def told(self) -> str:
        """Returns a text that counts the parts by their kinds."""
        counts = {kind: len(self.of_kind(kind)) for kind in KINDS}
        return ", ".join(f"{count} {SINGULARS[kind] if count == 1 else kind}" for kind, count in counts.items())


def lossless(line: str) -> str:
    """Returns a line without its losses; an empty text if no words remain."""
    if LOSSES.match(line):
        return ""
    return LOSS.sub("", line) if LINKS.match(line) else line


def joined_losses(losses: Iterable[str]) -> "list[str]":
    """Joins the lines that each lose a packet of a way (one direction of a link) into a line for each way."""
    ways = dict[str, list[str]]()
    for line in losses:
        way, _, packet = line.rpartition(":")
        ways.setdefault(way, []).append(packet)
    return [f"{way}:{','.join(packets)}" for way, packets in ways.items()]


def faults_of(events: "list[TimedEvent]") -> Iterator[Part]:
    """Groups the `at` lines of each fault and of the events that end the fault; yields each group as a removable part. The lines
    stay together: a fault without its end would last for ever, and an end without its fault would end nothing."""
    groups = [{place} for place in range(len(events))]  # for each event, the places of all events in its group
    for place, end in fault_ends(events):
        groups[place] |= groups[end]
        for member in groups[place]:
            groups[member] = groups[place]
    for place, group in enumerate(groups):
        if place == min(group):
            yield Part("faults", tuple(str(events[member]) for member in sorted(group)))


def options_with_values(words: "list[str]") -> "tuple[str, ...]":
    """Splits the words into options for `hinge run`, each with its value."""
    lines = list[str]()
    for word in words:
        if word.startswith("--"):
            lines.append(word)
        else:
            lines[-1] += f" {word}"
    return tuple(lines)


def lines_without_faults(path: str) -> "tuple[str, ...]":
    """Returns a net's lines, without faults."""
    texts = [statement.text for statement in statements(path)]
    return tuple(text for text in texts if text.partition(" ")[0] not in ("at", "nemesis"))


def case_of(what: "list[str]", seed: int, record: "dict[str, Any]", lost: "Optional[Sequence[str]]" = None) -> Case:
    """Returns a run's case from the run's summary `record`; `what` is `net` with a file, or `run` with options. The losses are the
    lines `lost` for single packets or, without `lost`, the lines of `what` that contain words for losses."""
    if what[0] == "net":
        lines = lines_without_faults(what[1])
        faults = list(faults_of(NetPlan(read_description(what[1]), LONGEST_PACKET, seed).events))
    else:
        lines = options_with_values(what[1:])
        faults = []
    lines_with_losses = [line for line in lines if lossless(line) != line] if lost is None else lost
    losses = [Part("losses", (line,)) for line in lines_with_losses]
    words = [Paused(**pause).given().word() for pause in record.get("pauses", {}).get("first", ())]
    pauses = [Part("pauses", (word,)) for word in words]
    return Case(seed, lines, (*faults, *pauses, *losses))


Fails = Callable[[Case], bool]


def without(parts: "tuple[Part, ...]", left_out: "tuple[Part, ...]") -> "tuple[Part, ...]":
    return tuple(part for part in parts if part not in left_out)


def least(case: Case, fails: Fails) -> Case:
    """Shrinks a failing case until no single part can be left out without a pass. Leaves out faults, then pauses, then losses, many
    at a time before single parts."""
    last_case = None
    while last_case != case:
        last_case = case
        for kind in KINDS:
            case = least_of_kind(case, kind, fails)
    return case


def least_of_kind(case: Case, kind: str, fails: Fails) -> Case:
    size = len(case.of_kind(kind))
    while size:
        case = left_out_by(case, kind, size, fails)
        size = min(size // 2, len(case.of_kind(kind)))
    return case


def left_out_by(case: Case, kind: str, size: int, fails: Fails) -> Case:
    """Leaves out each group of `size` neighbouring parts without which the case still fails. Begins with the last group, since
    parts after the failure have no effect."""
    parts = case.of_kind(kind)
    for first in range(len(parts) - size, -size, -size):
        smaller = replace(case, parts=without(case.parts, parts[max(first, 0) : first + size]))
        if fails(smaller):
            case = smaller
    return case
