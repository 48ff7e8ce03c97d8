"""A net's changes during a run, and a text chart of the traffic: a row for each way (one direction of a link), a character for each
step of time."""

from __future__ import annotations

import re
import shutil
from dataclasses import dataclass
from typing import Iterator, NamedTuple

from hinge.border.terminal import blocks
from hinge.lazy import Reals, np
from hinge.paths.matching import Matched, last_moment
from hinge.paths.report import WayFigures
from hinge.pictures.provenance import LOSS_BY_MODEL
from hinge.replays.remarks import KINDS, Lateness, late_remark
from hinge.replays.replay import OUT

SECOND = 1e9  # ns
AT_ONCE = 10**7  # ns within which equal changes of several ways share a line
NOTHING = " "  # the character of a step without traffic
CUT = "x"
FEWEST_STEPS = 20
MOST_STEPS = 100
CONFIGURES = re.compile(r"(?:ipfw )?pipe (\d+) config ?(.*)")
LOSES = re.compile(r"\bplr (\S+)")
ALL = re.compile(r"0*1(\.0*)?", re.ASCII)


class WayChange(NamedTuple):
    """The configuration of a pipe from a moment on."""

    moment: int  # in ns
    pipe: int
    words: str
    is_cut: bool  # whether the pipe loses all packets


@dataclass(frozen=True)
class Timeline:
    """The changes of a net's ways after their first configuration."""

    changes: list[WayChange]
    cuts: dict[int, list[tuple[int, int]]]  # for each pipe the times, in ns, between which the pipe lost all packets
    span: int  # the last moment in ns


class Looked(NamedTuple):
    """A net's folder, as read for the report."""

    matching: Matched
    timeline: Timeline
    obeyed: list[tuple[int, str]]  # the configuration lines that the links applied, with their moments in ns
    lateness: Lateness

    @property
    def words(self) -> dict[int, str]:
        """Returns each pipe's words in the first configuration."""
        return {change.pipe: with_model(self.matching, change) for change in reversed(changes_of(self.obeyed))}

    def remarks(self) -> Iterator[str]:
        """Yields a remark if the links were late."""
        if self.lateness:
            most = [max(float(way[kind][1].max(initial=0)) for way in self.lateness.values()) for kind in KINDS]
            yield from late_remark(*most)


def read_change(moment: int, text: str) -> WayChange | None:
    """Returns the change that a configuration line makes; None for a line that doesn't configure a pipe."""
    match = CONFIGURES.fullmatch(text)
    if not match:
        return None
    pipe, words = int(match[1]), match[2]
    rates = LOSES.findall(words)
    is_cut = bool(rates) and ALL.fullmatch(rates[-1]) is not None
    if is_cut:
        words = words.removesuffix(" plr 1")
    return WayChange(moment, pipe, words, is_cut)


def changes_of(lines: list[tuple[int, str]]) -> list[WayChange]:
    """Returns the changes that configuration lines make, each line with its moment."""
    changes = [read_change(moment, text) for moment, text in lines]
    return [change for change in changes if change is not None]


def with_model(matching: Matched, change: WayChange) -> str:
    """Returns a change's words. If a model such as gilbert decides about losses, the words name the model instead of a
    rate."""
    model = matching.passages.topology.models.get(change.pipe)
    return LOSS_BY_MODEL.sub(f"loss {model}", change.words) if model else change.words


def timeline_of(matching: Matched, lines: list[tuple[int, str]]) -> Timeline:
    """Returns the timeline of the configuration lines that the links applied, each with its moment."""
    changes = changes_of(lines)
    span = max([last_moment(matching.passages), *(change.moment for change in changes)])
    latest: dict[int, WayChange] = {}  # for each pipe; a cut stays the latest until the pipe opens
    new: list[WayChange] = []
    cuts: dict[int, list[tuple[int, int]]] = {}
    for change in changes:
        last = latest.get(change.pipe)
        if last and last.is_cut:
            cuts.setdefault(change.pipe, []).append((last.moment, change.moment))
        if last and (change.words, change.is_cut) != (last.words, last.is_cut):
            new.append(change)
        if not (last and last.is_cut and change.is_cut):
            latest[change.pipe] = change
    for change in latest.values():
        if change.is_cut:
            cuts.setdefault(change.pipe, []).append((change.moment, span))
    return Timeline(new, cuts, span)


def name_of_way(matching: Matched, pipe: int) -> str:
    """Returns a way's hosts, such as `client > server`, or the pipe's number if the hosts are unknown."""
    topology = matching.passages.topology
    if pipe not in topology.pipes:
        return f"pipe {pipe}"
    start, end = topology.pipes[pipe]
    return f"{topology.hosts[start]} > {topology.hosts[end]}"


def lines_of_changes(matching: Matched, timeline: Timeline) -> Iterator[str]:
    """Yields a line for each group of simultaneous changes to the same words."""
    groups: list[list[WayChange]] = []
    for change in timeline.changes:
        recent = [group for group in groups if change.moment - group[0].moment < AT_ONCE]
        like = [group for group in recent if words_of_change(group[0]) == words_of_change(change)]
        if like:
            like[-1].append(change)
        else:
            groups.append([change])
    yield from (line_of_group(matching, group) for group in groups)


def line_of_group(matching: Matched, group: list[WayChange]) -> str:
    names = ", ".join(dict.fromkeys(name_of_way(matching, change.pipe) for change in group))
    first = group[0]
    words = "cut" if first.is_cut else with_model(matching, first) or "open"
    return f"{first.moment / SECOND:10.3f} s  {names}: {words}"


def words_of_change(change: WayChange) -> str:
    return "cut" if change.is_cut else change.words


def carried_by_way(matching: Matched, pipe: int, step: int, count: int) -> Reals:
    """Returns a way's traffic in Mbit/s, for `count` steps that each last `step` ns."""
    passages = matching.passages
    out = (passages.pipe == pipe) & (passages.event == OUT)
    bits = np.bincount(passages.due[out] // step, weights=passages.length[out] * 8, minlength=count)[:count]
    rates: Reals = bits * 1000 / step
    return rates


def row_of(rates: Reals, cuts: list[tuple[int, int]], step: int, blocks: str) -> str:
    """Returns a way's row in the chart. `blocks` are the characters for growing rates."""
    most = float(rates.max(initial=0))
    levels = [min(int(rate / most * len(blocks)), len(blocks) - 1) if rate else None for rate in rates.tolist()]
    row = [NOTHING if level is None else blocks[level] for level in levels]
    for begin, end in cuts:
        first = round(begin / step)
        for place in range(first, min(max(round(end / step), first + 1), len(row))):
            row[place] = CUT
    return "".join(row)


def chart(matching: Matched, timeline: Timeline, busiest: list[WayFigures]) -> Iterator[str]:
    """Yields the lines of a text chart: a heading, then a row with the traffic of each way (one direction of a link). Each row is
    scaled to the way's own maximum; an x marks the steps in which a cut loses all packets."""
    if not busiest or not timeline.span:
        return
    width = max(len(way.name) for way in busiest)
    count = min(max(shutil.get_terminal_size((80, 24)).columns - width - 22, FEWEST_STEPS), MOST_STEPS)
    step = timeline.span // count + 1
    end = f"{timeline.span / SECOND:.3f} s"
    yield f"{'way'.ljust(width)}  0 s{end.rjust(count - 3)}  most, Mbit/s"
    for way in busiest:
        rates = carried_by_way(matching, way.pipe, step, count)
        row = row_of(rates, timeline.cuts.get(way.pipe, []), step, blocks())
        yield f"{way.name.ljust(width)}  {row}  {rates.max():.3f}"
