"""The report of `hinge look` on a net's folder: the ways (directions of links), paths hop by hop, and changes, as text, picture or
JSON."""

from __future__ import annotations

import os
import sys
from typing import Any, Iterator, Optional

from hinge.arguments import LookOptions
from hinge.border.files import is_beside, read_front, untrusted
from hinge.border.terminal import show
from hinge.command import ROWS, Fault, say
from hinge.outputs import CAPTURES, Format, format_of, refuse_inputs, write_json, written
from hinge.paths.folder import HISTORY, NET, session_of, told_drops
from hinge.paths.hops import Hops
from hinge.paths.matching import Matched, match
from hinge.paths.net_graph import as_link
from hinge.paths.net_picture import NetPicture
from hinge.paths.passages import read_transcript
from hinge.paths.report import Path, hosts_of, of_faults, of_paths, of_ways, paths, summary, ways
from hinge.paths.timeline import Looked, Timeline, chart, lines_of_changes, name_of_way, timeline_of
from hinge.pictures.chart import save
from hinge.pictures.html_page import HtmlPage, save_page
from hinge.pictures.provenance import provenance
from hinge.plans.judged import Judge
from hinge.plans.sessions import judged
from hinge.replays.remarks import seed_in
from hinge.run.summary import FORMAT

NS_PER_MS, NS_PER_S = 1_000_000, 1_000_000_000
UNLAWFUL = 1  # the exit status for unlawful paths, or links unlike the net's file
TOP = 40  # ways and paths that the report lists
HEAD = 1 << 20  # bytes at the beginning of a history, which contain the seed


def refuse_others(options: LookOptions, folder: str) -> None:
    """Refuses options that apply only to a single link's history. Fault: the command line has such an option."""
    of_links = {"--by": options.by != "tuple", "--csv": options.csv, "--config": options.config, "--capture": options.capture}
    captures = {f"-o FILE{capture.value}": options.files(capture) for capture in CAPTURES}
    for name, value in (of_links | captures).items():
        if value:
            history = os.path.join(folder, HISTORY)
            raise Fault(f"{folder}: {name} is of one history, as {history}, and not of a net's folder", ROWS)


def text_of(matching: Matched, timeline: Timeline, top: int, files: list[str]) -> Iterator[str]:
    """Yields the report's lines; the last one says whether the paths are lawful. The chart and the paths are limited to the `top`
    ones with most packets."""
    busiest = sorted(ways(matching), key=lambda way: -way.packets)[:top]
    view = sorted(busiest, key=lambda way: way.pipe)
    yield from of_ways(matching)
    for part in (of_paths(matching, top), chart(matching, timeline, view), lines_of_changes(matching, timeline)):
        lines = list(part)
        if lines:
            yield ""
            yield from lines
    yield ""
    yield from of_faults(matching, files)
    yield summary(matching)
    yield "lawful between links" if matching.is_lawful else "unlawful between links"


def look_record(matching: Matched, timeline: Timeline, history: str, seed: str | None) -> dict[str, Any]:
    """Returns the record for JSON; docs/LIVE.md describes its keys."""
    pipes = matching.passages.topology.pipes
    hosts = matching.passages.topology.hosts
    ends = {pipe: {"pipe": pipe, "from": hosts[start], "to": hosts[end]} for pipe, (start, end) in pipes.items()}
    return {
        "format": FORMAT,
        "history": history,
        "seed": seed,
        "span_ns": timeline.span,
        "lawful_between_links": matching.is_lawful,
        "ways": [
            {
                **ends[way.pipe],
                "packets": way.packets,
                "lost": way.lost,
                "full": way.full,
                "carried_mbit_s": way.mbit_s,
                "mean_ns": way.mean,
                "p99_ns": way.p99,
            }
            for way in ways(matching)
        ],
        "paths": [path_record(matching, path) for path in paths(matching)],
        "changes": [
            {**ends.get(change.pipe, {"pipe": change.pipe}), "moment_ns": change.moment, "line": change.words, "cut": change.is_cut}
            for change in timeline.changes
        ],
        "cuts": [
            {**ends.get(pipe, {"pipe": pipe}), "begin_ns": begin, "end_ns": end}
            for pipe, times in sorted(timeline.cuts.items())
            for begin, end in times
        ],
    }


def path_record(matching: Matched, path: Path) -> dict[str, Any]:
    return {
        "hosts": hosts_of(matching, path),
        "pipes": list(path.pipes),
        "packets": len(path.sent),
        "links_ns": [int(time) for time in path.links.mean(axis=0)],
        "hosts_ns": [int(time) for time in path.hosts.mean(axis=0)],
        "most_in_hosts_ns": path.most_in_hosts,
    }


def title_of(view: Looked) -> str:
    """Returns a picture's title: the words of each link, like in a net's file. A slash separates the words of the two ways if they
    differ."""
    topology = view.matching.passages.topology
    links = dict[tuple[str, str], list[str]]()
    for pipe, words in sorted(view.words.items()):
        ends = [topology.hosts[host] for host in topology.pipes.get(pipe, ())]
        if len(ends) == 2:
            links.setdefault((min(ends), max(ends)), []).append(as_link(words) or "no limit")
    return "; ".join(f"{first} - {second} {' / '.join(dict.fromkeys(words))}" for (first, second), words in links.items())


def draw_net(view: Looked, options: LookOptions, files: list[str], seed: Optional[str], folder: str) -> None:
    """Writes the pictures and pages that the options `-o` name."""
    lines = [f"{name_of_way(view.matching, pipe)}: {as_link(words)}" for pipe, words in sorted(view.words.items())]
    title = options.title or title_of(view)
    for name in options.o:
        drawing = NetPicture(view, options.step).drawing(provenance(lines, files, seed))
        with written(name) as place:
            if format_of(name) is Format.PAGE:
                hops = Hops(folder)
                numbers = view.matching.passages.number
                save_page(HtmlPage(drawing, lambda row: hops.paragraph(int(numbers[row]))), str(place), title)
            else:
                save([drawing], str(place), format_of(name).kind, title)


def judge_of(path: str) -> Optional[Judge]:
    """Returns a judge, which compares the run with the net's file; None if the folder contains no readable copy of that file."""
    try:
        return judged(path, otherwise=NS_PER_S) if is_beside(os.path.join(path, NET)) else None
    except Fault as fault:
        say(str(fault))
        return None


def look_at_net(options: LookOptions, path: str, summary_name: str | None = None) -> None:
    """Prints the report on a net's folder, or on a net's history with the name of a summary, and writes the pictures and the JSON
    of the options. Exits with status 1 if the paths are unlawful, or the links differ from the net's file."""
    refuse_others(options, path)
    files, summary_file = session_of(path, summary_name)
    refuse_inputs(options.outputs, [*files, summary_file])
    with untrusted(files[0]):
        passages, orders, lateness, _ = read_transcript(files)
        matching = match(passages, options.end * NS_PER_MS, told_drops(summary_file, passages.topology))
        timeline = timeline_of(matching, orders)
        view = Looked(matching, timeline, orders, lateness)
        seed = seed_in(read_front(files[0], HEAD))
        *lines, verdict = text_of(matching, timeline, options.top or TOP, files)
    judge = judge_of(path)
    if judge:
        lines += judge.lines_told()
    for text in [*lines, verdict]:
        show(text)
    for remark in view.remarks():
        say(remark)
    if options.json:
        record = look_record(matching, timeline, files[0], seed)
        record["not_as_said"] = [fault.text for fault in judge.faults] if judge else None
        write_json(options.json, record)
    draw_net(view, options, files, seed, path)
    if not matching.is_lawful or judge and judge.faults:
        sys.stdout.flush()
        sys.exit(UNLAWFUL)
