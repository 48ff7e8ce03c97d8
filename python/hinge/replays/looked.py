"""The report of `hinge look` on a history or on reports: tables, paragraphs and files."""

from __future__ import annotations

import sys
from typing import Optional

from hinge.arguments import TABLE_FLOWS, LookOptions
from hinge.border.terminal import show, standard_output
from hinge.command import say
from hinge.outputs import CAPTURES, PICTURES, Format, refuse_inputs, write_json
from hinge.pictures.figures import Figures, table_of, write_csv
from hinge.pictures.text_table import write_bounds, write_text
from hinge.replays.history import read_sources
from hinge.replays.remarks import KINDS
from hinge.replays.source import Source, seen
from hinge.run.summary import FORMAT

DIFFERENT = 1  # the exit status


def write_table_json(source: Source, table: list[Figures], path: str) -> None:
    """Writes the figures of a history's flows and pipes as JSON, with the seed and the host's lateness. docs/CAPTURE.md
    describes the keys."""
    most = None
    if source.lateness:
        most = {kind: source.most_late(kind) for kind in KINDS}
    flows: list[dict[str, object]] = [{"flow": row.name, **row.value} for row in table]
    pipes = None if source.bounds is None else [pipe.figures() for pipe in source.bounds]
    head = {"format": FORMAT, "history": source.replay.path, "seed": source.seed, "lateness_ms": most}
    write_json(path, {**head, "pipes": pipes, "flows": flows})


def tell_difference(one: str, other: str, path: Optional[str]) -> None:
    """Prints the first difference of two histories, and writes JSON if there is a path. Ends the process with status 1 if the
    histories differ."""
    from hinge.replays.parting import parting

    refuse_inputs((path,), (one, other))
    part = parting(one, other)
    if path:
        record: dict[str, object] = {"format": FORMAT, "histories": [one, other], "equal": part is None}
        if part:
            record |= part.known()
        write_json(path, record)
    if part is None:
        show(f"{one} and {other} have the same calls and replies")
    else:
        show(f"{one} and {other} part in call {part.number}{part.at()}: {part.reason()}")
        show(part.text())
        sys.exit(DIFFERENT)


def tell_of(source: Source, options: LookOptions, head: str) -> None:
    """Writes a source's captures, then prints its table below `head`, and writes the table as JSON. The captures come first, since
    the table's reader may close the pipe."""
    table = table_of(source.replay, source.parts, options.by, options.top or TABLE_FLOWS)
    for name in options.files(*CAPTURES):
        from hinge.captures.through import write_through

        say(write_through(source, options.capture or "", options.index or "", name))
    show(head, end="")
    if options.csv:
        write_csv(table, standard_output())
    else:
        write_text(table, standard_output())
        write_bounds(source.bounds or [], standard_output())
    if options.json:
        write_table_json(source, table, options.json)


def judge_run(path: str) -> None:
    """Prints how the links in a run's history agree with its options' words; ends the process with status 1 if they don't."""
    from hinge.plans.sessions import judged_run

    judge = judged_run(path)
    if judge is None:
        return
    for text in judge.lines_told():
        say(text)
    if judge.faults:
        sys.exit(DIFFERENT)


def look(options: LookOptions, most_reports: int) -> None:
    """Prints the tables and writes the files. Modules for nets and pictures are loaded only when needed."""
    inputs = [options.capture, options.index] if options.capture else []
    sources = [*map(seen, read_sources(options.source, options.config, options.outputs, most_reports, inputs))]
    for name in options.files(*PICTURES, Format.PAGE):
        from hinge.pictures.drawn import draw_sources

        draw_sources(sources, name, options)
    for number, source in enumerate(sources):
        head = ""
        if len(sources) > 1:
            head = f"{source.replay.path}\n"
        if number > 0:
            head = "\n" + head
        tell_of(source, options, head)
    for remark in sources[0].remarks():
        say(remark)
    if sources[0].words:  # as each run since version 2 has
        judge_run(options.source[0])
