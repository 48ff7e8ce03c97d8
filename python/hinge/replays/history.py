"""A history or a live session's transcript as packets, with their results and the configuration over time."""

from __future__ import annotations

import os
from typing import Optional, Sequence

from hinge.border.files import read_front, untrusted
from hinge.captures.addresses import addresses_file
from hinge.checks.lines import judged_lines
from hinge.command import ROWS, USAGE, Fault, say
from hinge.outputs import refuse_inputs
from hinge.lazy import few as np
from hinge.replays.columns import HISTORY_COLUMNS, REPORT_COLUMNS, LineChange, read_told
from hinge.replays.links import BEFORE_ALL, Configuration
from hinge.replays.record_lines import is_history_file
from hinge.replays.remarks import addresses_in, flips_in, lateness_in, seed_in, words_in
from hinge.replays.replay import Replay, packets_of
from hinge.replays.source import Source, of_reports

FRONT = 1 << 16  # bytes at the beginning of a history that contain the words of a run


def spelled_by_program(path: str, changes: list[LineChange]) -> list[LineChange]:
    """Returns the commands in the program's spelling. Fault: a text is no command."""
    if not changes:
        return []
    verdicts = list(judged_lines([text.encode() for _, _, text in changes]))
    bad = next((verdict for verdict in verdicts if verdict.name == "bad"), None)
    if bad is not None or len(verdicts) != len(changes):
        text = changes[bad.line - 1][2] if bad is not None else ""
        raise Fault(f"{path}: {text!r} isn't a command", ROWS)
    return [(place, moment, verdict.text) for (place, moment, _), verdict in zip(changes, verdicts)]


def read_history_source(path: str) -> Source:
    """Reads a history's submits; returns them as rows in call order, each with its effective moment. Fault: the file is no
    history."""
    with untrusted(path):
        history = read_told(path, "history", HISTORY_COLUMNS)
        columns = history.rows.columns
        packets = packets_of(path, history.rows, columns["at"], addresses_in(history.remarks))
        changes = spelled_by_program(path, history.changes)
        if "submitted" not in columns:  # as in a report, all commands come before all calls
            changes = [(BEFORE_ALL, moment, text) for _, moment, text in changes]
            columns |= {"submitted": np.zeros(len(packets), np.int64), "handed": columns["packet"]}
        cut = None if history.is_whole else history.last_line
        own = {name: columns[name] for name in (*REPORT_COLUMNS, "submitted", "handed")}
        replay = Replay(path, packets, **own, flips=flips_in(history.remarks))
        return Source(
            replay,
            (path,),
            Configuration(path, changes),
            is_steady=history.is_steady,
            is_history=True,
            cut=cut,
            seed=seed_in(history.remarks),
            lateness=lateness_in(history.remarks),
            words=words_in(read_front(path, FRONT)) if os.path.isfile(path) else {},
        )


def read_sources(
    files: list[str],
    config: Optional[str],
    outputs: Sequence[Optional[str]] = (),
    most: int = 1,
    inputs: Sequence[Optional[str]] = (),
) -> list[Source]:
    """Reads the sources of a command line: a history, or a packet file with at most `most` reports. Fault: the files are of other
    kinds or too many, or an output is also an input."""
    refuse_inputs(outputs, (*files, addresses_file(files[0]), config, *inputs))
    first, *reports = files
    if len(reports) > most:
        count = "one report" if most == 1 else f"{most} reports"
        raise Fault(f"a packet file has {count} here, and these are {len(reports)}", USAGE)
    if reports and is_history_file(first):
        raise Fault(f"{first} is a history, and comes alone; two are compared by hinge look --diff", USAGE)
    if reports:
        with untrusted(first):
            return of_reports(first, reports, config)
    if config:
        raise Fault(f"--config is of a packet file with its report, and {first} is alone: a history has its configuration", USAGE)
    source = read_history_source(first)
    if source.cut is not None:
        why = "the session was killed, or still goes on; it is looked at up to there"
        say(f"{first} has no end behind line {source.cut}: {why}")
    return [source]
