"""Judges a net's transcript by the net's file, and a run's transcript by the options of its command line."""

from __future__ import annotations

import io
import os
from typing import Callable, Iterator, Optional

from hinge.border.files import MOST_TABLE, is_beside, lines_of, opened, read_front, read_object, untrusted
from hinge.command import ROWS, Fault
from hinge.paths.folder import NET, NO_SUMMARY, session_of
from hinge.plans.asked import OfRun, asked_of
from hinge.plans.judged import Judge
from hinge.plans.meaning import Meaning
from hinge.plans.of_hosts import MS
from hinge.plans.spelling import Unread
from hinge.run.transcripts import files_of

FRONT = 1 << 16  # bytes at a run's beginning, in which remarks repeat the options
FIRST = ("#,main,", "#,drawn,", "#,asked,", "#,format,")  # the remarks that a meaning needs
Remarks = dict[str, list[str]]


def transcript(path: str) -> Iterator[str]:
    """Yields the lines of a transcript. Fault: the transcript or a line is too long."""
    with untrusted(path), io.TextIOWrapper(opened(path, MOST_TABLE), "utf-8", "replace") as file:
        yield from lines_of(file)


def judged(session: str, path: Optional[str] = None, limit: Optional[int] = None, otherwise: int = 50 * MS) -> Judge:
    """Judges a net's folder or history by the net's file at `path`, or by the file in the folder. Acts on hosts may be late by
    `limit` ns; None takes the limit from the run's summary, or `otherwise`. Returns the judge with its faults. Fault: there is no
    file, or the net can't be judged."""
    files, summary = session_of(session)
    file = path or os.path.join(os.path.dirname(files[0]), NET)
    if not (os.path.exists(file) if path else is_beside(file)):
        raise Fault(f"{session}: name the net's file before it: hinge check FILE.net {session}", ROWS)
    record = read_object(summary, NO_SUMMARY) if summary else {}
    if limit is None:
        limit = otherwise if record.get("late_limit_ms") is None else round(float(record["late_limit_ms"]) * MS)
    return judged_by(file, files, lambda remarks: meaning_of_net(file, record.get("main"), remarks), limit)


def judged_run(path: str) -> Optional[Judge]:
    """Judges a run's transcript by the options of the command line, which remarks repeat. Returns the judge with its faults; None
    if an older version wrote the transcript without these remarks. Fault: the transcript can't be judged."""
    if b"\n#,asked," not in read_front(path, FRONT):
        return None

    def meaning_of_run(remarks: Remarks) -> Meaning:
        return OfRun([asked_of(remark) for remark in remarks["asked"]]).read()

    return judged_by("the words of its command line", files_of(path), meaning_of_run, 0)


def meaning_of_net(path: str, main: Optional[int], remarks: Remarks) -> Meaning:
    """Returns the meaning of a net's file. `main` is the moment at which the main command began, if the summary reports it. Unread:
    neither the transcript nor the summary contains that moment."""
    if remarks["main"]:
        main = int(remarks["main"][0])
    meaning = Meaning(path, main, remarks["drawn"])
    if meaning.main is None and not remarks["format"] and any(words[0] == "main" for _, words in meaning.statements()):
        raise Unread("neither the transcript nor a summary says when the main command began")
    return meaning.read()


def judged_by(path: str, files: list[str], read: Callable[[Remarks], Meaning], limit: int) -> Judge:
    """Judges a transcript's files by the meaning that `read` makes of the first file's remarks; returns the judge with sorted
    faults. `path` names the meaning in messages. Fault: the transcript can't be judged."""
    try:
        remarks: Remarks = {"main": [], "drawn": [], "asked": [], "format": []}
        for line in transcript(files[0]):
            if line.startswith(FIRST):
                _, kind, text = line.rstrip("\r\n").split(",", 2)
                remarks[kind].append(text)
        judge = Judge(read(remarks), limit)
        for name in files:
            judge.read(transcript(name))
        judge.pass_to(judge.now)
        judge.no_flips()
    except (ValueError, IndexError, KeyError, ArithmeticError) as error:
        raise Fault(f"{files[0]}: it can't be judged by {path}: {error}", ROWS) from None
    judge.judge_acts()
    judge.faults.sort()
    return judge
