"""The changes from --timeline in a plan: a file of lines with a moment and a change each."""

from __future__ import annotations

import os
import re
import shlex
from typing import TYPE_CHECKING

from hinge.border.files import untrusted
from hinge.checks.lines import refuse_wrong
from hinge.events.forms import CHANGES, line_meant
from hinge.events.link_words import link_event
from hinge.run.changes import refuse_second
from hinge.run.words import Wrong, bare, duration, is_line, placed, read_as_change, read_lines

if TYPE_CHECKING:
    from hinge.run.plan import Plan


def add_timeline(plan: Plan, path: str) -> None:
    """Adds the changes in a file of lines such as `5s 1Mbit/s 20ms`. Wrong: the file contains no change, a wrong line, or two
    configurations of a pipe at the same moment; or `path` consists of such lines."""
    if " " in path.strip() and not os.path.exists(path):
        raise Wrong(f"--timeline is a file of lines: {as_file(plan, path)}, and --timeline changes")
    with untrusted(path):
        number_of_line = dict[str, int]()  # of each configuration line, the number where it stands first
        subjects = set[tuple[int, str, int]]()  # of the changes so far
        is_empty = True
        for number, line in enumerate(plan.noted("--timeline", read_lines(path)), 1):
            word, _, text = bare(line).partition(" ")
            count = len(plan.changes.lines)
            if not word:
                continue
            is_empty = False
            with placed(f"{path} line {number}"), read_as_change(bare(line)):
                moment = duration(word)
                if is_line(text):
                    number_of_line.setdefault(text, number)
                plan.add_event(link_event(text, word), moment, bare(line))
                refuse_second(plan.changes.lines[count:], subjects)
        if is_empty:
            raise Wrong(f"{path}: no line of a change (example: 5s 1Mbit/s 20ms)")
        refuse_wrong([*number_of_line], [*number_of_line.values()], path)


def as_file(plan: Plan, text: str) -> str:
    """Returns a shell command that writes the lines in a text into a file, as advice to a user who wrote these lines in place
    of the file's name. Commas or semicolons part the lines. Wrong: a line isn't a change."""
    parts = [line_meant(bare(part), CHANGES) or bare(part) for part in re.split("[,;]", text)]
    try:
        for word, _, words in (part.partition(" ") for part in parts):
            plan.happenings(link_event(words, word), duration(word), plan.changes)
    except Wrong:
        raise Wrong("--timeline is a file of lines as 5s outage 2s (hinge docs LINKS)") from None
    return f"printf '%s\\n' {shlex.join(parts)} >changes"
