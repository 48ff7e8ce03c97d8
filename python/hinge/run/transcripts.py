"""The files of a transcript, which is the history of a link. A transcript continues in another file before the audit's limit."""

from __future__ import annotations

import os
from typing import Iterable, Iterator, Optional

from hinge.border.files import is_beside
from hinge.outputs import is_file, is_planted, place
from hinge.run.words import Wrong

KEPT_PATH = "/run/kept"  # a folder in a simulated machine; the launcher copies its files at the end, and reports them
AUDITED = 268_435_456  # the most bytes that an audit reads without an option


def refuse_own_input(option: str, path: Optional[str], others: Iterable[Optional[str]]) -> None:
    """Checks that an output file isn't also an input or another output, `others`, and would be emptied. Wrong: it is, or its name
    contains a line feed."""
    if path is None:
        return
    if "\n" in os.path.abspath(path):
        raise Wrong(f"{option} {path!r}: a line feed in its name")
    for other in others:
        if other is not None and is_file(path) and is_file(other) and place(path) == place(other):
            raise Wrong(f"{option} {path}: the same file as {other}")


def refuse_lost(option: str, path: Optional[str], others: Iterable[Optional[str]]) -> None:
    """Checks before the run that an output file can be written, and isn't one of the files `others`. Wrong: it can't, or is."""
    refuse_own_input(option, path, others)
    if path is None or path == "-":
        return
    place_to_write = path if os.path.exists(path) else os.path.dirname(path) or "."
    if os.path.isdir(path) or is_planted(path) or not os.access(place_to_write, os.W_OK):
        raise Wrong(f"{option} {path}: it can't be written")


def parts_of(transcript: str, count: int) -> list[str]:
    """Returns the paths of a transcript in `count` files."""
    return [transcript, *(f"{transcript}.{number}" for number in range(1, count))]


def files_of(transcript: str) -> list[str]:
    """Returns the existing files of a transcript, and always the first, whose absence a reader reports."""
    files = [transcript]
    following = f"{transcript}.1"
    while is_beside(following):
        files.append(following)
        following = f"{transcript}.{len(files)}"
    return files


def lines_about_files(transcript: str, count: int) -> Iterator[str]:
    """Yields lines for the user about a transcript in several files, and about files that are too large for an audit without
    options."""
    parts = [] if transcript.startswith(f"{KEPT_PATH}/") else parts_of(transcript, count)
    if len(parts) > 1:
        first_files = f"{parts[0]}, {parts[1]}" + (" .." if count > 2 else "")
        yield f"the transcript is in {count} files, of which each is audited by itself: {first_files}"
    for part in parts:
        size = os.path.getsize(part) if os.path.exists(part) else 0
        if size > AUDITED:
            audit = f"dummynet audit --most-history {size} {part}"
            yield f"{part} has {size} bytes, since the link was never idle; its audit: {audit}"
