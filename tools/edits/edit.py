"""An edit: a wrong body as pairs of one line's text and what stands in its place."""

from __future__ import annotations

import re
from dataclasses import dataclass
from pathlib import Path
from typing import NamedTuple, Optional

from edits.source import Function, function_at

OURS, BOTH = ("edits",), ("edits", "must-fail")  # `rt ci` tries those of must-fail/ itself


class BadEdit(Exception):
    """An edit that can't be applied."""


class Pair(NamedTuple):
    """A text that is once in a file, and its replacement."""

    file: str
    old: str
    new: str


@dataclass(frozen=True)
class Edit:
    """An edit of a crate, with the functions whose bodies it changes, or none if it changes more than bodies."""

    name: str
    text: str
    pairs: tuple[Pair, ...]
    functions: frozenset[Function]

    def applied(self, texts: dict[str, str]) -> dict[str, str]:
        """The texts of files with this edit, from those with earlier ones."""
        made = dict(texts)
        for pair in self.pairs:
            count = made[pair.file].count(pair.old)
            if count != 1:
                raise BadEdit(f"an old text is in {pair.file} {count} times, and not once")
            made[pair.file] = made[pair.file].replace(pair.old, pair.new)
        return made


def pairs_of(text: str) -> tuple[Pair, ...]:
    """Reads the lines `file:`, `old:` and `new:`. No other line is read."""
    pairs: list[Pair] = []
    file, old = "", ""
    for line in text.split("\n"):
        if line.startswith("file: "):
            file = line[6:].strip()
        elif line.startswith("old: "):
            old = line[5:]
        elif line.startswith("new:"):
            pairs.append(Pair(file, old, re.sub(r"\A ", "", line[4:])))
    return tuple(pairs)


def edited_functions(crate: Path, pairs: tuple[Pair, ...]) -> frozenset[Function]:
    """The functions whose bodies these pairs change: none if one changes a type, a signature or an import."""
    texts = {pair.file: (crate / pair.file).read_text() for pair in pairs}
    found: set[Function] = set()
    for pair in pairs:
        text = texts[pair.file]
        line = text[: text.find(pair.old)].count("\n") + 1
        function: Optional[Function] = function_at(crate, pair.file, line)
        is_whole = pair.new.count("fn ") != pair.old.count("fn ")
        if function is None or is_whole or not is_body(text, function, line):
            return frozenset()
        found.add(function)
        texts[pair.file] = text.replace(pair.old, pair.new)
    return frozenset(found)


def is_body(text: str, function: Function, line: int) -> bool:
    """Returns whether a line belongs to a function's body, rather than its signature or clauses."""
    lines = [one.rstrip() for one in text.split("\n")[function.first - 1 : function.last]]
    depth = len(lines[0]) - len(lines[0].lstrip())
    # A body opens on a line of the function's own depth: alone, or behind the signature.
    opens = (place for place, one in enumerate(lines) if one.endswith("{") and one[depth : depth + 1] != " ")
    return line > function.first + next(opens, 0) or len(lines) == 1


def read(crate: Path, path: Path) -> Edit:
    text = path.read_text()
    pairs = pairs_of(text)
    if not pairs or any(not pair.old or not (crate / pair.file).is_file() for pair in pairs):
        return Edit(path.stem, text, (), frozenset())
    return Edit(path.stem, text, pairs, edited_functions(crate, pairs))


def edits_of(crate: Path, folders: "tuple[str, ...]") -> list[Edit]:
    """Returns the edits in these folders of a crate."""
    return [read(crate, path) for folder in folders for path in sorted((crate / folder).glob("*.edit"))]
