"""The lines in a net's file, read word by word, with error messages that point to the wrong word."""

from __future__ import annotations

import difflib
from itertools import chain
from sys import intern
from typing import Iterable, Iterator, Sequence

from hinge.command import CONFIGURATION
from hinge.events.forms import line_meant
from hinge.run.words import LONGEST_FILE_LINE, Wrong, bare, first_word, length_of, placed, read_lines
from hingetulip_words.presets import preset

UNKNOWN_HOST = "no host of this net"


class Unobeyed(Wrong):
    """Raised if the links don't accept a configuration line."""

    status = CONFIGURATION


class Statement:
    """Holds a line from a net's file, and the words that are still unread. A line that ends in a backslash continues on the next."""

    __slots__ = ("path", "number", "text", "word", "rest")

    def __init__(self, path: str, number: int, text: str) -> None:
        self.path, self.number, self.text = path, number, text
        word, self.rest = first_word(text)
        self.word = intern(word)

    @property
    def place(self) -> str:
        """Returns the file and the line's number, for messages."""
        return f"{self.path} line {self.number}" if self.number else self.path

    def wrong(self, word: str, why: str) -> Wrong:
        """Returns the error that a word is wrong, or the whole line if the word is empty."""
        return Wrong(f"{self.place}: {word!r}: {why}" if word else f"{self.place}: {why}")

    def unknown(self, word: str, items: Iterable[str], what: str, otherwise: str = "") -> Wrong:
        """Returns the error that a word isn't one of `items`. The message suggests a right line or a similar item, or else says
        `otherwise`."""
        near = difflib.get_close_matches(word, items, 1) if not word[:1].isdigit() else []
        line = self.meant()
        hint = otherwise
        if line:
            hint = f"write {line}"
        elif near:
            hint = f"did you mean {near[0]!r}?"
        return self.wrong(word, f"{what}; {hint}" if hint else what)

    def meant(self) -> str:
        """Returns the line that was probably meant, or an empty text. A line for `hinge change` contains no moment."""
        if self.number:
            return line_meant(self.text)
        return line_meant(f"at 0s {self.text[3:]}").replace("at 0s ", "")

    def refuse_twice(self, names: Sequence[str]) -> None:
        """Checks host names. Wrong: the line names a host twice."""
        second = next((name for place, name in enumerate(names) if name in names[:place]), None)
        if second is not None:
            text = self.text if self.number else self.text.removeprefix("at ")
            before, _, behind = f"{text} ".rpartition(f" {second} ")
            raise self.wrong(second, f"it stands twice; write {before} {behind}".rstrip())

    def peek(self) -> str:
        """Returns the next word, or an empty string at the end."""
        return first_word(self.rest)[0]

    def take(self, form: str) -> str:
        """Reads and returns the next word. Wrong: the word is missing; the message shows `form`, the line's right form."""
        word, rest = first_word(self.rest)
        if not word:
            raise self.wrong("", f"a word is missing: {form}")
        self.rest = rest
        return word

    def take_time(self, form: str) -> int:
        """Reads a time; returns it in ns. Wrong: the next word is missing or is no time."""
        word = self.take(form)
        try:
            with placed(self.place):
                return length_of(word)
        except Wrong:
            line = self.meant()
            if line:
                raise self.wrong(word, f"not a duration; write {line}") from None
            raise

    def both_ways(self, text: str) -> tuple[str, str]:
        """Returns the words of a link's two ways (directions), from `LINK`, `LINK / LINK` or `preset NAME`."""
        words = text.split()
        if words[:1] == ["preset"]:
            try:
                links = preset(" ".join(words[1:]))
            except ValueError as unknown:
                raise self.wrong("preset", str(unknown)) from None
            return links.up, links.down
        up, slash, down = text.partition(" / ")
        return up, down if slash else up

    def done(self, form: str) -> None:
        """Checks that no word is left. Wrong: there are more words."""
        if self.peek():
            raise self.wrong(self.peek(), f"nothing belongs behind it: {form}")


TAKES_A_COMMAND = ("host", "main", "router")
# The words of lines that may be repeated, or whose repetition is refused elsewhere because of the host's name.
OFTEN = ("link", "nemesis", "host", "main", "router", "switch")
# The number of words, from the first, that two lines may not share (-1: all words but the last).
SUBJECTS = {"mtu": -1, "trace": -1, "wait": 4, "disk": 3, "faults": 1, "routes": 1}


def statements(path: str) -> Iterator[Statement]:
    """Yields the statements in a net's file. Wrong: two lines say the same thing, such as a link's MTU."""
    firsts = dict[str, Statement]()
    for statement in all_statements(path):
        words = statement.text.split()
        subject = " ".join(words[: SUBJECTS.get(statement.word)])
        first = firsts.setdefault(subject, statement)
        if first is not statement and statement.word not in OFTEN:
            raise statement.wrong(subject, f"line {first.number} says this already; leave one of them out")
        yield statement


def all_statements(path: str) -> Iterator[Statement]:
    """Yields the lines in a net's file, each joined with its continuation lines. The shell reads the comments in commands; other
    lines end at a comment. Wrong: a line is too long with its continuation lines."""
    start = ""  # the lines so far of a line that continues
    first = 0  # the number of its first line
    for number, line in enumerate(chain(read_lines(path), [""]), 1):
        if not start:
            first = number
        line = start + line.strip()
        if len(line) > LONGEST_FILE_LINE:
            raise Wrong(f"{path} line {first}: with the lines behind it, it has more than {LONGEST_FILE_LINE:,} letters")
        start = line[:-1].rstrip() + " " if line.endswith("\\") else ""
        if start or line.startswith("#"):
            continue
        text = line if first_word(line)[0] in TAKES_A_COMMAND else bare(line)
        if text:
            yield Statement(path, first, text)
