"""Words of command lines and files: moments, links, and targets of configuration lines."""

from __future__ import annotations

import re
from contextlib import contextmanager
from functools import lru_cache
from typing import Callable, Iterator, NamedTuple, Optional

from hinge.arguments import is_number
from hinge.border.files import MOST_LINES, MOST_SAID, lines_in
from hinge.command import USAGE, Fault
from hinge.events.forms import CHANGES, line_meant
from hingetulip_words.link import Extra, LinkWords, Place, WordError, corrected, read_words

WAYS = {"up": 0, "down": 1}
LINES = ("pipe", "queue", "ipfw")  # the first words of configuration lines
SECOND = 1_000_000_000  # ns
LONGEST_FILE_LINE = 1 << 16  # the most letters in a line of a file
LAST_MOMENT = 2**62  # ns, on the links' clock
MTU_LEAST, MTU_MOST = 576, 65535  # bytes
KEPT = 1 << 12  # how many texts' meanings a cache keeps, since long files repeat the same texts
SCALE = {"ns": 1, "us": 10**3, "ms": 10**6, "s": SECOND, "min": 60 * SECOND, "h": 3600 * SECOND}
TIME = re.compile(rf"(\d+(?:\.\d+)?)({'|'.join(SCALE)})?", re.ASCII)
NO_EXTRA = Extra()


class Wrong(Fault):
    """Raised for a wrong word in the command line or a file."""

    status = USAGE


@contextmanager
def placed(place: str) -> Iterator[None]:
    """Puts a place, such as a file and its line, before the message of a Wrong from the block, unless the message begins with the
    place."""
    try:
        yield
    except Wrong as wrong:
        raise wrong if str(wrong).startswith(f"{place}: ") else Wrong(f"{place}: {wrong}") from None


@contextmanager
def read_as_change(line: str) -> Iterator[None]:
    """Replaces the message of a Wrong from the block by the line of a timeline that the user probably meant, if there is such a
    line."""
    from hinge.events.link_words import link_event  # which needs this module

    try:
        yield
    except Wrong:
        advice = line_meant(line, CHANGES)
        word, text = first_word(advice)
        try:
            duration(word)
            link_event(text, word)
        except Wrong:
            advice = ""
        if advice:
            raise Wrong(f"{line!r}: not a change; write {advice}") from None
        raise


def duration(text: str, option: str = "") -> int:
    """Returns the ns of a time such as 5s, 600ms or 2min; a number without a unit means seconds. Wrong: the text isn't a time, or
    the time is above 2^62 ns; `option` begins the message."""
    match = TIME.fullmatch(text)
    place = f"{option} {text}".lstrip()
    if not match:
        raise Wrong(f"{place}: not a duration (example: 600ms)")
    number, unit = match.groups("s")
    ns = float(number) * SCALE[unit]
    if ns > LAST_MOMENT:
        raise Wrong(f"{place}: above 2^62 ns")
    return round(ns)


def length_of(text: str, option: str = "") -> int:
    """Returns the ns of a length of time. Wrong: the text isn't a time, or the time is 0 ns; `option` begins the message."""
    length = duration(text, option)
    if not length:
        place = f"{option} {text}".lstrip()
        raise Wrong(f"{place}: nothing happens in no time; write a duration above 0 (example: 600ms)")
    return length


def bytes_of_mtu(text: str) -> int:
    """Returns the bytes of an MTU. Wrong: the text isn't a number in the range."""
    if not (text.isascii() and text.isdecimal() and MTU_LEAST <= int(text) <= MTU_MOST):
        raise Wrong(f"{text!r} isn't a number from {MTU_LEAST} to {MTU_MOST}")
    return int(text)


def bare(line: str) -> str:
    """Returns a line without its comment, with single blanks between words."""
    return " ".join(line.partition("#")[0].split())


def first_word(text: str) -> tuple[str, str]:
    """Returns a text's first word and the rest; both are empty if the text is empty."""
    words = text.split(None, 1)
    word = words[0] if words else ""
    rest = words[1] if len(words) > 1 else ""
    return word, rest.strip()


def read_lines(path: str, lines: Optional[int] = MOST_LINES) -> Iterator[str]:
    """Yields the lines of a text file. Wrong: the file can't be read, or has more than `lines` lines."""
    try:
        yield from lines_in(path, LONGEST_FILE_LINE, lines, said=lines and MOST_SAID)
    except Fault as fault:
        raise Wrong(str(fault)) from None
    except OSError as error:
        raise Wrong(f"{path}: {error.strerror}") from None


read_once = lru_cache(KEPT)(read_words)


@lru_cache(KEPT)
def read_alone(word: str) -> dict[str, str]:
    """Returns the options of a word that describes a link without another word, such as 10Mbit/s or 20ms; an empty dict for other
    words."""
    try:
        return read_words(word, Place.CHANGE).options
    except WordError:
        return {}


def of_such_words(text: str) -> Optional[LinkWords]:
    """Returns the link if each word describes a property by itself and no property is repeated; otherwise None. This is fast: long
    files consist mostly of such links, and seldom repeat a text."""
    options: dict[str, str] = {}
    for word in text.split(" "):
        word_options = read_alone(word)
        if not word_options or word_options.keys() & options:
            return None
        options.update(word_options)
    return LinkWords(options, NO_EXTRA)


def read_link_words(text: str, option: str, place: Place = Place.CHANGE) -> LinkWords:
    """Returns the link for words such as `10Mbit/s 20ms queue 100 loss 1%`. Wrong: the text isn't a link; the message begins with
    `option`, and contains the corrected text, if possible."""
    try:
        return of_such_words(text) or read_once(text, place)
    except WordError as wrong:
        message = f"{option}: {wrong}"
        corrected_text = corrected(text, place)
        if corrected_text not in (None, wrong.right()):
            message += f"; in full: '{corrected_text}'"
        raise Wrong(message) from None


class Target(NamedTuple):
    """Describes what a line configures: `pipe` or `queue`, and the number, which is 0 if the line has no number."""

    kind: str
    number: int


def target_of(line: str) -> Target:
    """Returns what a line configures; for lines of other kinds, the first word and number."""
    words = [word for word in line.split(None, 4)[:4] if word != "ipfw"]
    kind = words[0] if words else ""
    numbers = [int(word) for word in words[1:3] if is_number(word)]
    return Target(kind, numbers[0] if numbers else 0)


def renumbered(line: str, pipe: Callable[[int], int], queue: Callable[[int], int]) -> str:
    """Returns a configuration line with other numbers, which the functions `pipe` and `queue` return for the line's own numbers."""
    words = bare(line).split()
    if words[:1] == ["ipfw"]:
        del words[0]
    functions = {"pipe": pipe, "queue": queue}
    for at, word in enumerate(words[:-1]):
        is_numbered = at == 0 and word in functions or word == "pipe" and words[0] == "queue"
        place = at + 1
        if words[place] == "delete" and place + 1 < len(words):
            place += 1
        if is_numbered and is_number(words[place]):
            words[place] = str(functions[word](int(words[place])))
    return " ".join(words)


def with_plan_pipes(line: str, link: int) -> str:
    """Returns a configuration line of a link, which is counted from 0, with the plan's pipes in place of the link's pipes 1 and
    2."""
    if not link:
        return line
    pipes = {1: 2 * link + 1, 2: 2 * link + 2}
    return renumbered(line, lambda pipe: pipes.get(pipe, pipe), int)


def is_line(text: str) -> bool:
    """Returns whether the text is a configuration line. `queue 7` without further words isn't, since these words describe a
    link."""
    if not text.startswith(LINES):
        return False
    first, *words = text.split(None, 3)[:3]
    return first in LINES and (first != "queue" or "config" in words or "delete" in words)


def configures(line: str) -> bool:
    """Returns whether `config` is among the first four words of a configuration line."""
    return "config" in line.split()[:4]


@lru_cache(KEPT)
def around_bandwidth(line: str) -> tuple[str, str]:
    """Returns the parts of a pipe's line before and after the bandwidth."""
    words = line.split()
    while "bw" in words:
        at = words.index("bw")
        del words[at : at + 2]
    at = words.index("config") + 1
    return " ".join(words[:at]), "".join(f" {word}" for word in words[at:])


def with_bandwidth(line: str, rate: int) -> str:
    """Returns a pipe's line with another bandwidth in bit/s."""
    front, back = around_bandwidth(line)
    return f"{front} bw {max(1, rate)}bit/s{back}"
