"""Explains the error in a configuration line, with the word as typed and advice."""

from __future__ import annotations

import re
from typing import NamedTuple, Optional

from hingetulip_words.advice import advice, words_before_comment
from hingetulip_words.link import Place, corrected, in_full, read_link

FAULT = re.compile(r"word (\d+): (.+)")
NO_TEXT = "not UTF-8: a file of another kind, or of an older encoding"


class Cause(NamedTuple):
    """The program's cause for refusing a line, and the place of the wrong word among the line's words, from 0."""

    place: int
    text: str


def cause_of(fault: str, words: list[str]) -> Optional[Cause]:
    """Returns the cause in a program's fault such as `word 5: bad number`; None if the fault names none of the words."""
    parts = FAULT.fullmatch(fault)
    if not parts or int(parts[1]) > len(words):
        return None
    return Cause(int(parts[1]) - 1, parts[2])


def explained(line: str, fault: str) -> str:
    """Returns a longer text for a program's fault, such as `word 5 '1Mbps': not a bandwidth; write 1Mbit/s` for `word 5: bad
    number`. A fault that names no word stays the same."""
    words = words_before_comment(line)
    cause = cause_of(fault, words)
    if cause is None:
        return NO_TEXT if fault == "not UTF-8" else fault
    number = cause.place + 1
    on_word = advice(words, number, cause.text)
    return f"word {number} {words[cause.place]!r}: {on_word.wrong}; {on_word.right}"


def replaced(line: str, fault: str) -> Optional[str]:
    """Returns the line with the advised word in the wrong word's place, or a pipe's line for a link's words. Returns None if there
    is no such advice."""
    words = words_before_comment(line)
    cause = cause_of(fault, words)
    if cause is None:
        return None
    word = advice(words, cause.place + 1, cause.text).word
    if word is not None:
        return " ".join([*words[: cause.place], word, *words[cause.place + 1 :]])
    if words[0] == "pipe" and words[2:3] == ["config"]:
        front, link_words = " ".join(words[:3]), words[3:]
    elif cause.place == 0:
        front, link_words = "pipe 1 config", words
    else:
        return None
    link = corrected(" ".join(link_words), Place.DUMMYNET)
    return f"{front} {in_full(read_link(link))}" if link else None
