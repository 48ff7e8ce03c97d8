"""A configuration's lines, checked with the program: all wrong lines, and unlikely lines."""

from __future__ import annotations

import os
import re
from collections import Counter
from dataclasses import dataclass, field
from fractions import Fraction
from typing import Iterable, Iterator, NamedTuple, Optional, Sequence, Union

from hinge.arguments import is_number
from hinge.border.files import Exceeded, untrusted
from hinge.border.programs import lines_from
from hinge.border.scratch import unnamed
from hinge.checks.findings import MOST_FAULTS, Findings
from hingetulip_words.values import FIELD_BITS
from hingetulip_words.advice import OPTIONS_OF, words_before_comment
from hingetulip_words.explained import explained, replaced
from hinge.command import CONFIGURATION, FILES, MISSING, Fault
from hinge.configurations.configured import InForce
from hinge.program import VERDICTS, dummynet

MOST_LINE_BYTES = 65_000  # the longest line that a live session accepts
LONG_DELAY_MS = 10_000
MOST_CORRECTIONS = 8  # the most words that are replaced in one line


class Verdict(NamedTuple):
    """The program's verdict on a line. `name` is `ok`, `bad` or the reason for a refusal; `text` is the command in the program's
    spelling, or a bad line's error."""

    line: int
    name: str
    text: str
    source: bytes  # the judged part of the line


def judged_part(line: Union[bytes, str]) -> bytes:
    """Returns the part of a line that a live session accepts. Only a comment may be longer. Exceeded: the command is longer."""
    text = os.fsencode(line)
    text = re.sub(rb" +", b" ", text) if b"  " in text else text
    if len(text) > MOST_LINE_BYTES and b"#" not in text[:MOST_LINE_BYTES]:
        raise Exceeded(MOST_LINE_BYTES, "bytes in a line")
    return text[:MOST_LINE_BYTES]


def refuse_long(places: Iterable[str], lines: Iterable[str]) -> None:
    """Refuses lines that are too long for a live session. Fault: a line is too long; the message begins with the line's place."""
    for place, line in zip(places, lines):
        with untrusted(place, CONFIGURATION):
            judged_part(line)


def session_of(lines: Iterable[Union[bytes, str]]) -> Iterator[str]:
    """Yields the calls, replies and errors with which the program answers lines in a single session, in which earlier lines affect
    later ones."""
    with unnamed() as (inputs, _):
        inputs.writelines(b" " + judged_part(line) + b"\n" for line in lines)  # with a blank before it no line is a call
        inputs.seek(0)
        for record in lines_from([dummynet(), "live"], inputs, VERDICTS):
            if record.startswith((b"c,", b"r,", b"#,bad,")):
                yield record.decode("utf-8", "replace").rstrip("\n")


def judged_lines(lines: Iterable[Union[bytes, str]]) -> Iterator[Verdict]:
    """Yields the verdict on each line with a command, on demand. Reads the lines twice. Fault: the program gave no verdict on a
    line."""
    records = session_of(lines)
    record = next(records, "")
    for number, line in enumerate(map(judged_part, lines), 1):
        if record.startswith(f"#,bad,{number},"):
            yield Verdict(number, "bad", record.split(",", 4)[4], line)
        elif words_before_comment(line.decode("utf-8", "replace")):
            answer = next(records, "")
            if record[:2] != "c," or answer[:2] != "r,":
                raise Fault(f"dummynet live says nothing of line {number}", FILES)
            reply = answer.split(",")[1]
            name = "ok" if reply in ("configured", "deleted") else reply
            yield Verdict(number, name, record.split(",", 3)[3], line)
        else:
            continue
        record = next(records, "")


def corrected(line: str) -> Optional[str]:
    """Returns the line with its wrong words replaced as their errors advise, if the program then accepts the line."""
    for _ in range(MOST_CORRECTIONS):
        verdict = next(judged_lines([line]), None)
        if verdict is None or verdict.name != "bad":
            return line
        other = replaced(line, verdict.text)
        if other is None or other == line:
            return None
        line = other
    return None


def refuse_wrong(texts: Sequence[str], numbers: Sequence[int], file: str, option: str = "") -> None:
    """Refuses lines that aren't commands. `numbers` contains line numbers in the file, or 0 for lines from the option. If the
    program is missing, the host refuses such a line later. Fault: a line is no command; the message says the right words."""

    def wrong(at: int, why: str) -> Fault:
        return Fault(f"{place(at)}: {why}", CONFIGURATION)

    def place(at: int) -> str:
        return f"{file}:{numbers[at]}" if numbers[at] else option

    first = ""
    refuse_long(map(place, range(len(texts))), texts)
    try:
        # All records are read first: if the program was killed, its records say nothing about the lines.
        for record in session_of(texts) if texts else ():
            if not first and record.startswith("#"):
                first = record
    except Fault as fault:
        if fault.status != MISSING:
            raise
        return
    if first:
        _, _, number, _, why = first.split(",", 4)
        at = int(number) - 1
        raise wrong(at, LineCheck.wrong(words_before_comment(texts[at]), why))
    for at, text in enumerate(texts):
        name = twice(words_before_comment(text))
        if name:
            raise wrong(at, f"{name} stands twice; write one of them")


def twice(words: list[str]) -> str:
    """Returns the first option with two values in a line, or an empty text."""
    options = OPTIONS_OF.get(words[0] if words else "", ())
    return next((word for word, count in Counter(words[3:]).items() if count > 1 and word in options), "")


@dataclass
class LineCheck:
    """Checks the lines of a file. `in_force` contains the configuration of the correct lines."""

    name: str
    lines: Iterable[bytes]
    found: Findings
    in_force: InForce = field(default_factory=InForce)
    spoilt: dict[str, int] = field(default_factory=dict)  # the last wrong line of each pipe and queue
    # the last correct line of each pipe and queue, and the line's words
    last: dict[str, tuple[int, list[str]]] = field(default_factory=dict)

    def check(self) -> None:
        before = self.found.faults
        for verdict in judged_lines(self.lines):
            if self.found.faults - before == MOST_FAULTS:
                self.found.warn(f"{self.name}:{verdict.line}", f"{MOST_FAULTS} faults; the lines from here on weren't looked at")
                return
            self.add(verdict)

    def add(self, verdict: Verdict) -> None:
        """Reports the fault or the warnings for a line; obeys a correct line."""
        where = f"{self.name}:{verdict.line}"
        words = words_before_comment(verdict.source.decode("utf-8", "replace"))
        own = words[1:] if words[:1] == ["ipfw"] else words
        if verdict.name == "bad":
            self.found.fault(where, self.wrong(words, verdict.text), CONFIGURATION)
            self.spoilt[" ".join(own[:2])] = verdict.line
        elif verdict.name != "ok":
            self.found.fault(where, self.refused(verdict), CONFIGURATION)
        else:
            self.in_force.obey(verdict.text)
            self.warn_of_second(where, own)
            self.warn_of_words(where, own)
            self.last[" ".join(own[:2])] = verdict.line, own

    @staticmethod
    def wrong(words: list[str], text: str) -> str:
        """Returns the error and the advice for a line, from the program's text `word W: X`."""
        line = " ".join(words)
        whole = corrected(line)
        advice = explained(line, text)
        return advice if whole in (None, line) else f"{advice}; in full: {whole}"

    def refused(self, verdict: Verdict) -> str:
        """Returns why a well-written command has no effect."""
        words = verdict.text.split()
        if verdict.name == "pipe-has-queues":
            return f"a queue still names pipe {words[-1]}; delete the queue first, or move it"
        if verdict.name != "no-such-pipe":
            return f"no such queue: queue {words[-1]} isn't configured here; leave this line out"
        names_pipe = words[1] != "delete" and len(words) > 4
        pipe = f"pipe {words[4] if names_pipe else words[-1]}"
        if pipe in self.spoilt:
            return f"no such pipe: {pipe} isn't configured here (line {self.spoilt[pipe]}, which is of it, has a fault)"
        return f"no such pipe: {pipe} isn't configured here; a pipe's line stands above those of its queues"

    def warn_of_second(self, where: str, words: list[str]) -> None:
        """Warns of a line that repeats an earlier line's target, or an option."""
        key = " ".join(words[:2])
        if key in self.last and "config" in words[:3] and "config" in self.last[key][1][:3]:
            line, earlier = self.last[key]
            losses = [word for word in earlier[3:] if word in OPTIONS_OF[words[0]] and word not in words[3:]]
            also = ""
            if losses:
                verb = "holds" if len(losses) == 1 else "hold"
                also = f": {', '.join(losses)} of line {line} no longer {verb}"
            self.found.warn(where, f"a second line for {key}, and each line is its whole configuration{also}")
        option = twice(words)
        if option:
            self.found.warn(where, f"{option} stands twice; the last one counts")

    def warn_of_words(self, where: str, words: list[str]) -> None:
        for name, word in zip(words[3:], words[4:]):
            message = unlikely(name, word)
            if message is not None:
                self.found.warn(where, message)


def unlikely(name: str, word: str) -> str | None:
    """Returns a warning for a legal but unlikely value."""
    if name == "bw" and re.fullmatch(r"[1-9]\d{0,3}", word):
        return f"bw {word} is {word} bit/s; write {word}Mbit/s or {word}Kbit/s if that is meant"
    if name == "plr":
        rate = f"{word}0" if word.endswith(".") else word  # `1.` isn't a number for Fraction
        return f"plr {word} loses every packet; 1 % is 0.01" if Fraction(rate) == 1 else None
    if name == "delay":
        ms = int(re.sub(r"\D", "", word) or 0)
        return f"delay {word} is {ms / 1000:g} s; delays are in ms" if ms > LONG_DELAY_MS else None
    if name in FIELD_BITS and is_number(word) and int(word) & (int(word) + 1):
        whole = hex((1 << FIELD_BITS[name]) - 1)
        return f"mask {name} {word} keeps the bits {int(word):#x}, and is neither a prefix length nor a value; all bits are {whole}"
    return None
