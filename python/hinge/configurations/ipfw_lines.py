"""Lines from ipfw, dnctl and shell scripts as configuration lines for dummynet, with a list of omissions."""

from __future__ import annotations

import re
from dataclasses import dataclass, field
from decimal import Decimal, InvalidOperation
from typing import Iterable, Iterator, NamedTuple, Optional

from hinge.border.files import Budget, Exceeded
from hinge.checks.lines import Verdict, judged_lines, refuse_long
from hingetulip_words.values import FACTOR

ASSIGNMENT = re.compile(r"""(?:export\s+)?([A-Za-z_]\w*)=("[^"]*"|'[^']*'|[^\s;'"]*)""")
VARIABLE = re.compile(r"\$\{([A-Za-z_]\w*)(?::?-([^}]{0,99}))?\}|\$([A-Za-z_]\w*)")
BETWEEN_COMMANDS = re.compile(r"\s*(?:;|&&|\|\|?|(?<!>)&(?!>))\s*")
REDIRECTION = re.compile(r"\s*\d?>.*")
HEAD = re.compile(r"(?:^|\s)((?:pipe|queue)\s+(?:\d+\s+(?:config|delete)\b|delete\s+\d).*|(?:pipe|queue)\s+flush\b.*)")
UNSURE = re.compile(r"(?:^|\s)(?:pipe|queue|sched)\s+\S+\s+config\b")
BANDWIDTH = re.compile(rf"(\d+)((?i:{FACTOR}))([A-Za-z/]*)\Z")
LIMIT = re.compile(r"(\d+)(?:([kK])(?:[bB]\w*)?|([bB]\w*))?\Z")
WITHOUT_EFFECT = {"droptail": "the queue is a drop-tail one anyway", "noerror": "a sender learns of no drop anyway"}
WHOLE_MASKS = {
    "src-ip": ("/32", "0xffffffff"),
    "dst-ip": ("/32", "0xffffffff"),
    "src-port": ("/16", "0xffff"),
    "dst-port": ("/16", "0xffff"),
    "proto": ("/8", "0xff"),
}
BYTES_PER_KBYTE = 1024
BLANKS = re.compile(r"\s+")  # many blanks in a row would slow the patterns above
COMMENT = re.compile(r"(?:^|\s)#.*")
MOST_NOTES = 10_000
MOST_JOINED = 1 << 16  # letters of a line with the lines that a backslash joins to it
FREE = 1 << 20  # letters that a file's variables may expand to
TIMES = 16  # letters that variables may expand to in addition, for each letter of the file
SHOWS = re.compile(r"\s(?:add|show|list)\s")
SCHEDULER = "schedulers other than WF2Q+ are left out"


class LeftOut(Exception):
    """Raised with the reason why a command is left out."""


class Candidate(NamedTuple):
    """Describes a configuration line that the program dummynet hasn't checked yet."""

    note: int  # the number of notes before this line's
    place: str  # the file and the line's number
    command: str  # the command in the file
    line: str


@dataclass
class Conversion:
    """Holds the converted configuration lines, and notes on changes and omissions."""

    variables: dict[str, str] = field(default_factory=dict)
    lines: list[str] = field(default_factory=list)
    notes: list[str] = field(default_factory=list)
    left_out: int = 0  # the number of omitted commands for pipes and queues
    candidates: list[Candidate] = field(default_factory=list)
    emptied: bool = False  # whether a flush deleted all lines
    budget: Budget = field(default_factory=lambda: Budget(0, ""))  # the letters that variables may still expand to

    def say(self, place: str, text: str) -> None:
        """Adds a note to print at the end. After very many notes, adds a last note that there would be more."""
        if len(self.notes) < MOST_NOTES:
            self.notes.append(f"{place}: {text}")
        elif len(self.notes) == MOST_NOTES:
            self.notes.append(f"{place}: there is more to say from here on")

    def read(self, name: str, lines: Iterable[str]) -> None:
        """Reads the lines of a file. Exceeded: the file's variables expand far beyond its length, or a line is too long."""
        self.budget = Budget(FREE, "letters for which variables stand")
        for number, line in joined_lines(lines):
            self.budget.add(TIMES * len(line))
            self.read_line(f"{name}:{number}", line)

    def convert(self, place: str, command: str) -> None:
        """Reads a command. If the command can't be converted, counts it as left out, and notes the reason."""
        try:
            self.read_command(place, command)
        except LeftOut as reason:
            self.left_out += 1
            self.say(place, f"left out: {command.strip()} ({reason})")

    def reason_to_omit(self, commands: list[str]) -> Optional[str]:
        """Returns why a command in a line can't be converted: the command contains a variable that only a shell knows, or
        configures a scheduler. Returns None if all commands can be converted."""
        for command in (self.expanded(command) for command in commands):
            if UNSURE.search(command) and not HEAD.search(command) and not SHOWS.search(command):
                unknown = VARIABLE.search(command) or re.search(r"\$\S+", command)
                return f"{unknown[0]} isn't set in these files" if unknown else SCHEDULER
        return None

    def read_line(self, place: str, line: str) -> None:
        """Reads the commands of a line. A line without commands for pipes and queues gets a single note."""
        commands = [line] if ASSIGNMENT.fullmatch(line.strip()) else BETWEEN_COMMANDS.split(line)
        reason = self.reason_to_omit(commands)
        if reason is not None:
            self.left_out += 1
            self.say(place, f"left out: {line.strip()} ({reason})")
            return
        if not any(ASSIGNMENT.fullmatch(command.strip()) or self.request_in(command) for command in commands):
            self.say(place, f"left out: {line.strip()} (it configures no pipe or queue)")
            return
        for command in commands:
            self.convert(place, command)

    def request_in(self, command: str) -> Optional[str]:
        """Returns the part of a command that configures, deletes or flushes pipes or queues; None without such a part."""
        text = self.expanded(command)
        match = HEAD.search(text)
        if match is None or SHOWS.search(text[: match.start(1)]):
            return None
        return REDIRECTION.sub("", match[1])

    def read_command(self, place: str, command: str) -> None:
        """Sets a shell variable, or adds the configuration lines for a command on pipes and queues. LeftOut: the command contains
        an unknown variable, or configures a scheduler."""
        assignment = ASSIGNMENT.fullmatch(command.strip())
        if assignment is not None:
            self.variables[assignment[1]] = self.expanded(assignment[2].strip("\"'"))
            return
        line = self.request_in(command)
        if line is None:
            if re.search(r"(?:^|\s)sched\s+\S+\s+config\b", command):
                raise LeftOut(SCHEDULER)
            return
        words = line.split()
        if words[1] == "flush":
            self.flush(place)
            return
        unknown = VARIABLE.search(" ".join(words))
        if unknown is not None:
            raise LeftOut(f"{unknown[0]} isn't set in these files")
        for line_words in list(self.converted(place, words)):
            self.candidates.append(Candidate(len(self.notes), place, command.strip(), " ".join(line_words)))

    def flush(self, place: str) -> None:
        """Deletes all lines so far."""
        self.settle()
        self.lines.clear()
        self.emptied = True
        self.say(place, "all pipes and queues are deleted here, so the lines before have no effect")

    def expanded(self, text: str) -> str:
        """Returns the text, in which values replace the shell variables that the files set."""

        def value(match: re.Match[str]) -> str:
            default = match[0] if match[2] is None else match[2]
            result = self.variables.get(match[1] or match[3], default)
            self.budget.spend(len(result))
            return result

        return BLANKS.sub(" ", VARIABLE.sub(value, text)) if "$" in text else text

    def converted(self, place: str, words: list[str]) -> Iterator[list[str]]:
        """Yields a command in dummynet's words. A delete with several numbers becomes several commands."""
        kind = words[0]
        if "delete" in words[1:3]:
            for number in (word for word in words[1:] if word != "delete"):
                yield [kind, "delete", number]
            return
        yield words[:3] + list(Options(self, place, kind, words[3:]).words())

    def settle(self) -> None:
        """Checks all candidates in a single session with dummynet; keeps the accepted lines, and notes the omission of other
        lines."""
        candidates = self.candidates
        if not candidates:
            return
        self.candidates = []
        items = []
        refuse_long((candidate.place for candidate in candidates), (candidate.line for candidate in candidates))
        for verdict in judged_lines([candidate.line.encode() for candidate in candidates]):
            candidate = candidates[verdict.line - 1]
            if verdict.name == "ok":
                self.lines.append(candidate.line)
                continue
            reason = reason_of(verdict, candidate)
            items.append((candidate.note, f"{candidate.place}: left out: {candidate.command} ({reason})"))
        self.left_out += len(items)
        self.notes = list(merge(self.notes, items))


def reason_of(verdict: Verdict, candidate: Candidate) -> str:
    """Returns why dummynet refused a line: the wrong word in a bad line, or the verdict on a correct line."""
    if verdict.name != "bad":
        return verdict.name.replace("-", " ")
    place, _, fault = verdict.text.partition(": ")
    return f"{place} of '{candidate.line}': {fault}" if place else fault


@dataclass
class Options:
    """Converts the options of a configuring line into dummynet's spelling."""

    conversion: Conversion
    place: str
    kind: str
    option_words: list[str]

    def words(self) -> Iterator[str]:
        """Yields the options and their values in dummynet's spelling, without options that do nothing here."""
        words = iter(self.option_words)
        for word in words:
            if word in WITHOUT_EFFECT:
                self.conversion.say(self.place, f"{word} is left away: {WITHOUT_EFFECT[word]}")
                continue
            yield self.name(word)
            if word in ("bw", "queue", "plr", "bandwidth", "delay"):
                yield self.value(word, next(words, ""))
            elif word in WHOLE_MASKS:
                yield self.mask(word, next(words, ""))

    def name(self, word: str) -> str:
        """Returns dummynet's name for an ipfw option."""
        if word == "sched" and self.kind == "queue":
            self.conversion.say(self.place, "the scheduler of that number is taken as the pipe of that number, with WF2Q+")
            return "pipe"
        return {"bandwidth": "bw", "flowset": "pipe"}.get(word, word)

    def value(self, option: str, text: str) -> str:
        """Returns an option's value in dummynet's spelling."""
        if option == "delay":
            return text.removesuffix("msec")
        return {"bw": ipfw_bandwidth, "bandwidth": ipfw_bandwidth, "plr": loss_rate, "queue": self.limit}[option](text)

    def limit(self, text: str) -> str:
        """Returns a queue's limit; in ipfw, K or B after the number means bytes."""
        match = LIMIT.match(text)
        if match is None or (match[2] is None and match[3] is None):
            return text
        if match[2] is not None:
            return f"{match[1]}Kbytes"
        kbytes, rest = divmod(int(match[1]), BYTES_PER_KBYTE)
        if rest:
            kbytes += 1
            self.conversion.say(self.place, f"queue {text} is rounded up to {kbytes}Kbytes")
        return f"{kbytes}Kbytes"

    def mask(self, mask_field: str, text: str) -> str:
        """Returns a flow mask's value in dummynet's spelling. LeftOut: the mask's prefix is shorter than the field."""
        slash, whole = WHOLE_MASKS[mask_field]
        if text.startswith("/") and text != slash:
            raise LeftOut(f"{mask_field} {text}: write the bits as a number")
        return whole if text == slash else text


def ipfw_bandwidth(text: str) -> str:
    """Reads a bandwidth like ipfw: bytes if the unit begins with B (but not Bi) or by, otherwise bits; returns it in dummynet's
    spelling."""
    match = BANDWIDTH.match(text)
    if match is None:
        return text
    unit = match[3]
    is_bytes = (unit.startswith("B") and not unit.startswith("Bi")) or unit.startswith("by")
    return f"{match[1]}{match[2]}{'Byte/s' if is_bytes else 'bit/s'}"


def loss_rate(text: str) -> str:
    """Returns a loss rate without an exponent, with at most 18 decimal places."""
    try:
        value = Decimal(text)
    except InvalidOperation:
        return text
    return text if "e" not in text.lower() else f"{value:.18f}".rstrip("0").rstrip(".")


def merge(notes: list[str], items: list[tuple[int, str]]) -> Iterator[str]:
    """Yields the notes and the items. The number in an item tells how many notes precede the item."""
    at = 0
    for place, note in items:
        yield from notes[at:place]
        yield note
        at = place
    yield from notes[at:]


def joined_lines(lines: Iterable[str]) -> Iterator[tuple[int, str]]:
    """Yields the lines without comments and blank lines, with their numbers. A backslash at the end joins a line with the next.
    Exceeded: a joined line is too long."""
    pending, first = "", 0
    for number, line in enumerate(lines, 1):
        first = first if pending else number
        pending += COMMENT.sub("", line).rstrip()
        if len(pending) > MOST_JOINED:
            raise Exceeded(MOST_JOINED, "letters in a line with those behind it")
        if pending.endswith("\\"):
            pending = pending[:-1] + " "
            continue
        if pending.strip():
            yield first, BLANKS.sub(" ", pending)
        pending = ""
    if pending.strip():
        yield first, BLANKS.sub(" ", pending)
