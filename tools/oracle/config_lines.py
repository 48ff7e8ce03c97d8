"""The reader of configuration lines according to docs/LINKS.md."""

import re
from pathlib import Path
from typing import Any, Optional

import model

PAGE = Path(__file__).resolve().parents[2] / "docs" / "LINKS.md"
# Each fault's name and text, with an example and the number of the example's wrong word.
FAULT_ROWS = re.findall(r"^\| `(\w+)` \| ([a-z ]+) \| .+ \| `([^`]+)` \| (\d+) \|$", PAGE.read_text("utf-8"), re.M)
NAME_OF = {text: name for name, text, _, _ in FAULT_ROWS}
UNKNOWN_WORD, MISSING_VALUE, BAD_NUMBER, OUT_OF_RANGE, LEFT_OUT, NEEDS_PIPE = NAME_OF

LEFT_OUT_WORDS = frozenset("red gred ecn codel pie fq_codel fq_pie sched burst profile noerror src-ip6 dst-ip6 flow-id".split())
MASK_FIELDS = {  # word -> (name of the field, greatest value)
    "dst-ip": ("dst", 2**32 - 1),
    "src-ip": ("src", 2**32 - 1),
    "dst-port": ("dport", 65535),
    "src-port": ("sport", 65535),
    "proto": ("proto", 255),
}
HUGE = 10**30  # stands for any number of more digits than every range has
MAX_BW = 10**12
LOSS_OF_ALL = 2**31  # the loss number of plr 1

_NUMBER = re.compile(r"(?:0|[1-9][0-9]*)\Z")


class LineFault(Exception):
    """Raised for a wrong line, with the position of the word, from 1."""

    def __init__(self, kind: str, word: int) -> None:
        super().__init__(f"{kind}({word})")
        self.kind = kind
        self.word = word


def ascii_lower(text: str) -> str:
    """Returns a text with A to Z in lower case (Python's lower() also changes the Kelvin sign)."""
    return "".join(chr(ord(c) + 32) if "A" <= c <= "Z" else c for c in text)


def read_number(text: str) -> Optional[int]:
    """Returns the value of a number in the grammar's form, or None."""
    if not _NUMBER.match(text):
        return None
    return int(text) if len(text) <= 30 else HUGE


def split_digits(text: str) -> tuple[str, str]:
    """Returns the leading digits 0-9, and the rest."""
    rest = text.lstrip("0123456789")
    return text[: len(text) - len(rest)], rest


def split_words(line: str) -> list[str]:
    """Returns the words of a line, which only spaces, tabs and carriage returns separate."""
    return [w for w in re.split("[ \t\r]+", line.split("#", 1)[0]) if w]


def ranged(value: Optional[int], low: int, high: int, position: int) -> int:
    """Shape first, then range."""
    if value is None:
        raise LineFault(BAD_NUMBER, position)
    if not low <= value <= high:
        raise LineFault(OUT_OF_RANGE, position)
    return value


def read_bw(word: str, position: int) -> int:
    first = word[0]
    if "A" <= first <= "Z" or "a" <= first <= "z":
        raise LineFault(LEFT_OUT, position)  # a device name
    digits, rest = split_digits(word)
    value = read_number(digits)
    rest = ascii_lower(rest)
    scale = 1
    if rest[:1] in ("k", "m", "g"):
        scale = {"k": 10**3, "m": 10**6, "g": 10**9}[rest[0]]
        rest = rest[1:]
    if rest in ("", "bit/s", "bits/s"):
        unit = 1
    elif rest in ("byte/s", "bytes/s"):
        unit = 8
    else:
        raise LineFault(BAD_NUMBER, position)
    return ranged(None if value is None else value * scale * unit, 0, MAX_BW, position)


def read_delay(word: str, position: int) -> int:
    digits, rest = split_digits(word)
    if rest not in ("", "ms"):
        raise LineFault(BAD_NUMBER, position)
    return ranged(read_number(digits), 0, 3_600_000, position)


def read_limit(word: str, position: int) -> model.Limit:
    digits, rest = split_digits(word)
    if rest == "":
        return model.Limit(ranged(read_number(digits), 1, 10000, position), None)
    if ascii_lower(rest) in ("k", "kb", "kbyte", "kbytes"):
        return model.Limit(None, ranged(read_number(digits), 1, 1024, position))
    raise LineFault(BAD_NUMBER, position)


def read_plr(word: str, position: int) -> int:
    """floor(plr * 2^31)."""
    whole, rest = split_digits(word)
    fraction = ""
    if rest.startswith("."):
        fraction, rest = split_digits(rest[1:])
    if rest or len(whole) > 18 or len(fraction) > 18 or not (whole or fraction):
        raise LineFault(BAD_NUMBER, position)
    numerator = int((whole or "0") + fraction)
    denominator = 10 ** len(fraction)
    if numerator > denominator:
        raise LineFault(OUT_OF_RANGE, position)
    return numerator * LOSS_OF_ALL // denominator


def read_mask_value(word: str, high: int, position: int) -> int:
    if word.startswith("/"):
        raise LineFault(LEFT_OUT, position)
    if word[:2] in ("0x", "0X"):
        digits = word[2:]
        if not digits or any(c not in "0123456789abcdefABCDEF" for c in digits):
            raise LineFault(BAD_NUMBER, position)
        digits = digits.lstrip("0") or "0"
        return ranged(int(digits, 16) if len(digits) <= 30 else HUGE, 0, high, position)
    return ranged(read_number(word), 0, high, position)


class Words:
    """The words of a line with a place among them. Positions count from 1."""

    def __init__(self, words: list[str]) -> None:
        self.words = words
        self.taken = 0

    def peek(self) -> Optional[str]:
        return self.words[self.taken] if self.taken < len(self.words) else None

    @property
    def position(self) -> int:
        """Returns the position of the last word taken."""
        return self.taken

    def take(self) -> Optional[str]:
        word = self.peek()
        if word is not None:
            self.taken += 1
        return word

    def need(self) -> str:
        """The next word, or MissingValue at the word whose successor is missing."""
        word = self.take()
        if word is None:
            raise LineFault(MISSING_VALUE, self.taken)
        return word


def read_mask(words: Words) -> model.FiveTuple:
    """The fields after the word `mask`, which was taken last."""
    start = words.position
    fields = {"src": 0, "dst": 0, "proto": 0, "sport": 0, "dport": 0}
    some = False
    while True:
        word = words.peek()
        if word in LEFT_OUT_WORDS:
            raise LineFault(LEFT_OUT, words.position + 1)
        if word == "all":
            words.take()
            fields = {name: getattr(model.ALL_BITS, name) for name in fields}
        elif word in MASK_FIELDS:
            words.take()
            name, high = MASK_FIELDS[word]
            value = words.need()
            fields[name] = read_mask_value(value, high, words.position)
        elif some:
            return model.FiveTuple(**fields)
        else:
            raise LineFault(MISSING_VALUE, start)
        some = True


def read_head(words: Words) -> tuple[str, int]:
    """`pipe` or `queue`, and the position of this word."""
    if words.peek() == "ipfw":
        words.take()
    kind = words.need()
    if kind == "sched":
        raise LineFault(LEFT_OUT, words.position)
    if kind not in ("pipe", "queue"):
        raise LineFault(UNKNOWN_WORD, words.position)
    return kind, words.position


def read_action(words: Words) -> tuple[int, bool]:
    """Returns the number, and whether the line is a delete. The word `delete` comes before or after the number."""
    second = words.need()
    if second in ("show", "list"):
        raise LineFault(LEFT_OUT, words.position)
    is_delete = second == "delete"
    if is_delete:
        second = words.need()
    number = ranged(read_number(second), 1, 65535, words.position)
    if not is_delete:
        third = words.need()
        if third in ("show", "list"):
            raise LineFault(LEFT_OUT, words.position)
        if third not in ("config", "delete"):
            raise LineFault(UNKNOWN_WORD, words.position)
        is_delete = third == "delete"
    return number, is_delete


def read_option(words: Words, is_pipe: bool, found: dict[str, Any]) -> None:
    """Reads the value of the option whose name `words` returned last, and stores the value in `found`. LineFault: the option is
    unknown here, or the value is wrong.
    """
    option, at = words.words[words.taken - 1], words.position
    if option in LEFT_OUT_WORDS:
        raise LineFault(LEFT_OUT, at)
    if option == "mask":
        found["mask"] = read_mask(words)
    elif option == "queue":
        found["limit"] = read_limit(words.need(), at + 1)
    elif option == "plr":
        found["loss"] = read_plr(words.need(), at + 1)
    elif option == "buckets":
        found["buckets"] = ranged(read_number(words.need()), 16, 65536, at + 1)
    elif option == "bw" and is_pipe:
        found["bw"] = read_bw(words.need(), at + 1)
    elif option == "delay" and is_pipe:
        found["delay"] = read_delay(words.need(), at + 1)
    elif option == "weight" and not is_pipe:
        found["weight"] = ranged(read_number(words.need()), 1, 100, at + 1)
    elif option == "pipe" and not is_pipe:
        found["pipe"] = ranged(read_number(words.need()), 1, 65535, at + 1)
    else:
        raise LineFault(UNKNOWN_WORD, at)


def parse_line(line: str) -> Optional[model.Command]:
    """Returns the command of a line, or None for a line without words. LineFault: the line is wrong."""
    words = Words(split_words(line))
    if words.peek() is None:
        return None
    kind, head = read_head(words)
    is_pipe = kind == "pipe"
    number, is_delete = read_action(words)
    if is_delete:
        if words.take() is not None:
            raise LineFault(UNKNOWN_WORD, words.position)
        return model.Delete(model.Target(kind, number))
    found: dict[str, Any] = {}
    while words.take() is not None:
        read_option(words, is_pipe, found)
    if is_pipe:
        return model.Pipe(number, **found)
    if "pipe" not in found:
        raise LineFault(NEEDS_PIPE, head)
    return model.Queue(number, **found)
