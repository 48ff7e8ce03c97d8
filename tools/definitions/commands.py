"""The reader of a command's line in its canonical form, as in histories."""

import re

from values import NONE, Data, Value, data, record, some

FIELDS = ("src", "dst", "proto", "sport", "dport")
MASKS = {"src-ip": "src", "dst-ip": "dst", "proto": "proto", "src-port": "sport", "dst-port": "dport"}
ALL = {"src": 2**32 - 1, "dst": 2**32 - 1, "proto": 2**8 - 1, "sport": 2**16 - 1, "dport": 2**16 - 1}
LINE = re.compile(
    r"(?P<kind>pipe|queue) (?:delete (?P<gone>\d+)|(?P<number>\d+) config(?: pipe (?P<pipe>\d+))?"
    r"(?: bw (?P<bw>\d+)bit/s)?(?: delay (?P<delay>\d+))?(?: weight (?P<weight>\d+))?"
    r"(?: queue (?P<limit>\d+)(?P<unit>Kbytes)?)?(?: plr (?P<plr>[\d.]+))?"
    r"(?: buckets (?P<buckets>\d+))?(?: mask (?P<mask>.*))?)"
)
DIGITS = 18  # of a loss rate, behind its point
UNIT: int = 10**DIGITS


class NotCanonical(Exception):
    """A text that is no command in its canonical form."""


def loss(text: str) -> int:
    """The parts of 2^31 that a loss rate is, rounded down."""
    whole, _, behind = text.partition(".")
    if len(behind) > DIGITS:
        raise NotCanonical(text)
    return int(whole + behind.ljust(DIGITS, "0")) * 2**31 // UNIT


def mask(text: str) -> Data:
    bits = dict.fromkeys(FIELDS, 0)
    words = text.split()
    if words == ["all"]:
        bits = ALL
    else:
        for name, value in zip(words[::2], words[1::2], strict=True):
            bits[MASKS[name]] = int(value, 16)
    return record({**bits})


def command(text: str) -> Value:
    found = LINE.fullmatch(text)
    if found is None:
        raise NotCanonical(text)
    is_pipe, given = found["kind"] == "pipe", found.groupdict()
    if given["gone"]:
        return data("Command.DeletePipe" if is_pipe else "Command.DeleteQueue", int(given["gone"]))

    def number(name: str, default: int) -> int:
        return int(given[name] or default)

    limit = data("Limit.Kbytes" if given["unit"] else "Limit.Slots", number("limit", 50))
    buckets = some(int(given["buckets"])) if given["buckets"] else NONE
    rest = (limit, loss(given["plr"] or "0"), buckets, mask(given["mask"] or ""))
    if is_pipe:
        return data("Command.Pipe", number("number", 0), number("bw", 0), number("delay", 0), *rest)
    return data("Command.Queue", number("number", 0), number("pipe", 0), number("weight", 1), *rest)
