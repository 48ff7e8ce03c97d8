"""The reader of histories and transcripts, and the writer of replies' records."""

from typing import NamedTuple

from commands import FIELDS, NotCanonical, command
from values import Data, Value, data, items, record

RULES = {"dummynet-history,2": "Free", "dummynet-history,3": "Ordered", "dummynet-live,1": "Ordered"}
WORDS = {
    "Configured": "configured",
    "NoSuchPipe": "no-such-pipe",
    "Deleted": "deleted",
    "PipeHasQueues": "pipe-has-queues",
    "NoSuchQueue": "no-such-queue",
    "Exhausted": "exhausted",
    "Queued": "queued",
    "Lost": "lost",
    "Full": "full",
    "NoTarget": "no-target",
    "Advanced": "advanced",
}
COUNTS = ("queued", "bytes", "lost", "full", "started", "discarded")
DELIVERY = ("packet", "flow", "start", "due")


class BadRecord(Exception):
    """A text that isn't a whole history as the program writes one."""


class Entry(NamedTuple):
    """The record of a call, and those of its reply."""

    call: str
    reply: list[str]


class History(NamedTuple):
    """The name of the rule, and the entries, oldest first."""

    rule: str
    entries: list[Entry]


def read_history(text: str) -> History:
    """The entries of a whole history. Remarks are passed over."""
    lines = [line for line in text.splitlines() if line and not line.startswith("#")]
    if not lines or lines[0] not in RULES:
        raise BadRecord(f"the first record is none of {', '.join(RULES)}")
    entries: list[Entry] = []
    for line in lines[1:-1]:
        if line.startswith("c,"):
            entries.append(Entry(line, []))
        elif entries:
            entries[-1].reply.append(line)
        else:
            raise BadRecord(f"a reply before the first call: {line}")
    if lines[-1] != f"end,{len(entries)}":
        raise BadRecord(f"the last record isn't end,{len(entries)}")
    return History(RULES[lines[0]], entries)


def address(text: str) -> int:
    parts = [int(part) for part in text.split(".")]
    if len(parts) != 4 or not all(0 <= part < 256 for part in parts):
        raise BadRecord(f"no address: {text}")
    return int.from_bytes(parts, "big")


def dotted(number: Value) -> str:
    assert isinstance(number, int)
    return ".".join(map(str, number.to_bytes(4, "big")))


def call_of(line: str) -> Value:
    try:
        _, _, kind, *fields = line.split(",", 3) if line.split(",")[2:3] == ["configure"] else line.split(",")
        if kind == "configure":
            return data("Call.Configure", command(*fields))
        if kind == "submit":
            return submit(*fields)
        if kind in ("advance", "collect"):
            (moment,) = map(int, fields)
            return data(f"Call.{kind.capitalize()}", moment)
        if kind == "show" and not fields:
            return data("Call.Show")
    except (KeyError, NotCanonical, TypeError, ValueError) as fault:
        raise BadRecord(f"{line}: {fault}") from fault
    raise BadRecord(line)


def submit(kind: str, number: str, src: str, dst: str, *rest: str) -> Value:
    proto, sport, dport, length, word, moment = map(int, rest)
    target = data({"pipe": "Target.Pipe", "queue": "Target.Queue"}[kind], int(number))
    five_tuple = record({"src": address(src), "dst": address(dst), "proto": proto, "sport": sport, "dport": dport})
    return data("Call.Submit", target, record({"tuple": five_tuple, "len": length, "word": word}), moment)


def caller_of(line: str) -> int:
    return int(line.split(",")[1])


def joined(*fields: object) -> str:
    return ",".join(map(str, fields))


def five(of: Value) -> list[object]:
    """Returns the five fields of a tuple or mask, in the order of records."""
    assert isinstance(of, Data)
    return [dotted(of[name]) if name in ("src", "dst") else of[name] for name in FIELDS]


def status(of: Value) -> str:
    assert isinstance(of, Data)
    key = of["key"]
    assert isinstance(key, Data) and isinstance(key["target"], Data)
    target = key["target"]
    kind = str(target.constructor).removeprefix("Target.").lower()
    fives = [*five(key["mask"]), *five(key["tuple"])]
    return joined("f", of["flow"], kind, target.parts[0], key["pipe"], *fives, *map(of.__getitem__, COUNTS))


def delivery(of: Value) -> str:
    assert isinstance(of, Data)
    return joined("d", *map(of.__getitem__, DELIVERY))


def reply_records(reply: Value) -> list[str]:
    assert isinstance(reply, Data)
    kind = str(reply.constructor).removeprefix("Reply.")
    if kind == "Delivered":
        rows = [delivery(row) for row in items(reply.parts[1])]
        return [joined("r,delivered", reply.parts[0], len(rows)), *rows]
    if kind == "Status":
        rows = [status(row) for row in items(reply.parts[0])]
        return [joined("r,status", len(rows)), *rows]
    return [joined("r", WORDS[kind], *reply.parts)]
