"""Random history files in all versions: valid files, files with a changed reply or entry, and broken files.

All is a function of the random.Random that is handed in.
"""

from random import Random

from broken import damaged_record
from fast import run
from history import call_text, reply_lines
from model import FREE, MAX_U64, ORDERED, Call, Configure
from scenarios import Style, random_calls
from spelling import spell

# fmt: off
FIRST_RECORDS = (
    b"dummynet-history,1", b"dummynet-history,2", b"dummynet-history,3", b"dummynet-history,4", b"dummynet-history,03",
    b"dummynet-history", b"dummynet-live,1", b"dummynet-live,2", b"dummynet-live", b"dummynet-history,3,",
    b"Dummynet-history,3", b"",
)
# fmt: on
FURTHER_RECORDS = (b"#", b"#,next,7", b"", b"c,0,show", b"r,configured", b"d,0,0,0,0", b"x", b'""', b"end,0", b" ")
REMARKS = ("#", "#,next,7", "#,bad,3,1,word 1: unknown word", '"#",x')
OTHER_NAMES = {
    b"configured": (b"no-such-pipe", b"deleted", b"exhausted"),
    b"no-such-pipe": (b"configured", b"no-such-queue"),
    b"no-such-queue": (b"no-such-pipe",),
    b"deleted": (b"configured", b"pipe-has-queues"),
    b"pipe-has-queues": (b"deleted",),
    b"queued": (b"delivered", b"lost"),
    b"lost": (b"full",),
    b"full": (b"lost",),
    b"no-target": (b"advanced",),
    b"advanced": (b"no-target",),
    b"pipe": (b"queue",),
    b"queue": (b"pipe",),
}


def quoted(text: str) -> str:
    """Returns the field, quoted if necessary."""
    return '"' + text.replace('"', '""') + '"' if any(c in text for c in ',"\r\n') else text


def call_record(rng: Random, caller: int, c: Call, plain: bool) -> str:
    """The record of a call; where not plain, some commands in another spelling."""
    if isinstance(c, Configure) and not plain and rng.random() < 0.5:
        return f"c,{caller},configure,{quoted(spell(rng, c.command))}"
    return call_text(caller, c)


def remarks(rng: Random) -> list[str]:
    """Returns remarks that may occur between a transcript's entries."""
    return [rng.choice(REMARKS) for _ in range(rng.choice((0, 0, 0, 1, 1, 3)))]


def lawful_history(rng: Random, style: Style) -> list[bytes]:
    """Returns the records of a lawful history, or of a live session's transcript."""
    version = rng.choice((1, 2, 3, 3))
    count = rng.choice((3, 20, 40, 40, 80))
    calls = random_calls(rng, style, count, rng.randint(1, 16), version > 1 and rng.random() < 0.7)
    rule = ORDERED if version == 3 else FREE
    replies = run([c for _, c in calls], rule)
    plain = rng.random() < 0.6
    live = version == 3 and rng.random() < 0.3
    lines = ["dummynet-live,1" if live else f"dummynet-history,{version}"]
    for (caller, call), reply in zip(calls, replies):
        lines += [*(remarks(rng) if live else ()), call_record(rng, caller, call, plain), *reply_lines(reply, version)]
    return [line.encode() for line in [*lines, *(remarks(rng) if live else ()), f"end,{len(calls)}"]]


def other_number(rng: Random, value: int) -> int:
    return rng.choice((value + 1, value + 1, max(value - 1, 0), 0, MAX_U64, MAX_U64 + 1, value * 10 + 7))


def other_reply(rng: Random, record: bytes) -> bytes:
    """The record of a reply or an item with one field changed, mostly well-formed."""
    fields = record.split(b",")
    numbers = [i for i, x in enumerate(fields) if x.isdigit()]
    names = [i for i, x in enumerate(fields) if x in OTHER_NAMES]
    if numbers and (not names or rng.random() < 0.85):
        at = rng.choice(numbers)
        fields[at] = str(other_number(rng, int(fields[at]))).encode()
    elif names:
        fields[names[0]] = rng.choice(OTHER_NAMES[fields[names[0]]])
    return b",".join(fields)


def other_entries(rng: Random, records: list[bytes]) -> list[bytes]:
    """A well-formed history with one entry dropped, doubled or moved."""
    starts = [i for i, x in enumerate(records) if x.startswith(b"c,")] + [len(records) - 1]
    entries = [records[a:b] for a, b in zip(starts, starts[1:])]
    at = rng.randrange(len(entries))
    what = rng.randrange(3)
    entry = entries[at] if what == 1 else entries.pop(at)
    if what > 0:
        entries.insert(rng.randint(0, len(entries)), entry)
    return [records[0], *(x for e in entries for x in e), b"end,%d" % len(entries)]


def changed_history(rng: Random, records: list[bytes]) -> list[bytes]:
    """Returns the records with one record or entry changed."""
    kind = rng.choice(("reply",) * 6 + ("record", "record", "version", "entries"))
    if kind == "version":
        return [rng.choice(FIRST_RECORDS), *records[1:]]
    if kind == "entries":
        return other_entries(rng, records)
    replies = [i for i, x in enumerate(records) if x[:2] in (b"r,", b"d,", b"f,")]
    at = rng.choice(replies) if kind == "reply" else rng.randrange(len(records))
    change = other_reply if kind == "reply" else damaged_record
    changed = [*records[:at], change(rng, records[at]), *records[at + 1 :]]
    if kind == "record" and rng.random() < 0.15:
        changed.insert(rng.randrange(len(changed)), rng.choice(FURTHER_RECORDS))
    return changed


def random_history(rng: Random, style: Style) -> bytes:
    """A history file, half of them with a change, some cut short."""
    records = lawful_history(rng, style)
    if rng.random() < 0.5:
        records = changed_history(rng, records)
    end = rng.choice((b"\n",) * 8 + (b"\r\n", b"\r"))
    data = b"".join(record + end for record in records)
    if rng.random() < 0.05:
        data = "\ufeff".encode() + data
    return data[: rng.randrange(len(data))] if rng.random() < 0.05 else data
