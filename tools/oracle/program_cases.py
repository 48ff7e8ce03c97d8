"""The program's cases, each with the expected output and status from the independent reference.

The fixed cases are the same for every seed. COUNT random ones follow, of four kinds in turn: joined inputs, two files,
faulty configurations and faulty packet files, then a quarter as many that ask for the history, half of these by a service of
one caller, and half as many audits of histories. `tools/gate/cases.py` runs a program over them.
"""

from collections.abc import Iterator
from dataclasses import dataclass, field
from io import BytesIO
from pathlib import Path
from random import Random
from tempfile import TemporaryDirectory
from typing import Optional

from broken import bad_line, damaged_record, random_words_line
from files import PACKET_HEADER
from fixed_cases import AUDITS, JOINED, REPLAYS
from history import tuple_text
from model import Command, Delete, Queue, Submit, Target
from printing import command_text
from program import Outcome, outcome
from random_histories import random_history
from scenarios import STYLES, Style, first_commands, random_rows
from spelling import spell

REFUSED_LINES = b"queue 1 config pipe 4444|pipe 4444 delete|queue delete 4444|pipe delete 1|pipe 1 delete|queue 1 delete".split(
    b"|"
)
LINES_NOT_TEXT = (
    b"pipe 1 config \xff",
    b"# \xc3\x28",
    b"\xed\xa0\x80",
    b"pipe 1 config # \xf8\x88\x80\x80\x80",
    b"\xc0\xaf",
    b"\xef\xbb\xbfpipe 1 config",
)


@dataclass(frozen=True)
class Case:
    """A command line, its standard input, its files, and the expected behaviour."""

    name: str
    words: list[str]
    wanted: Outcome
    stdin: bytes = b""
    files: dict[str, bytes] = field(default_factory=dict)


def case(name: str, words: list[str], stdin: Optional[bytes] = None, files: Optional[dict[str, bytes]] = None) -> Case:
    with TemporaryDirectory() as place:
        for file, data in (files or {}).items():
            Path(place, file).write_bytes(data)
        return Case(name, words, outcome(words, BytesIO(stdin or b""), Path(place)), stdin or b"", files or {})


# ---- Texts -------------------------------------------------------------------------------------------------------


def row_fields(r: Submit) -> list[str]:
    p = r.packet
    return f"{r.moment},{r.target.kind},{r.target.number},{tuple_text(p.tuple)},{p.len},{p.word}".split(",")


def packet_text(rng: Random, rows: list[Submit], plain: bool) -> bytes:
    """The file of these rows; where not plain, with line ends, quotes, empty lines and a mark that change nothing."""
    end = "\n" if plain else rng.choice(("\n", "\n", "\r\n", "\r"))
    quotes = 0.0 if plain else rng.choice((0.0, 0.0, 0.1, 1.0))

    def field(text: str) -> str:
        return f'"{text}"' if rng.random() < quotes else text

    lines = [",".join(map(field, fields)) for fields in [PACKET_HEADER.split(",")] + [row_fields(r) for r in rows]]
    if not plain:
        for _ in range(rng.choice((0, 0, 0, 1, 3))):
            lines.insert(rng.randint(0, len(lines)), "")
    text = end.join(lines) + (end if plain or rng.random() < 0.8 else "")
    if not plain and rng.random() < 0.1:
        text = "\ufeff" + text
    return text.encode()


def config_text(rng: Random, commands: list[Command], plain: bool) -> bytes:
    """The lines of these commands; where not plain, in many spellings and with lines that have no command."""
    lines = [command_text(c) if plain else spell(rng, c) for c in commands]
    if not plain:
        for _ in range(rng.choice((0, 0, 1, 2))):
            lines.insert(rng.randint(0, len(lines)), rng.choice(("", "# note", "  ", "#", "\t# caf\u00e9", "\r")))
    return ("\n".join(lines) + ("\n" if plain or rng.random() < 0.7 else "")).encode()


def with_deletes(rng: Random, commands: list[Command]) -> list[Command]:
    """Some deletes that are accepted, and some lines again after them."""
    found = list(commands)
    for c in rng.sample(commands, min(2, len(commands))):
        if isinstance(c, Queue):
            found.append(Delete(Target("queue", c.number)))
            if rng.random() < 0.5:
                found.append(c)
        elif not any(isinstance(q, Queue) and q.pipe == c.number for q in commands):
            found.append(Delete(Target("pipe", c.number)))
    return found


def ended(config: bytes) -> bytes:
    """The configuration with a line feed after its last line."""
    return config if not config or config.endswith(b"\n") else config + b"\n"


# ---- Kinds of random cases ---------------------------------------------------------------------------------------


def replay_input(rng: Random, style: Style) -> tuple[bytes, bytes]:
    plain = rng.random() < 0.3
    commands = first_commands(rng, style)
    if rng.random() < 0.15:
        commands = with_deletes(rng, commands)
    rows = random_rows(rng, style, rng.choice((0, 1, 5, 20, 20, 60, 60, 120)))
    return config_text(rng, commands, plain), packet_text(rng, rows, plain)


def joined_case(rng: Random, name: str, style: Style) -> Case:
    config, packets = replay_input(rng, style)
    return case(name, [], ended(config) + rng.choice((b"--\n", b"--\n", b"--\r\n")) + packets)


def replay_case(rng: Random, name: str, style: Style) -> Case:
    config, packets = replay_input(rng, style)
    return case(name, ["replay", "config", "packets"], None, {"config": config, "packets": packets})


def either(rng: Random, name: str, config: bytes, packets: bytes) -> Case:
    """A joined input or two files."""
    if rng.random() < 0.5:
        return case(name, [], ended(config) + b"--\n" + packets)
    return case(name, ["replay", "c.txt", "p.csv"], None, {"c.txt": config, "p.csv": packets})


def faulty_line(rng: Random, style: Style) -> bytes:
    kind = rng.randrange(7)
    if kind == 0:
        return rng.choice(REFUSED_LINES)
    if kind == 1:
        return rng.choice(LINES_NOT_TEXT)
    return (random_words_line(rng) if kind < 4 else bad_line(rng, style)).encode()


def config_case(rng: Random, name: str, style: Style) -> Case:
    """Mostly a faulty configuration; the packets may be faulty too, which is not reached then."""
    lines = [spell(rng, c).encode() for c in first_commands(rng, style)]
    for _ in range(rng.choice((1, 1, 2))):
        bad = faulty_line(rng, style)
        if bad.rstrip(b"\r") != b"--":
            lines.insert(rng.randint(0, len(lines)), bad)
    packets = packet_text(rng, random_rows(rng, style, 3), True)
    if rng.random() < 0.2:
        packets = packets.replace(b"moment", b"moments")
    return either(rng, name, b"\n".join(lines) + rng.choice((b"", b"\n", b"\n\n")), packets)


def packets_case(rng: Random, name: str, style: Style) -> Case:
    """Mostly a faulty packet file."""
    config = config_text(rng, first_commands(rng, style), True)
    lines = packet_text(rng, random_rows(rng, style, rng.randint(1, 8)), True).split(b"\n")
    for _ in range(rng.choice((1, 1, 2))):
        at = 0 if rng.random() < 0.1 else rng.randrange(len(lines))
        lines[at] = damaged_record(rng, lines[at])
    data = b"\n".join(lines)
    if rng.random() < 0.2:
        data = data.replace(b"\n", rng.choice((b"\r\n", b"\r", b"\n\n", b"\n\r\n")))
    return either(rng, name, config, data)


def history_case(rng: Random, name: str, style: Style) -> Case:
    """A replay that writes its history: to a new file, over an older one, or to a folder that isn't there."""
    config, packets = replay_input(rng, style)
    files = {"config": config, "packets": packets}
    if rng.random() < 0.2:
        files["packets"] = packets.replace(b"moment", b"moments")
    if rng.random() < 0.4:
        files["history"] = b"dummynet-history,3\nend,0\n" * rng.choice((1, 1000))
    file = "no/history" if rng.random() < 0.1 else "history"
    callers = ["--callers", "1"] if rng.random() < 0.5 else []
    return case(name, ["replay", *callers, "config", "packets", "--history", file], None, files)


def audit_case(rng: Random, name: str, style: Style) -> Case:
    return case(name, ["audit", "history"], None, {"history": random_history(rng, style)})


KINDS = (("joined", joined_case), ("replay", replay_case), ("config", config_case), ("packets", packets_case))


def fixed() -> Iterator[Case]:
    for name, text in JOINED.items():
        yield case(f"fixed-{name}", [], text.encode())
    for name, (words, files) in REPLAYS.items():
        yield case(f"fixed-{name}", ["replay", *words], None, files)
    for name, text in AUDITS.items():
        yield case(f"fixed-audit-{name}", ["audit", "h"], None, {"h": text.encode()})


def cases(seed: str, count: int) -> Iterator[Case]:
    yield from fixed()
    rng = Random(int(seed))
    for i in range(count):
        kind, make = KINDS[i % len(KINDS)]
        yield make(rng, f"{kind}-{i:05}", rng.choice(STYLES))
    for i in range(count // 4):
        yield history_case(rng, f"history-{i:05}", rng.choice(STYLES))
    for i in range(count // 2):
        yield audit_case(rng, f"audit-{i:05}", rng.choice(STYLES))
