"""The program `dummynet` by the independent reference.

    python3 tools/oracle/program.py < JOINED
    python3 tools/oracle/program.py replay CONFIG PACKETS [--callers N] [--history FILE]
    python3 tools/oracle/program.py audit HISTORY
"""

import sys
from dataclasses import dataclass, field
from pathlib import Path
from typing import BinaryIO, Callable, Optional

from fast import FastDummynet
from files import LIMITS, ReplayFault, read_line, read_packets, refused_line, report, split_joined, split_lines
from history import history_text
from history_reader import audit_line
from model import MAX_MOMENT, ORDERED, Bare, Collect, Configure, Entry


@dataclass(frozen=True)
class Outcome:
    """The program's output, status, and files."""

    stdout: bytes
    stderr: bytes
    status: int
    files: dict[str, bytes] = field(default_factory=dict)


def read_whole(file: BinaryIO, source: str) -> bytes:
    """All bytes up to the limit of the source; one byte more is too long."""
    try:
        data = file.read(LIMITS[source] + 1)
    except OSError:
        raise ReplayFault(f"cannot read {source}", 6) from None
    if len(data) > LIMITS[source]:
        raise ReplayFault(f"{source} too long", 6)
    return data


def open_for_reading(path: Path, source: str) -> BinaryIO:
    try:
        return open(path, "rb")
    except OSError:
        raise ReplayFault(f"cannot read {source}", 6) from None


def configured(net: FastDummynet, config: bytes) -> list[Entry]:
    """Applies the lines one by one: text, grammar, application; returns the entries."""
    entries: list[Entry] = []
    for number, line in enumerate(split_lines(config), 1):
        command = read_line(number, line)
        if command is None:
            continue
        reply = net.apply(Configure(command))
        if reply not in (Bare.CONFIGURED, Bare.DELETED):
            raise refused_line(number, reply)
        entries.append(Entry(0, Configure(command), reply))
    return entries


def replay_over(config: bytes, packets: Callable[[], bytes]) -> list[Entry]:
    """Returns the history of a replay. The packets are read if the configuration is correct."""
    net = FastDummynet()
    entries = configured(net, config)
    return entries + [Entry(0, call, net.apply(call)) for call in [*read_packets(packets()), Collect(MAX_MOMENT)]]


def replay_joined(stdin: BinaryIO) -> list[Entry]:
    config, packets = split_joined(read_whole(stdin, "input"))
    return replay_over(config, lambda: packets)


def replay_files(config: Path, packets: Path) -> list[Entry]:
    """Both files are opened before either is read."""
    with open_for_reading(config, "config") as first, open_for_reading(packets, "packets") as second:
        return replay_over(read_whole(first, "config"), lambda: read_whole(second, "packets"))


def reported(history: list[Entry], folder: Path, file: Optional[str]) -> Outcome:
    """Returns the report, and then the history's file if requested. Its folder may be missing."""
    text = report(history).encode()
    if file is None:
        return Outcome(text, b"", 0)
    if not (folder / file).parent.is_dir():
        return Outcome(text, b"cannot write history\n", 6)
    calls = [(e.caller, e.call) for e in history]
    return Outcome(text, b"", 0, {file: history_text(ORDERED, calls, [e.reply for e in history]).encode()})


def audited(path: Path) -> Outcome:
    """The verdict on the history in a file."""
    with open_for_reading(path, "history") as file:
        line, status = audit_line(read_whole(file, "history"))
    return Outcome(f"{line}\n".encode(), b"", status)


def asked(words: list[str]) -> tuple[list[str], Optional[str]]:
    """Returns a replay's two files, and its history's file if requested. How many callers there are changes nothing."""
    paths, file, rest = list[str](), None, iter(words[1:])
    for word in rest:
        if word == "--history":
            file = next(rest)
        elif word == "--callers":
            next(rest)
        else:
            paths.append(word)
    return paths, file


def replayed(words: list[str], stdin: BinaryIO, folder: Path) -> Outcome:
    """Returns the report of a replay of two files, or of a joined input if there are no words."""
    if not words:
        return reported(replay_joined(stdin), folder, None)
    (config, packets), file = asked(words)
    return reported(replay_files(folder / config, folder / packets), folder, file)


def outcome(words: list[str], stdin: BinaryIO, folder: Path) -> Outcome:
    """Returns the program's outcome for this command line, which has to be a right one, in this folder."""
    try:
        return audited(folder / words[1]) if words[:1] == ["audit"] else replayed(words, stdin, folder)
    except ReplayFault as fault:
        return Outcome(b"", f"{fault.line}\n".encode(), fault.status)


if __name__ == "__main__":
    done = outcome(sys.argv[1:], sys.stdin.buffer, Path())
    sys.stdout.buffer.write(done.stdout)
    sys.stderr.buffer.write(done.stderr)
    for name, data in done.files.items():
        Path(name).write_bytes(data)
    sys.exit(done.status)
