"""The command `hinge check`, which finds faults in configurations, packet files and histories, and advises."""

from __future__ import annotations

import io
import os
import re
import shlex
import sys
from dataclasses import dataclass
from typing import Iterator, NamedTuple, Optional

from hinge.arguments import MODEL_NAMES
from hinge.border.files import MOST_TEXT, read_bytes, untrusted
from hinge.border.terminal import several, show, tell
from hinge.checks.findings import Findings
from hinge.checks.histories import check_history
from hinge.checks.lines import LineCheck
from hinge.checks.rows import RowCheck
from hinge.checks.waits import told_wait
from hinge.command import CONFIGURATION, ROWS, new_parser
from hinge.command_line import add
from hinge.misplaced import FRONT, kind_of_text, line_for
from hinge.plans.sessions import judged
from hinge.run.words import duration
from hingetulip_words.link import Place, corrected, in_full, read_link

WHAT = """\
Says what is wrong with configuration lines, packet files and histories, and what to write: the file, the line, the word
or field as it stands there, and what would be right. The program dummynet is the judge: what it takes has warnings at
most. Packet files are also held against the configuration that is named with them. Of a pipe without queues it also
tells how long a packet waits at most. Behind the file of a net its session, a folder of `hinge net --transcripts` or a
history, is judged by it: each line that wasn't done is told. With --model the files list operations of clients, a line of
JSON each, and those on each key have to take effect one after another, each between its begin and its end; else the
fewest that can't are told. The exit status is that of the first fault, 1 for a history that isn't lawful, a session that
isn't as its file says or operations without an order."""
CUT = re.compile(rb"(?m)^--\r*(?:\n|\Z)")
ROW_MARKS = 8  # commas, semicolons or tabs that a header has at least


def kind_of(path: str, data: bytes) -> str:
    """Returns a file's kind, according to its beginning."""
    if not data:
        return "config"
    kind = kind_of_text(data)
    if kind:
        return kind
    front = data[:FRONT]
    if b"\0" in front:
        return "other"
    first_line = front.lstrip(b"\r\n").split(b"\n")[0]
    has_columns = sum(map(first_line.count, (b",", b";", b"\t"))) >= ROW_MARKS
    return "packets" if has_columns or path.endswith(".csv") else "config"


@dataclass(frozen=True)
class Lines:
    """The lines of a text, read anew each time, so that they need no memory."""

    text: bytes

    def __iter__(self) -> Iterator[bytes]:
        return (line.rstrip(b"\n") for line in io.BytesIO(self.text))


class PacketFile(NamedTuple):
    """A packet file, or the part of a joined input with packets."""

    path: str
    data: bytes
    first_line: int  # the number of the data's first line in the file


class Check:
    """Checks files in their order; packet files come last, against the last configuration."""

    def __init__(self, limit: Optional[int]) -> None:
        """Acts on a net's hosts may be late by at most the limit, in ns; None means the limit in the run."""
        self.findings = Findings()
        self.lines: Optional[LineCheck] = None  # the check of the last configuration
        self.packet_files: list[PacketFile] = []
        self.net = ""  # the file of a net, whose sessions are the arguments behind the file
        self.limit = limit
        self.sessions = 0

    def add_session(self, path: str) -> None:
        """Judges a net's session, which is a folder or a history, by the net's file; shows the result and counts the faults.
        The net's file is the argument before the session, or is in the folder."""
        self.sessions += 1
        judge = judged(path, self.net or None, self.limit)
        for text in judge.lines_told():
            show(text)
        self.findings.faults += len(judge.faults)
        if judge.faults and not self.findings.status:
            self.findings.status = 1

    def add(self, path: str, data: bytes) -> None:
        """Checks a history or a configuration; keeps a packet file or a net's file for later."""
        kind = kind_of(path, data)
        if kind == "net":
            self.net = path
        elif kind == "other":
            self.findings.fault(path, "neither a configuration nor a packet file nor a history, as it isn't text", ROWS)
        elif kind == "history":
            check_history(path, path, data, self.findings)
        elif kind == "packets":
            self.packet_files.append(PacketFile(path, data, 1))
        elif kind == "config":
            self.add_configuration(path, data)
        else:
            self.findings.fault(path, line_for("check", kind, path), ROWS)

    def add_configuration(self, path: str, data: bytes) -> None:
        """Checks a configuration, or a joined input with packets after a line `--`."""
        cut = CUT.search(data)
        lines = data[: cut.start()] if cut else data
        self.lines = LineCheck(path, Lines(lines), self.findings)
        self.lines.check()
        if cut:
            self.packet_files.append(PacketFile(path, data[cut.end() :], lines.count(b"\n") + 2))

    def finish(self) -> None:
        """Checks the packet files, and refuses a net without a session."""
        if self.net and not self.sessions:
            self.findings.fault(self.net, f"a net, not a configuration; `hinge net {self.net} --dry-run` checks it", CONFIGURATION)
        in_force = self.lines.in_force if self.lines else None
        config = self.lines.name if self.lines else ""
        for file in self.packet_files:
            with untrusted(file.path):
                RowCheck(file.path, file.data, self.findings, config, in_force, file.first_line).check()

    def tell_waits(self) -> None:
        """Prints the longest waiting times under the last configuration, if there are no faults."""
        if self.lines and not self.findings.faults:
            for text in told_wait(self.lines.in_force):
                tell(f"{self.lines.name}: {text}")

    def tell_counts(self) -> None:
        """Prints the numbers of faults and warnings."""
        faults = self.findings.faults
        warnings = self.findings.warnings
        if faults or warnings:
            tell(f"{several(faults, 'fault')}, {several(warnings, 'warning')}")
        else:
            tell("nothing to say")


def check_of_text(text: str) -> str:
    """Returns the command that checks a configuration line, a net's line or link words that were typed in place of a file; an empty
    text for other words."""
    kind = kind_of_text(text.encode(errors="replace"))
    link = corrected(text, Place.DUMMYNET)
    line = f"pipe 1 config {in_full(read_link(link))}" if link else text
    if kind == "net":
        command = "net --dry-run"
    elif link or kind == "config":
        command = "check"
    else:
        return ""
    return f"printf '%s\\n' {shlex.quote(line)} | hinge {command} /dev/stdin"


def main() -> None:
    parser = new_parser(
        WHAT,
        "hinge check link.config packets.csv\n  python3 client.py > ops.jsonl && hinge check ops.jsonl --model register",
        "0 no fault, 1 a history that isn't lawful, or operations without an order, 3 a configuration, 4 rows or operations",
    )
    add(parser, "files FILE", "configurations, packet files, joined inputs, histories; a net and its session", nargs="+")
    parser.add_argument("--late", metavar="TIME", help="how late acts on a net's hosts may be (as the run's, or 50ms)")
    parser.add_argument("--model", choices=MODEL_NAMES, help="judge operations on such a thing")
    parser.yields("--late", "--model")
    options = parser.parse_args()
    check = Check(None if options.late is None else duration(options.late, "--late"))
    for path in options.files:
        right = "" if os.path.exists(path) else check_of_text(" ".join(options.files))
        if right:
            parser.error(f"it reads files: {right}")
        if options.model:
            from hinge.checks.orders import check_operations

            check_operations(path, read_bytes(path, MOST_TEXT), options.model, check.findings)
        else:
            check_file(check, path)
    check.finish()
    check.tell_waits()
    if not options.model:
        check.tell_counts()
    sys.stdout.flush()
    sys.exit(check.findings.status)


def check_file(check: Check, path: str) -> None:
    """Adds a file, a net's session or a net's folder to a check."""
    with untrusted(path, CONFIGURATION):
        if os.path.isdir(path):
            check.add_session(path)
            return
        data = read_bytes(path, MOST_TEXT)
        if check.net and kind_of(path, data) == "history":
            check.add_session(path)
        else:
            check.add(path, data)
