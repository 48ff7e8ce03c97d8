"""A session of `dummynet live`, for hosts that are written in Python: lines go to it, and its answers come back.

    with Session(program()) as session:
        session.configure("pipe 1 config bw 8Mbit/s delay 20")
        queued, wake = session.ask(["c,0,submit,pipe,1,10.0.0.1,10.0.0.2,17,1000,2000,1000,0,0", "next"])

Standard library alone. docs/LIVE.md says what a session answers.
"""

from __future__ import annotations

import io
import os
import select
import shutil
import subprocess
from pathlib import Path
from types import TracebackType
from typing import Iterable, Iterator, NamedTuple, Optional

BEGUN = b"dummynet-live,1\n"
MOST = 250_000_000  # bytes of a transcript; an audit reads at most 268,435,456
LISTS = ("delivered", "status")  # the replies that end in a count of items


class Failed(Exception):
    """The session can't go on, and why."""


class BadLine(Exception):
    """A line that is no call, or a configuration that was refused, and why."""


class Answer(NamedTuple):
    """What came back for a line: of a call the outcome, the numbers behind it, and the fields of each item; of `next` the moment
    as its one number, in ns, or none."""

    outcome: str
    numbers: list[int]
    items: list[list[str]]


def program() -> str:
    """DUMMYNET where it is set, the program on the path, or the one of this repository."""
    return os.environ.get("DUMMYNET") or shutil.which("dummynet") or str(Path(__file__).resolve().parents[2] / "dummynet")


def pieces(lines: Iterable[str]) -> Iterator[list[bytes]]:
    """Lines in pieces that any pipe holds. A host that writes more before it reads can wait for ever: the session waits for room
    for its answers, and the host for room for its lines."""
    piece: list[bytes] = []
    room = select.PIPE_BUF
    for line in (text.encode() + b"\n" for text in lines):
        if piece and len(line) > room:
            yield piece
            piece, room = [], select.PIPE_BUF
        piece.append(line)
        room -= len(line)
    if piece:
        yield piece


class Session:
    def __init__(self, words: str, transcript: Optional[str] = None, most: int = MOST) -> None:
        """Begins a session, and keeps all that the program writes in the file of that name, if there is one."""
        self.words = words
        self.name = transcript
        self.most = most
        self.rolled = 0
        self.links: list[str] = []
        self.begin(transcript)

    def begin(self, transcript: Optional[str]) -> None:
        """In a process group of its own, so that a ^C on the terminal is for the host alone, which then ends the session."""
        self.transcript = open(transcript, "wb") if transcript else None
        self.process = subprocess.Popen(
            [self.words, "live"], stdin=subprocess.PIPE, stdout=subprocess.PIPE, bufsize=0, start_new_session=True
        )
        assert self.process.stdin and self.process.stdout
        self.lines = self.process.stdin  # type: ignore[type-var]
        self.answers = io.BufferedReader(self.process.stdout)  # type: ignore[type-var]
        if self.record() != BEGUN:
            raise Failed(f"{self.words} live doesn't begin a session")

    def record(self) -> bytes:
        text: bytes = self.answers.readline()
        if not text.endswith(b"\n"):
            raise Failed(f"the session ended with status {self.process.wait()}")
        if self.transcript:
            self.transcript.write(text)
        return text

    def fields(self) -> list[str]:
        return self.record()[:-1].decode().split(",")

    def answer(self) -> Answer:
        """The next answer: a remark, or the record of the call, that of its reply and its items."""
        mark, *rest = self.fields()
        if mark == "#" and rest[0] == "bad":
            raise BadLine(rest[3] if rest[2] == "1" else f"field {rest[2]}: {rest[3]}")
        if mark == "#":
            return Answer(rest[0], [int(number) for number in rest[1:]], [])
        _, outcome, *numbers = self.fields()
        return Answer(
            outcome,
            [int(number) for number in numbers],
            [self.fields()[1:] for _ in range(int(numbers[-1]))] if outcome in LISTS else [],
        )

    def ask(self, lines: Iterable[str]) -> list[Answer]:
        """The answers of lines, as many as there are lines: none of them may be empty or a comment, which have no answer."""
        found: list[Answer] = []
        for piece in pieces(lines):
            self.lines.write(b"".join(piece))
            found += [self.answer() for _ in piece]
        return found

    def configure(self, line: str) -> None:
        """A configuration line as it is typed; nothing where it has no words. The blank before it makes one of each: `next` and
        calls have other answers."""
        if "\n" in line:
            raise BadLine("more than one line")
        if text := line.partition("#")[0].strip(" \t\r"):
            [answer] = self.ask([f" {text}"])
            if answer.outcome not in ("configured", "deleted"):
                raise BadLine(answer.outcome.replace("-", " "))
            self.links.append(text)

    def quiet(self) -> None:
        """To be called where nothing waits and nothing is under way: where the transcript is long, ends the session, and goes on
        in another one with the same links, and a file with a number behind its name. Packets count from 0 again."""
        if self.transcript and self.transcript.tell() > self.most:
            if status := self.close():
                raise Failed(f"the session ended with status {status}")
            self.rolled += 1
            links, self.links = self.links, []
            self.begin(f"{self.name}.{self.rolled}")
            for link in links:
                self.configure(link)

    def close(self) -> int:
        """Ends the session, keeps what it still says, and answers the program's status."""
        self.lines.close()
        rest = self.answers.read()
        if self.transcript:
            self.transcript.write(rest)
            self.transcript.close()
        return self.process.wait()

    def __enter__(self) -> Session:
        return self

    def __exit__(self, kind: Optional[type[BaseException]], fault: Optional[BaseException], trace: Optional[TracebackType]) -> None:
        if self.process.poll() is None:
            self.close()
