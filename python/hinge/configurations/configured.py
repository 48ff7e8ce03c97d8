"""Configuration lines as the program reads them. Only the program decides a line's meaning, spelling, and errors."""

from __future__ import annotations

from dataclasses import dataclass
from fractions import Fraction
from typing import Iterable, Optional, Union

from hinge.border.files import read_text
from hinge.border.scratch import scratch
from hinge.command import CONFIGURATION, Fault
from hinge.program import asked_of_dummynet

LOSS_PARTS = 2**31


class LineFault(Fault):
    """Raised with the place of the first line that the program refuses, as in `config line 3, word 5: bad number`."""

    status = CONFIGURATION


@dataclass(frozen=True)
class Limit:
    """Describes how many packets or kilobytes a queue can hold; the other field is None."""

    slots: Optional[int]
    kbytes: Optional[int]


@dataclass(frozen=True)
class Pipe:
    """Describes the setting of a pipe."""

    number: int
    bw: int  # bit/s; 0 for no limit
    delay: int  # ms
    limit: Limit
    loss: int  # the rate times LOSS_PARTS


@dataclass(frozen=True)
class Queue:
    """Describes the setting of a queue, which shares a pipe with other queues."""

    number: int
    pipe: int  # the number of the pipe
    weight: int  # the queue's share of the pipe, relative to other queues
    limit: Limit
    loss: int  # the rate times LOSS_PARTS


Setting = Union[Pipe, Queue]


RECORD = "c,0,configure,"  # how a history's record of a configuration line begins


def setting_of(text: str) -> tuple[str, int, Optional[Setting]]:
    """Returns the content of a configuration line in the program's spelling: `pipe` or `queue`, the number, and the setting; None
    as the setting for a delete."""
    words = text.split()
    if words[1] == "delete":
        return words[0], int(words[2]), None
    number = int(words[1])
    values = dict(zip(words[3:], words[4:]))
    limit = limit_of(values.get("queue", "50"))
    loss = int(Fraction(values.get("plr", "0")) * LOSS_PARTS)  # the whole part, as the program keeps it
    if words[0] == "pipe":
        bandwidth = int(values.get("bw", "0bit/s").removesuffix("bit/s"))
        return "pipe", number, Pipe(number, bandwidth, int(values.get("delay", 0)), limit, loss)
    return "queue", number, Queue(number, int(values["pipe"]), int(values.get("weight", 1)), limit, loss)


def limit_of(text: str) -> Limit:
    """Returns the limit in a text such as `50` or `64Kbytes`."""
    if text.endswith("Kbytes"):
        return Limit(None, int(text.removesuffix("Kbytes")))
    return Limit(int(text), None)


def spelled_lines(data: bytes) -> list[str]:
    """Returns the lines of a configuration in the program's spelling. LineFault: the program refuses a line."""
    with scratch() as folder:
        history = folder / "history"
        answer = asked_of_dummynet("replay", "/dev/stdin", "/dev/null", "--history", str(history), data=data)
        if answer.status:
            raise LineFault(answer.told)
        records = read_text(history, lines=None).splitlines()
    return [record[len(RECORD) :] for record in records if record.startswith(RECORD)]


class InForce:
    """Holds the pipes and queues that configuration lines leave in force, by number."""

    def __init__(self, commands: Iterable[str] = ()) -> None:
        self.pipes: dict[int, Pipe] = {}
        self.queues: dict[int, Queue] = {}
        for text in commands:
            self.obey(text)

    def obey(self, text: str) -> None:
        """Adds, replaces or deletes the pipe or queue of a configuration line."""
        kind, number, setting = setting_of(text)
        table: dict[int, Setting] = self.pipes if kind == "pipe" else self.queues  # type: ignore[assignment]
        table.pop(number, None)
        if setting is not None:
            table[number] = setting
