"""The common parts of command lines: inputs and bounded numbers. Some numbers and names from other modules are here, so that a
help doesn't load these modules."""

from __future__ import annotations

import argparse
import re
import shlex
from types import SimpleNamespace
from typing import TYPE_CHECKING, Callable, Optional

from hinge.command_line import add

if TYPE_CHECKING:
    from hinge.outputs import Format

SOURCE = "a history or the transcript of a live session, or a packet file and the report that dummynet wrote of it; `-` is standard input"
RULE = (
    "[up|down] [tcp|udp|icmp|icmp6|proto N] [src|dst|host NET] [port|sport|dport N[-M]] [dscp N]"  # a rule says where a packet goes
)
MODEL_NAMES = ("register", "cas", "set", "queue", "list", "lock")  # the kinds of objects on which clients operate
WAYS = ("tuple", "flow", "target")  # the ways to tell flows apart
TABLE_FLOWS = 40  # the most flows in a table
PICTURE_FLOWS = 8  # the most flows in a picture
MOST_SEED = 10**6
MOST_DIGITS = 20  # the kit reads no longer number, and Python refuses numbers of thousands of digits


def is_number(text: str) -> bool:
    """Returns whether a text consists of digits, and isn't too long to be read."""
    return len(text) <= MOST_DIGITS and text.isascii() and text.isdecimal()


def bounded(low: int, high: int) -> Callable[[str], int]:
    """Returns a function with which argparse reads a number within bounds."""

    def number(text: str) -> int:
        if not (is_number(text) and low <= int(text) <= high):
            raise argparse.ArgumentTypeError(f"{text!r} isn't a number from {low} to {high}")
        return int(text)

    return number


def seeds(text: str) -> list[int]:
    """Returns the seeds in a text such as `7`, `1-5` or `1-5,7`. ArgumentTypeError: the form is wrong, or a seed too large."""
    result = list[int]()
    for part in text.split(","):
        low, _, high = part.partition("-")
        high = high or low
        if not (is_number(low) and is_number(high) and int(low) <= int(high) <= MOST_SEED):
            numbers = re.findall("[0-9]+", text)[:2]
            example = "-".join(numbers) if len(numbers) == 2 else "1-100"
            raise argparse.ArgumentTypeError(f"{text!r}: no seeds up to {MOST_SEED}; write {example}")
        result.extend(range(int(low), int(high) + 1))
    return result


def file_of(*formats: Format) -> Callable[[str], str]:
    """Returns a function with which argparse reads a file name in one of these formats."""

    def name(text: str) -> str:
        if not text.lower().endswith(endings):
            advice = ""
            if text.endswith((".csv", ".txt")):
                option = "--csv " if text.endswith(".csv") else ""
                advice = f"; in place of -o write {option}> {shlex.quote(text)}"
            raise argparse.ArgumentTypeError(f"{text!r} doesn't end in {', '.join(endings)}{advice}")
        return text

    endings = tuple(output_format.value for output_format in formats)
    return name


def add_source(
    parser: argparse.ArgumentParser, form: str = "(HISTORY | PACKETS REPORT)", words: str = "SOURCE", told: str = SOURCE
) -> None:
    """Adds the arguments for the inputs of tables, pictures and paragraphs, and the command's usage, which ends in `form`."""
    parser.usage = f"{parser.prog} [OPTION ..] {form}"
    parser.add_argument("source", nargs="+", metavar=words, help=told)
    parser.add_argument("--config", metavar="FILE", help="the configuration of the packet file's replay; a history has its own")


def add_flows(parser: argparse.ArgumentParser, most: int, default: Optional[int], text: str) -> None:
    """Adds the options that group packets into flows, and limit the number of flows; `text` describes the default limit."""
    kinds = "what a flow is: packets of a five-tuple (the default), a flow of dummynet, or all packets to a pipe or queue"
    add(parser, "--by", kinds, choices=WAYS, default="tuple")
    add(parser, "--top N", f"the N largest flows, the rest as one (default: {text})", type=bounded(1, most), default=default)


class LookOptions(SimpleNamespace):
    """The options of `hinge look`. A dataclass would load too slowly for a help."""

    source: list[str]
    config: Optional[str]
    o: list[str]
    by: str
    top: Optional[int]
    step: Optional[int]  # ms
    title: str
    csv: bool
    diff: bool
    json: Optional[str]
    capture: Optional[str]
    index: Optional[str]
    end: int  # ms
    model: Optional[str]

    @property
    def outputs(self) -> list[str]:
        """Returns the names of all files to write."""
        return [*self.o, self.json] if self.json else self.o

    def files(self, *formats: Format) -> list[str]:
        """Returns the file names from -o in these formats."""
        from hinge.outputs import format_of

        return [name for name in self.o if format_of(name) in formats]
