"""Finds programs that ask the processor directly for values that no seed draws. Such a program contains the instruction for random
numbers, but doesn't ask whether the processor offers the instruction, for example if the compiler's option was -march=native. A
program that asks learns that the processor doesn't. The instruction `lsl` reads the processor's number."""

from __future__ import annotations

import os
import re
import stat
import struct
from pathlib import Path
from typing import BinaryIO, Iterator, Optional

from hinge.simulated.opened_files import paths_told

# The instructions rdrand, rdseed and rdpid. If a byte 0xff follows, the bytes are part of a distance.
RANDOM = re.compile(rb"\x0f\xc7[\xf0-\xff][^\xff]")
CPUID = b"\x0f\xa2"
# The instruction lsl, after the number of the segment whose limit contains the processor's number.
NUMBER = re.compile(rb"\x7b\0\0\0.{0,12}?\x0f\x03[\xc0-\xff]", re.DOTALL)
OF_RANDOM = "random numbers from the processor (rdrand) without asking whether it has them"
OF_NUMBER = "the number of its processor (lsl)"
PART = 1 << 20  # bytes of code that are searched together
AGAIN = 18  # bytes at the end of a part that are also at the front of the next part
LOADED, EXECUTABLE = 1, 1  # a segment's type and its flag
ELF = b"\x7fELF\x02"  # the first bytes of a 64-bit program
HEAD = struct.Struct("<5s27xQ14xHH")
SEGMENT = struct.Struct("<IIQQQQQQ")
known: "dict[tuple[int, int, int, int], str]" = {}  # the results for files, since this process may launch many runs


def segments(file: BinaryIO) -> Iterator[tuple[int, int]]:
    """Yields the starts and lengths of a program's or library's executable segments."""
    head = file.read(HEAD.size)
    if len(head) < HEAD.size:
        return
    mark, start, size, count = HEAD.unpack(head)
    for place in range(count if mark == ELF else 0):
        file.seek(start + place * size)
        kind, flags, begin, _, _, length, _, _ = SEGMENT.unpack(file.read(SEGMENT.size))
        if kind == LOADED and flags & EXECUTABLE:
            yield begin, length


def segment_parts(file: BinaryIO, begin: int, length: int) -> Iterator[bytes]:
    """Yields the bytes of a segment in parts. Each instruction is complete in some part, with the following byte."""
    file.seek(begin)
    part = b""
    while data := file.read(min(length, PART)):
        part = part[-AGAIN:] + data
        length -= len(data)
        yield part
    yield part[-AGAIN:] + b"\0"


def taken_by(file: BinaryIO) -> str:
    """Describes the value that a program's code reads from the processor by an instruction, so that no seed can draw the value:
    the processor's number, or random numbers without a check by `cpuid`. Returns an empty text if there is none."""
    has_random = False
    has_cpuid = False
    places = list(segments(file))
    for part in (part for begin, length in places for part in segment_parts(file, begin, length)):
        if NUMBER.search(part):
            return OF_NUMBER
        has_cpuid = has_cpuid or CPUID in part
        has_random = has_random or RANDOM.search(part) is not None
    return OF_RANDOM if has_random and not has_cpuid else ""


def taken(path: str) -> str:
    """Returns the value for which the program at a path asks the processor directly; otherwise an empty text."""
    try:
        status = os.stat(path)
        key = (status.st_dev, status.st_ino, status.st_size, status.st_mtime_ns)
        if key not in known and stat.S_ISREG(status.st_mode):
            with open(path, "rb") as file:
                known[key] = taken_by(file)
        return known.get(key, "")
    except (OSError, OverflowError, struct.error):
        return ""


def random_programs(folder: Path, root: Optional[str]) -> "list[str]":
    """Returns a text `PATH takes ..` for each file that the machine in this folder read and that asks the processor directly."""
    paths = dict.fromkeys(path for path, is_there in paths_told(folder, root) if is_there)
    values = {path: taken(f"{root or ''}{path}") for path in paths}
    return [f"{path} takes {value}" for path, value in values.items() if value]
