"""Reads untrusted files within limits. Each failure becomes a one-line fault with the file's name."""

from __future__ import annotations

import errno
import gzip
import io
import json
import os
import shutil
import stat
from contextlib import contextmanager
from pathlib import Path
from typing import Any, BinaryIO, Iterator, NamedTuple, Optional, TextIO, Union, cast

from hinge.border.scratch import unnamed
from hinge.border.terminal import note_defect
from hinge.command import CLOSED, FILES, MOST_TOLD, ROWS, Fault

Name = Union[str, Path]
GZIP = b"\x1f\x8b"  # the first bytes of a compressed file
MOST_TABLE = 1 << 32  # bytes of a table, whose rows are read in pieces
MOST_TEXT = 1 << 28  # bytes of a text that consists of lines
MOST_OBJECT = 1 << 26  # bytes of JSON, whose objects need some 20 times its length
MOST_LINES = 1 << 20  # lines of a text; a short line needs more memory than its bytes
LONGEST_LINE = 1 << 20  # characters of a line
MOST_SAID = 1 << 17  # lines that are neither blank nor comments, since readers create an object or two for each
ENDS_OF_LINES = "\n\r\v\f\x1c\x1d\x1e\x85\u2028\u2029"  # the characters at which str.splitlines ends a line
NO_TEXT = "it isn't UTF-8"
TOO_DEEP = "its parts are too deep in one another"
TOO_LARGE = "it takes more memory than there is"


class Exceeded(Fault):
    """Raised when a file exceeds its budget. The message lacks the file's name, which `untrusted` adds."""

    def __init__(self, most: int, what: str) -> None:
        super().__init__(f"it has more than {most:,} {what}", ROWS)


class Budget:
    """Limits the bytes or lines that are read from a file, or the objects that are created from them. `what` names these units."""

    def __init__(self, most: int, what: str) -> None:
        self.most = most
        self.rest = most
        self.what = what

    def add(self, count: int) -> None:
        self.most += count
        self.rest += count

    def spend(self, count: int) -> None:
        """Subtracts `count` units from the rest. Exceeded: fewer units are left."""
        self.rest -= count
        if self.rest < 0:
            raise Exceeded(self.most, self.what)


def told_name(name: Name) -> str:
    """Returns a file's name for messages; `-` is standard input."""
    return "standard input" if str(name) == "-" else str(name)


@contextmanager
def untrusted(name: Name, status: int = ROWS, what: str = "") -> Iterator[None]:
    """Guards code that reads an untrusted file: turns exceptions into a Fault with the file's name. `what` is the text for users if
    the exception only shows that the content is wrong. A Fault other than Exceeded, a missing module and a system error with a
    file name pass unchanged."""
    try:
        yield
    except Exceeded as error:
        raise Fault(f"{told_name(name)}: {error}", status) from None
    except (Fault, ImportError):
        raise
    except OSError as error:
        if error.filename is not None:
            raise
        text = error.strerror or what or str(error)
        raise Fault(f"{told_name(name)}: {text}", FILES if error.errno else status) from error
    except RecursionError:
        raise Fault(f"{told_name(name)}: {TOO_DEEP}", status) from None
    except MemoryError:
        raise Fault(f"{told_name(name)}: {TOO_LARGE}", status) from None
    except Exception as error:
        note_defect()
        why = f"{type(error).__name__}: {error}"[:MOST_TOLD].rstrip(": ")
        text = what or f"it can't be read ({why})"
        raise Fault(f"{told_name(name)}: {text}", status) from error


class Limited(io.RawIOBase):
    """Wraps an open file: raises Exceeded if a program reads more than `most` bytes."""

    def __init__(self, file: io.FileIO, most: int) -> None:
        self.file = file
        self.budget = Budget(most, "bytes")

    def readable(self) -> bool:
        return True

    def readinto(self, buffer: Any) -> Optional[int]:
        count = self.file.readinto(buffer)
        self.budget.spend(count or 0)
        return count

    def close(self) -> None:
        self.file.close()
        super().close()


def opened(name: Name, most: Optional[int]) -> BinaryIO:
    """Opens a file, a pipe or (for the name `-`) standard input. Reading more than `most` bytes raises Exceeded; None sets no
    limit, for readers with a limit of their own. Fault: standard input is closed."""
    is_standard_input = str(name) == "-"
    if is_standard_input and 0 in CLOSED:
        raise Fault(f"{told_name(name)} is closed", FILES)
    source: Union[int, Name] = 0 if is_standard_input else name
    if most is None:
        return open(source, "rb", closefd=not is_standard_input)
    file = open(source, "rb", buffering=0, closefd=not is_standard_input)
    return io.BufferedReader(Limited(file, most))


def read_bytes(name: Name, most: int) -> bytes:
    """Returns a file's bytes. Fault: there are more than `most` bytes."""
    with untrusted(name), opened(name, most) as file:
        return file.read()


def is_beside(path: Name) -> bool:
    """Returns whether there is a file at a path that the user didn't name. Fault: the path is a folder, a device or a FIFO, which
    could block a reader for ever."""
    if os.path.exists(path) and not os.path.isfile(path):
        raise Fault(f"{path}: it isn't a file", FILES)
    return os.path.isfile(path)


def read_front(name: Name, most: int) -> bytes:
    """Returns a file's first bytes, at most `most`."""
    with untrusted(name), opened(name, None) as file:
        return file.read(most)


def read_text(name: Name, errors: str = "strict", most: int = MOST_TEXT, lines: Optional[int] = MOST_LINES) -> str:
    """Returns a file's text without a byte order mark; `errors` are those of bytes.decode. Fault: the file isn't UTF-8, has more
    than `most` bytes, or more than `lines` lines (None: any number)."""
    with untrusted(name):
        try:
            text = read_bytes(name, most).decode("utf-8-sig", errors)
        except UnicodeDecodeError:
            raise Fault(f"{told_name(name)}: {NO_TEXT}", ROWS) from None
        if lines is not None:
            Budget(lines, "lines").spend(sum(map(text.count, ENDS_OF_LINES)))
    return text


def lines_of(file: TextIO, longest: int = LONGEST_LINE) -> Iterator[str]:
    """Yields a text's lines. Exceeded: a line has more than `longest` characters."""
    while line := file.readline(longest + 1):
        if len(line) > longest:
            raise Exceeded(longest, "letters in a line")
        yield line


def lines_in(
    name: Name,
    longest: int = LONGEST_LINE,
    lines: Optional[int] = MOST_LINES,
    errors: str = "strict",
    said: Optional[int] = MOST_SAID,
) -> Iterator[str]:
    """Yields a text's lines without their line ends, one at a time, so that the caller can discard lines and save memory. Fault:
    the file isn't UTF-8, or has too many bytes, a line of more than `longest` characters, more than `lines` lines, or more than
    `said` lines that are neither blank nor comments (None: any number)."""
    budget = Budget(lines or 0, "lines")
    said_budget = Budget(said or 0, "lines that say something")
    with untrusted(name), opened(name, MOST_TEXT) as file:
        try:
            for line in lines_of(io.TextIOWrapper(file, "utf-8-sig", errors), longest):
                is_said = not line.isspace() and not line.lstrip().startswith("#")
                if lines is not None:
                    budget.spend(1)
                if said is not None and is_said:
                    said_budget.spend(1)
                yield line.removesuffix("\n")
        except UnicodeDecodeError:
            raise Fault(f"{told_name(name)}: {NO_TEXT}", ROWS) from None


def read_object(name: Name, what: str) -> dict[str, Any]:
    """Returns the object in a JSON file. Fault, with the text `what`: the file contains anything else."""
    with untrusted(name, what=what):
        record = json.loads(read_text(name, most=MOST_OBJECT))
    if not isinstance(record, dict):
        raise Fault(f"{told_name(name)}: {what}", ROWS)
    return record


def opened_log(path: Name, is_new: bool = True) -> int:
    """Opens a file for a program's output, and empties the file if `is_new`; returns the descriptor. PermissionError: the path
    isn't a regular file, or the file belongs neither to this user nor to the folder's. OSError: the path is a symbolic link, or a
    FIFO without a reader."""
    log = os.open(path, os.O_WRONLY | os.O_CREAT | os.O_APPEND | os.O_NOFOLLOW | os.O_NONBLOCK | os.O_CLOEXEC, 0o666)
    result = os.fstat(log)
    if not stat.S_ISREG(result.st_mode) or result.st_uid not in (os.geteuid(), os.stat(Path(path).parent).st_uid):
        os.close(log)
        raise PermissionError(errno.EPERM, "it isn't a file of this user's", str(path))
    if is_new:
        os.ftruncate(log, 0)
    os.set_blocking(log, True)
    return log


def read_log(path: Name) -> str:
    """Returns a program's output; an empty text if the file is missing."""
    return read_text(path, "replace", lines=None) if os.path.isfile(path) else ""


def read_system(path: str) -> str:
    """Returns the text of a kernel file, such as those in /proc."""
    with open(path) as file:
        return file.read()


class Input(NamedTuple):
    """A file that several readers can open, including other programs."""

    path: str  # for the readers
    name: str  # for messages


@contextmanager
def read_again(name: str, most: Optional[int]) -> Iterator[Input]:
    """Yields a file that can be read several times. First copies standard input or a FIFO to an unnamed file. Fault: standard input
    or the FIFO has more than `most` bytes."""
    if name != "-" and not stat.S_ISFIFO(os.stat(name).st_mode):
        yield Input(name, name)
        return
    with unnamed() as (copy, path):
        with untrusted(name), opened(name, most) as source:
            shutil.copyfileobj(source, copy)
        copy.flush()
        yield Input(path, told_name(name))


class Counted:
    """Wraps a file, and counts the bytes that are read from the file."""

    def __init__(self, file: BinaryIO) -> None:
        self.file = file
        self.count = 0

    def read(self, size: int = -1) -> bytes:
        data = self.file.read(size)
        self.count += len(data)
        return data


class Unpacked:
    """Unpacks a gzip file, and limits the content in proportion to the packed bytes that were read."""

    FREE = 1 << 26  # bytes of content that each file may have
    TIMES = 100  # further bytes of content for each packed byte

    def __init__(self, name: str, file: BinaryIO) -> None:
        self.name = name
        self.packed = Counted(file)
        self.count = 0  # of the content's bytes so far
        self.file = gzip.GzipFile(fileobj=cast(BinaryIO, self.packed))  # GzipFile only calls `read`

    def read(self, size: int) -> bytes:
        """Returns at most `size` bytes of the content; if the archive is truncated, all bytes before that place can be read. Fault:
        the content is far longer than the archive."""
        data: bytes = self.file.read1(size)
        self.count += len(data)
        if self.count > self.FREE + self.TIMES * self.packed.count:
            right = "if that is right, `zcat FILE |` before hinge, and `-` as its name, read it"
            raise Fault(f"{self.name}: it unpacks to more than {self.TIMES} times its length; {right}", ROWS)
        return data


def object_of(text: bytes) -> Optional[dict[str, Any]]:
    """Returns the JSON object in a line; None if the line contains anything else."""
    try:
        value = json.loads(text)
    except (ValueError, RecursionError):
        return None
    return value if isinstance(value, dict) else None
