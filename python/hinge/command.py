"""The frame around every command: help, one-line faults, the exit status, and progress on a terminal."""

from __future__ import annotations

import _signal  # type: ignore[import]  # which Python has loaded, unlike signal
import errno
import os
import sys
import time
from contextlib import contextmanager
from types import ModuleType
from typing import TYPE_CHECKING, Callable, Iterator, NoReturn, Optional

if TYPE_CHECKING:
    from hinge.command_line import Parser

from hinge.border.terminal import note_defect, printable, silence, tell, tell_over

USAGE = 2
CONFIGURATION = 3
ROWS = 4
FILES = 6
MISSING = 7
NOT_FOUND = 127
DEFECT, INTERRUPTED = 70, 130
STATUSES = "0 done, 2 command line, 3 configuration, 4 packet file, report or capture, 6 files, 7 a package is missing"
WIDTH = 80  # columns of a help
NO_SPACE = (errno.ENOSPC, errno.EFBIG, errno.EDQUOT)  # errors that only a write can have
WRITING = (*NO_SPACE, errno.EIO, errno.EBADF)  # errors of a write; if such an error names no file, it is about standard output
PROGRESS_AFTER = 2  # seconds from the beginning until progress is printed
PROGRESS_EVERY = 0.5  # seconds at least from a progress line to the next
LONGEST = 4000  # letters of a printed line
MOST_TOLD = 200  # letters of an exception in a message
NO_ROOM = ("can't start new thread", "failed to map segment")  # messages of RuntimeError and ImportError if memory is lacking
NAME = ["hinge"]  # the program and the command, as in `hinge run`
CLOSED = list[int]()  # the standard streams that were closed when the process started


class Fault(Exception):
    """Raised when a command can't continue. Holds the line to print and the exit status, by default the exception class's."""

    status: int

    def __init__(self, line: str, status: Optional[int] = None) -> None:
        super().__init__(line, status)  # pickle hands both to the exception in another process
        self.status = self.status if status is None else status

    def __str__(self) -> str:
        return str(self.args[0])


def filled(text: str) -> str:
    """Returns paragraphs wrapped to a help's width."""
    import textwrap

    return "\n\n".join(textwrap.fill(" ".join(part.split()), WIDTH - 1) for part in text.strip().split("\n\n"))


def new_parser(what: str, example: str, statuses: str = STATUSES, usage: Optional[str] = None, words: str = "") -> Parser:
    """Returns a parser whose help describes the command and its options, followed by an example and the exit statuses. `words`
    describe a file's format, in separate lines."""
    from argparse import RawDescriptionHelpFormatter  # the list of commands doesn't need argparse

    from hinge.command_line import Parser

    return Parser(
        prog=NAME[0],
        usage=usage,
        description=filled(what),
        epilog=f"{words}example:\n  {example.strip()}\n\n{filled(f'exit status: {statuses}, {DEFECT} a defect of hinge')}",
        formatter_class=RawDescriptionHelpFormatter,
    )


def open_closed_streams() -> None:
    """Opens /dev/null for closed standard streams, so that no later file takes their descriptors."""
    for number, name in enumerate(("stdin", "stdout", "stderr")):
        try:
            os.fstat(number)
        except OSError:
            silence(number)
            CLOSED.append(number)
        if getattr(sys, name) is None:
            setattr(sys, name, open(number, "w" if number else "r", closefd=False))


def say(line: str) -> None:
    """Prints a line on standard error, after the command's name. The line may quote others' text, so this call escapes control
    characters and cuts very long lines."""
    tell(f"{NAME[0]}: {printable(line[:LONGEST])}" + (" .." if len(line) > LONGEST else ""))


def advised(refusal: str) -> str:
    """Returns a refusal, with what to type if a word of the command line belongs to another command."""
    try:
        from hinge import misplaced  # only a refusal needs this module

        return misplaced.advised(NAME[0].removeprefix("hinge "), sys.argv[1:], refusal)
    except (MemoryError, ImportError, OSError):  # the advice may lack the memory or the files that the refusal is about
        return refusal


def outcome(main: Callable[[], object]) -> tuple[int, str]:
    """Runs a command; returns its exit status, and a line with the reason for a failure. A closed output pipe is no failure."""
    try:
        main()
        sys.stdout.flush()
    except Fault as fault:
        return fault.status, (str(fault) if fault.status == MISSING else advised(str(fault)))
    except SystemExit as end:
        if isinstance(end.code, int):
            return end.code, ""
        return (USAGE, end.code) if end.code else (0, "")
    except BrokenPipeError:
        silence(sys.stdout.fileno())
    except OSError as error:
        what = error.filename or ("standard output" if error.errno in WRITING else "the system")
        return FILES, advised(f"{what}: {error.strerror}")
    except KeyboardInterrupt:
        return INTERRUPTED, ""
    except MemoryError:
        return FILES, "the system: there is no memory for this"
    except Exception as error:
        if lacks_memory(error):
            return FILES, f"the system: {error}"
        note_defect()
        why = f"{type(error).__name__}: {error}"[:MOST_TOLD]
        return DEFECT, f"a defect of hinge ({why}); with HINGE_TRACEBACK=1 it shows where"
    return 0, ""


def lacks_memory(error: Exception) -> bool:
    """Returns whether a module or a thread raised an exception because there was no memory."""
    return isinstance(error, SystemError) or any(message in str(error) for message in NO_ROOM)


def run(main: Callable[[], object]) -> NoReturn:
    """Runs a command, prints the reason for a failure on standard error, and ends the process with the command's status. If output
    can't be written, the status is FILES, unless the output's reader closed its pipe."""
    if _signal.getsignal(_signal.SIGINT) == _signal.SIG_DFL:
        _signal.signal(_signal.SIGINT, _signal.default_int_handler)
    status, line = outcome(main)

    def print_line() -> None:
        if line:
            say(line)

    for stream, write in ((2, print_line), (1, sys.stdout.flush)):
        try:
            write()
        except BrokenPipeError:
            silence(stream)
        except OSError:
            status = FILES
            silence(stream)
    sys.exit(status)


def path_of_program(name: str, package: str) -> str:
    """Returns the path of a program from a Debian package. Fault: the program isn't installed."""
    import shutil

    path = shutil.which(name)
    if path is None:
        raise Fault(f"needs {name}: apt-get install {package}", MISSING)
    return path


def module(name: str, package: str) -> ModuleType:
    """Returns a Python module from pip or a Debian package. Fault: the module isn't installed, or can't be loaded."""
    import importlib

    try:
        return importlib.import_module(name)
    except ImportError as fault:
        name = name.partition(".")[0]
        advice = f"needs Python's {name}: pip install {name}, or apt-get install {package}"
        if fault.name != name:
            advice += f"; this one fails: {' '.join(str(fault).split())[:MOST_TOLD]}"
        raise Fault(advice, MISSING) from None


def numpy() -> ModuleType:
    """Returns the module numpy. Fault: it isn't installed, or can't be loaded."""
    return module("numpy", "python3-numpy")


@contextmanager
def working(what: str) -> Iterator[None]:
    """Reports on standard error, if that is a terminal, a command's work that lasts more than two seconds."""
    if not sys.stderr.isatty():
        yield
        return
    import threading

    timer = threading.Timer(PROGRESS_AFTER, tell_over, (f"{what} ..",))
    timer.start()
    try:
        yield
    finally:
        timer.cancel()
        tell_over()


class Progress:
    """Prints a long command's count of steps on standard error, if that is a terminal, after two seconds."""

    def __init__(self, what: str) -> None:
        self.what = what
        self.began = time.monotonic()
        self.printed_at = self.began
        self.is_shown = False
        self.is_terminal = sys.stderr.isatty()

    def at(self, count: int) -> None:
        """Prints the count over the last count, at most twice a second."""
        if not self.is_terminal:
            return
        now = time.monotonic()
        if now - self.began < PROGRESS_AFTER or now - self.printed_at < PROGRESS_EVERY:
            return
        self.printed_at = now
        self.is_shown = True
        tell_over(f"{self.what}: {count:,}")

    def done(self) -> None:
        """Erases the count from the terminal."""
        if self.is_shown:
            tell_over()


class Bar:
    """Prints a command's progress and its remaining time on standard error, if that is a terminal, after two seconds."""

    def __init__(self, what: str, total: int) -> None:
        self.what = what
        self.total = total
        self.done = 0
        self.failed = 0
        self.began = time.monotonic()
        self.printed_at = 0.0
        self.is_shown = False

    def step(self, failed: bool = False) -> None:
        """Counts a step, and prints the progress at most twice a second."""
        self.done += 1
        if failed:
            self.failed += 1
        now = time.monotonic()
        if now - self.began < PROGRESS_AFTER or now - self.printed_at < PROGRESS_EVERY or not sys.stderr.isatty():
            return
        remainder = (now - self.began) / self.done * (self.total - self.done)
        failures = f", {self.failed:,} failed" if self.failed else ""
        tell_over(f"{self.done:,} of {self.total:,} {self.what}{failures}, {remainder:.0f} s left")
        self.printed_at = now
        self.is_shown = True

    def clear(self) -> None:
        """Erases the progress line from the terminal, so that other messages can use the line."""
        if self.is_shown:
            tell_over()
            self.is_shown = False
