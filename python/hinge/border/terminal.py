"""Text for a terminal: replaces control characters, which could act on the terminal, and only keeps line ends."""

from __future__ import annotations

import io
import os
import sys
from typing import TextIO, cast

BLOCKS = "\u2581\u2582\u2583\u2584\u2585\u2586\u2587\u2588"
ASCII_BLOCKS = ".:-=+*%#"


def printable(text: str) -> str:
    """Returns a line with each character that could control a terminal replaced by its code, such as `\\x1b`."""
    if text.isprintable():
        return text
    return "".join(letter if letter.isprintable() else f"\\x{ord(letter):02x}" for letter in text)


def lines(text: str) -> str:
    """Returns a text of several lines, with each line made `printable`."""
    return "\n".join(map(printable, text.split("\n")))


def several(count: int, name: str) -> str:
    """Returns a count with its noun, such as `1 fault` or `2 faults`."""
    return f"{count:,} {name}{'s' if count != 1 else ''}"


def blocks() -> str:
    """Returns eight characters of growing height, or ASCII characters of growing darkness if standard output can't show the
    former."""
    try:
        BLOCKS.encode(sys.stdout.encoding or "ascii")
        return BLOCKS
    except (UnicodeEncodeError, LookupError):
        return ASCII_BLOCKS


def show(text: str = "", end: str = "\n") -> None:
    """Writes a text to standard output, without control characters."""
    sys.stdout.write(lines(text) + end)


def tell(text: str, end: str = "\n") -> None:
    """Writes a text to standard error at once, without control characters."""
    sys.stderr.write(lines(text) + end)
    sys.stderr.flush()


def silence(stream: int) -> None:
    """Connects a standard stream, 0 to 2, to /dev/null."""
    nothing = os.open(os.devnull, os.O_RDWR)
    if nothing != stream:
        os.dup2(nothing, stream)
        os.close(nothing)
    os.set_inheritable(stream, True)


def note_defect() -> None:
    """Prints the current exception's traceback if HINGE_TRACEBACK is set, since users only see a line of text."""
    if "HINGE_TRACEBACK" in os.environ:
        import traceback  # here, since it takes longer to load than `--help` may take

        tell(traceback.format_exc(), "")


def tell_over(text: str = "") -> None:
    """Replaces the terminal's current line by a text; without a text, clears the line."""
    sys.stderr.write(f"\r\x1b[K{printable(text)}")
    sys.stderr.flush()


class Shown(io.TextIOBase):
    """Standard output as a text file, without control characters."""

    def write(self, text: str) -> int:
        show(text, "")
        return len(text)

    def flush(self) -> None:
        sys.stdout.flush()

    def fileno(self) -> int:
        """Returns standard output's descriptor, for programs that themselves write no control characters."""
        return sys.stdout.fileno()


def standard_output() -> TextIO:
    """Returns standard output as a file for libraries that write text."""
    return cast(TextIO, Shown())
