"""Writes histories: the file, and the text of a single caller's calls."""

from __future__ import annotations

from ctypes import addressof, byref, c_char, c_size_t, c_uint32, c_uint64, c_void_p
from io import FileIO
from os import PathLike
from typing import Any, Callable, Optional, Union

from hingetulip.errors import RefusedError
from hingetulip.layout import FAULT
from hingetulip.library import CALLS, FAILURES, ROOM, failure

FRONT, END = b"dummynet-history,3\n", b"end,%d\n"
MOST_WAITING = 1 << 16  # bytes of text after which the system is called to write them
LONGEST = 4096  # the bytes of the longest entry for which there is room at first
CALLER = c_uint64.from_param(0)  # the caller's number as an argument; ctypes would convert a number at each call
ANSWERED = {0, *(status for status, kind in FAILURES.items() if kind is RefusedError)}  # the statuses of lines that are commands


class HistoryFile:
    """The file of a history, created anew. After a failed write, as on a full disk, the next write continues.

    Python's own buffer would be written twice after a fork, and lost after a kill.
    """

    def __init__(self, path: Union[str, PathLike[str]]) -> None:
        self._file = FileIO(path, "w")
        self._waiting = bytearray(FRONT)  # the text that isn't written yet
        self._entries: Optional[int] = None  # the number of entries, once the history has ended
        self.flush()

    def write(self, text: memoryview) -> None:
        """Appends text, which is in the file after the next flush at the latest."""
        self._waiting += text
        if len(self._waiting) >= MOST_WAITING:
            self.flush()

    def flush(self) -> None:
        """Writes all appended text."""
        while self._waiting:
            del self._waiting[: self._file.write(self._waiting)]

    def end(self, entries: int) -> None:
        """Ends the history with its number of entries, and closes the file. After an OSError you can call this again."""
        if self._entries is None:
            self._entries = entries
            self._waiting += END % entries
        self.flush()
        self._file.close()


class Recording:
    """Records the library calls of a single caller (number 0) as a history, and writes the history to a file."""

    def __init__(self, path: Union[str, PathLike[str]]) -> None:
        self._file = HistoryFile(path)
        self._count = 0  # the number of entries
        self._length = c_uint64()  # the length of the last entry
        self._place = c_void_p()  # the place of the next entry in the buffer
        self._room = c_size_t()  # the longest entry for which the buffer has room
        self._make_room(LONGEST)

    def _make_room(self, longest: int) -> None:
        """Allocates a buffer for the next entries, each of at most `longest` bytes."""
        self._text = bytearray(MOST_WAITING + longest)
        self._first = self._place.value = addressof((c_char * len(self._text)).from_buffer(self._text))
        self._room.value = longest

    def entry(self, *arguments: Any) -> tuple[Any, ...]:
        """Returns the arguments of a library call that writes an entry: the caller, `arguments` and the buffer. Frequent calls
        share them."""
        return CALLER, *arguments, self._place, self._room, byref(self._length)

    def add(self, call: Callable[..., int], entry: tuple[Any, ...]) -> None:
        """Adds the entry that a library call writes. For a line without words, the call writes nothing."""
        status = call(*entry)
        if status == ROOM:
            self._gather()
            self._make_room(2 * self._length.value)
            status = call(*entry)
        if status:
            raise failure(status)
        length = self._length.value
        if length:
            self._count += 1
            end = self._place.value + length  # type: ignore[operator]
            self._place.value = end
            if end > self._first + MOST_WAITING:
                self._gather()

    def add_line(self, line: bytes, status: int) -> None:
        """Adds a configuration line with its call's status, if the status is a command's."""
        if status in ANSWERED:
            no_fault = byref((c_char * FAULT.size)())
            self.add(CALLS.dn_configure_text, self.entry(line, c_size_t(len(line)), c_uint32(status), no_fault))

    def add_advance(self, moment: int, clock: int) -> None:
        """Adds an advance to a moment, with the clock after it."""
        self.add(CALLS.dn_advance_text, self.entry(c_uint64(moment), c_uint64(clock)))

    def _gather(self) -> None:
        """Moves the entries from the buffer to the file's text."""
        length = self._place.value - self._first  # type: ignore[operator]
        self._place.value = self._first
        self._file.write(memoryview(self._text)[:length])

    def flush(self) -> bytes:
        """Writes all entries into the file; returns the line that would end the history."""
        self._gather()
        self._file.flush()
        return END % self._count

    def end(self) -> None:
        """Ends the history, and closes the file. After an OSError you can call this again."""
        self._gather()
        self._file.end(self._count)
