"""Audits histories: checks whether each reply is the emulator's after the preceding calls."""

from __future__ import annotations

from ctypes import byref, c_char, c_size_t, c_uint64
from functools import partial
from operator import index
from typing import Iterable, Iterator, Protocol, Union, runtime_checkable

from hingetulip.calls import Closing, Turn, secret, succeed
from hingetulip.errors import ClosedError, HistoryError, RangeError
from hingetulip.layout import VERDICT
from hingetulip.library import BAD_RECORD, CALLS, HISTORY_LIMIT, Handle, failure
from hingetulip.records import Verdict

CLOSED = 5
MOST_BYTES = 2**64 - 1
PART = 65_536  # the most bytes for a call of the library, which keeps Python's lock
Bytes = Union[bytes, bytearray, memoryview]


@runtime_checkable
class Readable(Protocol):
    """A binary file."""

    def read(self, size: int, /) -> bytes:
        """Returns at most `size` bytes, and none at the end."""


History = Union[Bytes, Readable, Iterable[Bytes]]


class Audit(Closing):
    """Audits a history, or a live session's transcript, whose text arrives in parts of any length.

    An audit repeats the history's calls and compares each reply with the text, like `dummynet audit`. Of a text in the library's
    own format, the audit keeps no part. The audit ends with `finish`, `close`, the end of a `with` block, or any exception except
    InUseError; later calls raise ClosedError.
    """

    def __init__(self, limit: int = HISTORY_LIMIT) -> None:
        """Begins an audit of a text with at most `limit` bytes. Each audit draws a key for the flow table, which changes no
        verdict.

        RangeError: the limit isn't in 0 to 2^64 - 1.
        """
        if not 0 <= index(limit) <= MOST_BYTES:
            raise RangeError(f"limit {limit} isn't in 0 to {MOST_BYTES}")
        self.__del__()  # closes the handle of an earlier call of __init__
        self._turn = Turn()
        self._handle = Handle()
        self._self = byref(self._handle)
        self._succeed(CALLS.dn_audit_open_with_key(self._self, c_size_t(limit), *secret()))

    def feed(self, part: Bytes) -> None:
        """Reads the next part of the text. HistoryError: the text is longer than the limit."""
        text = memoryview(part).cast("B")
        with self._turn:
            for at in range(0, max(len(text), 1), PART):
                piece = bytes(text[at : at + PART])
                self._succeed(CALLS.dn_audit_feed(self._self, piece, c_size_t(len(piece))))

    def finish(self) -> Verdict:
        """Returns the verdict on the completed text.

        HistoryError: a record is malformed or missing, even if an earlier entry differs.
        """
        verdict = (c_char * VERDICT.size)()
        record = c_uint64()
        with self._turn:
            status = CALLS.dn_audit_finish(self._self, byref(verdict), byref(record))
        if status == BAD_RECORD:
            raise HistoryError(str(failure(status)), record.value)
        self._succeed(status)
        entries, first, differs = VERDICT.record.unpack(verdict)
        return Verdict(entries, first if differs else None)

    def close(self) -> None:
        with self._turn:
            CALLS.dn_audit_close(self._self)

    def __del__(self) -> None:
        if hasattr(self, "_self"):
            CALLS.dn_audit_close(self._self)

    @staticmethod
    def _succeed(status: int) -> None:
        """Raises the exception for a call's status, unless the call succeeded."""
        if status == CLOSED:
            raise ClosedError("the audit has ended")
        succeed(status)


def parts(history: History) -> Iterator[Bytes]:
    """Returns an iterator over the text of a history in parts."""
    if isinstance(history, (bytes, bytearray, memoryview)):
        return iter((history,))
    if isinstance(history, Readable):
        return iter(partial(history.read, PART), b"")
    return iter(history)


def audit(history: History, limit: int = HISTORY_LIMIT) -> Verdict:
    """Returns the verdict of `dummynet audit` on a history or a live session's transcript.

    `history` is bytes, a binary file, or an iterable of parts, with at most `limit` bytes. HistoryError: a record is malformed or
    missing, or the text exceeds the limit.
    """
    with Audit(limit) as open_audit:
        for part in parts(history):
            open_audit.feed(part)
        return open_audit.finish()
