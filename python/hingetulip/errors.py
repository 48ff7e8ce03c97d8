"""The exceptions of calls. A call that raises an exception changes nothing, unless the exception says otherwise."""

from __future__ import annotations

from typing import TYPE_CHECKING, Optional

if TYPE_CHECKING:
    from hingetulip.batches import Fates


class HingetulipError(Exception):
    """The base of this module's exceptions."""

    fates: Optional[Fates] = None
    """After `submit_many`, the fates of the packets before the packet that failed."""


class ClosedError(HingetulipError, ValueError):
    """Raised for a call of a closed shaper or service, or of an audit that has ended."""


class LineError(HingetulipError, ValueError):
    """Raised for a line that isn't a command, or a word that isn't a link's. The text contains the word and advice."""

    def __init__(self, kind: str, word: int, line: str = "") -> None:
        fault = f"word {word}: {kind}" if word else kind
        if line and word:
            from hingetulip_words.explained import explained  # only a wrong line needs this module

            fault = explained(line, fault)
        super().__init__(f"{fault}, in {line!r}" if line else fault)
        self.line = line
        """The line, or an empty text if it isn't known."""
        self.kind = kind
        """The kind of the error, such as `bad number`."""
        self.word = word
        """The number of the wrong word, from 1; 0 if the line isn't text, or if `kind` names the word."""

    def __reduce__(self) -> tuple[type[LineError], tuple[str, int, str]]:
        return LineError, (self.kind, self.word, self.line)


class RefusedError(HingetulipError):
    """Raised for a command that can't take effect: `no such pipe`, `pipe has queues` or `no such queue`."""


class RangeError(HingetulipError, ValueError):
    """Raised for a number outside its range."""


class HistoryError(HingetulipError, ValueError):
    """Raised for a history with a malformed or missing record, or beyond the audit's limit. The audit has ended."""

    def __init__(self, text: str, record: Optional[int] = None) -> None:
        super().__init__(text if record is None else f"history record {record}: bad")
        self.record = record
        """The first bad record, from 1; None if the history is too long."""

    def __reduce__(self) -> tuple[type[HistoryError], tuple[str, Optional[int]]]:
        return HistoryError, (str(self), self.record)


class RowError(HingetulipError, ValueError):
    """Raised for a row that isn't in the packet format, or a first line that isn't the header."""

    def __init__(self, row: int, field: int) -> None:
        super().__init__(f"packet row {row}, field {field}: bad")
        self.row = row
        """The first bad row, from 1; 0 is the header."""
        self.field = field
        """The row's first bad field, from 1; 0 if the row hasn't ten fields."""

    def __reduce__(self) -> tuple[type[RowError], tuple[int, int]]:
        return RowError, (self.row, self.field)


class InUseError(HingetulipError, RuntimeError):
    """Raised if another thread, or the code that a signal interrupted, is in a call of the same object."""

    def __init__(self) -> None:
        super().__init__("another thread, or what a signal interrupted, is in a call of it")


class OutOfMemoryError(HingetulipError, MemoryError):
    """Raised if the system refuses memory. You may repeat the call, unless it is an audit's: the audit has ended."""


class ExhaustedError(HingetulipError):
    """Raised after 2^62 calls of a shaper, which then refuses all calls."""
