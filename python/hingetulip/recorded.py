"""A shaper that records its calls and replies as a history for `dummynet audit`."""

from __future__ import annotations

from ctypes import c_size_t, c_uint64
from itertools import chain
from pathlib import Path
from typing import Any, Optional, Union

from hingetulip.audits import MOST_BYTES, audit, parts
from hingetulip.batches import Deliveries, Fates, Packets
from hingetulip.calls import LineText, Turn, encode_line, succeed
from hingetulip.history_file import Recording
from hingetulip.library import CALLS
from hingetulip.records import Delivery, Fate, Verdict
from hingetulip.shaper import Shaper

ONE_BY_ONE = "a recorded shaper takes packets one by one"


class RecordedShaper(Shaper):
    """A shaper with the rule Ordered that writes its calls to the history `path`. `close` ends the history.

    The history omits `show` and `wake`, which change nothing.
    """

    def __init__(self, path: Union[str, Path], *, seed: Optional[int] = None) -> None:
        self._recorded_turn = Turn()  # allows one call at a time, together with its entry
        super().__init__(seed=seed)
        self.path = Path(path)
        self._recording = Recording(path)
        self._submit_entry = self._recording.entry(*self._submitted[1:])

    def configure(self, line: LineText) -> None:
        text = encode_line(line)
        with self._recorded_turn:
            status = self._obeyed(text)
            self._recording.add_line(text, status)
            succeed(status)

    def submit(self, *arguments: Any, **keywords: Any) -> Fate:
        with self._recorded_turn:
            fate = super().submit(*arguments, **keywords)
            self._recording.add(CALLS.dn_submit_text, self._submit_entry)
            return fate

    def advance(self, moment: int) -> int:
        with self._recorded_turn:
            at = super().advance(moment)
            self._recording.add_advance(self._moment.value, at)
            return at

    def collect(self, moment: int) -> list[Delivery]:
        with self._recorded_turn:
            deliveries = super().collect(moment)
            call_moment = c_uint64(self._moment.value)
            super().advance(0)  # sets `_number` to the clock
            place = self._collected.room[1][-3]
            entry = self._recording.entry(call_moment, self._number, place, c_size_t(len(deliveries)))
            self._recording.add(CALLS.dn_collect_text, entry)
            return deliveries

    def submit_many(self, packets: Packets) -> Fates:
        raise NotImplementedError(ONE_BY_ONE)

    def collect_many(self, moment: int) -> Deliveries:
        raise NotImplementedError(ONE_BY_ONE)

    def audit(self) -> Verdict:
        """Returns the verdict of `dummynet audit` on the history so far.

        HingetulipError: the library is older than 1.4.
        """
        with self._recorded_turn:
            end = b"" if self.closed else self._recording.flush()
            with open(self.path, "rb") as file:
                return audit(chain(parts(file), (end,)), MOST_BYTES)

    def close(self) -> None:
        if hasattr(self, "_recording"):
            self._recording.end()
        super().close()
