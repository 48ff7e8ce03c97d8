"""A service: an emulator that many threads call, and its history in a file."""

from __future__ import annotations

from contextlib import ExitStack
from ctypes import CDLL, Array, PyDLL, byref, c_char, c_size_t, c_uint64, sizeof
from operator import index
from os import PathLike
from random import Random
from time import sleep
from typing import Any, Callable, NoReturn, Optional, Union

from hingetulip.calls import NO_BYTES, Calls, Closing, WaitingTurn, secret, succeed
from hingetulip.errors import RangeError
from hingetulip.history_file import HistoryFile
from hingetulip.layout import DELIVERY, FLOW, Layout
from hingetulip.library import LIBRARY, ROOM, Handle

BUSY, NO_ENTRY = 15, 18
FIRST_ROOM, MOST_CALLERS = 16384, 15

TRIES_AT_ONCE = 4  # the number of tries of a call before the thread sleeps between two tries
REST = 20e-6  # the s that the thread then sleeps

# PyDLL holds Python's lock during a call, and CDLL releases the lock. A caller's call is shorter than releasing and reacquiring the lock:
# with CDLL, eight threads together made a quarter of the calls that a single thread makes. So callers hold the lock, and release it only
# in the sleep between two tries.


def retried(call: Callable[..., int], *arguments: Any) -> int:
    """Returns the status of a call, repeated until no other caller is in a call. Most calls end at once, so a thread sleeps only
    after some tries."""
    tries = 0
    while True:
        status = call(*arguments)
        if status != BUSY:
            return status
        sleep(0 if tries < TRIES_AT_ONCE else REST)
        tries += 1


class Caller(Calls):
    """Calls a service, with the same methods as Shaper. Threads may share a caller: a call waits for other threads' calls.

    Each reply includes the effects of all calls whose effects this caller's earlier replies included.
    """

    def __init__(self, calls: PyDLL, handle: Any, number: int, seed: Optional[int]) -> None:
        super().__init__(WaitingTurn(), seed)
        self.number = number
        self._calls = calls
        self._self = handle
        holder = byref(c_uint64())  # the number of the caller that is in a call

        def function(call: Callable[..., int]) -> Callable[..., int]:
            return lambda *arguments: retried(call, handle, *arguments, holder)

        self._configure = function(calls.dn_caller_configure)
        self._submit = function(calls.dn_caller_submit)
        self._advance = function(calls.dn_caller_advance)
        self._wake = function(calls.dn_caller_wake)
        self._collect = function(calls.dn_caller_collect)
        self._show = function(calls.dn_caller_show)

    def __reduce__(self) -> NoReturn:
        raise TypeError("a caller is neither copied nor pickled")

    def __del__(self) -> None:
        self._release()

    def _release(self) -> None:
        """Closes the caller's handle."""
        self._calls.dn_caller_close(self._self)

    def _due(self) -> Any:
        succeed(self._collect(self._moment, byref(self._number)))
        return self._last_records(self._calls.dn_caller_deliveries, DELIVERY)

    def _flows(self) -> Any:
        succeed(self._show(byref(self._number)))
        return self._last_records(self._calls.dn_caller_flows, FLOW)

    def _last_records(self, copy_records: Callable[..., int], layout: Layout) -> Union[Array[c_char], memoryview]:
        """Returns the records of the last call, which the library keeps for this caller. `copy_records` is the library's function
        that copies them, and `_number` contains their number."""
        count = self._number.value
        if count == 0:
            return NO_BYTES
        records = (c_char * (layout.size * count))()
        succeed(copy_records(self._self, c_size_t(0), byref(records), c_size_t(count), byref(self._number)))
        return records


class Service(Closing):
    """An emulator shared by a program's threads, each through a caller.

    All callers' calls form a single history. `history` sets its file, `take` appends the calls so far to the file, and `close`, or
    the end of a `with` block, appends the rest and the file's end. Before a `take`, the entries are in memory.
    """

    def __init__(self, callers: int, seed: Optional[int] = None) -> None:
        """Opens a service of 1 to 15 callers, numbered from 0. `seed` determines the random words of packets without a word.

        RangeError: the count is outside that range.
        """
        if not 1 <= index(callers) <= MOST_CALLERS:
            raise RangeError(f"callers {callers} isn't in 1 to {MOST_CALLERS}")
        self._calls = CDLL(LIBRARY)
        self._turn = WaitingTurn()
        self._taken = 0  # the number of entries that `take` has moved
        self._file: Optional[HistoryFile] = None
        self._handle = Handle()
        self._handles = (Handle * callers)()  # the callers' handles
        self._text = (c_char * FIRST_ROOM)()  # the buffer for entries' text
        count = c_size_t(len(self._handles))
        succeed(self._calls.dn_service_open_with_key(byref(self._handle), self._handles, count, *secret()))
        seeds = Random(seed)
        calls = PyDLL(LIBRARY)
        self.callers = tuple(
            Caller(calls, byref(self._handles, number * sizeof(Handle)), number, seeds.getrandbits(64)) for number in range(callers)
        )

    def history(self, path: Union[str, PathLike[str]]) -> None:
        """Sets the history's file, which is created or emptied. ValueError: there is a file already, or `take` has moved entries
        before."""
        with self._turn:
            if self._file is not None or self._taken:
                raise ValueError("the history has a file, or a part of it was taken before")
            self._file = HistoryFile(path)

    def take(self) -> int:
        """Moves the calls so far from memory into the history's file, if there is one; returns the number of these entries.

        After an OSError, for example on a full disk, the next call writes the entries.
        """
        with self._turn:
            return self._take()

    def close(self) -> None:
        """Writes the rest and the end of the history's file, and closes the service and its callers. A second call has no effect.

        The call waits for other threads' calls. After an OSError the service is unchanged, and you can call `close` again.
        InUseError: the call interrupts a call in the same thread, for example from a signal handler.
        """
        with ExitStack() as turns:
            for turn in (self._turn, *(caller._turn for caller in self.callers)):
                turns.enter_context(turn)
            if not self._handle.open:
                return
            self._take()
            if self._file is not None:
                self._file.end(self._taken)
            for caller in self.callers:
                caller._release()
            self._calls.dn_service_close(byref(self._handle))

    def __del__(self) -> None:
        # It may run during a call in this thread, for which it can't wait. So each caller closes its own handle.
        if hasattr(self, "callers"):
            self._calls.dn_service_close(byref(self._handle))

    def __repr__(self) -> str:
        state = "closed" if self.closed else f"{len(self.callers)} callers"
        return f"<hingetulip.Service, {state}>"

    def _take(self) -> int:
        start, count = c_uint64(), c_uint64()
        self._write_waiting()
        succeed(retried(self._calls.dn_service_take, byref(self._handle), byref(start), byref(count), byref(c_uint64())))
        self._taken = start.value + count.value
        self._write_waiting()
        if self._file is not None:
            self._file.flush()
        return count.value

    def _write_waiting(self) -> None:
        """Writes the entries that the service has released and that aren't in the file yet, for example after a failed write."""
        size = c_uint64()
        while True:
            room = c_size_t(len(self._text))
            status = self._calls.dn_service_texts(byref(self._handle), byref(self._text), room, byref(size), byref(c_uint64()))
            if status == NO_ENTRY:
                return
            if status == ROOM:
                self._text = (c_char * (2 * size.value))()
                continue
            succeed(status)
            if self._file is not None:
                self._file.write(memoryview(self._text)[: size.value])
