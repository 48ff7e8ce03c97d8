"""Base classes and functions that shapers, callers, audits and services share. They allow only one call at a time, and keep the
library's memory until `close` frees it."""

from __future__ import annotations

from abc import ABC, abstractmethod
from ctypes import byref, c_char, c_size_t, c_uint64
from functools import partial
from operator import index
from os import urandom
from random import Random
from struct import Struct
from struct import error as StructError
from threading import Lock, RLock
from types import TracebackType
from typing import Any, Callable, NoReturn, Optional, TypeVar, Union

from hingetulip.batches import QUEUED, make_fate, read_fate
from hingetulip.errors import InUseError, LineError, RangeError
from hingetulip.layout import DELIVERY, FATE, FAULT, FLOW, PACKET, PIPE, QUEUE
from hingetulip.library import LAST_MOMENT, LINE, NEVER, Handle, failure, reason
from hingetulip.records import Delivery, Fate, FlowStatus

NEITHER_OR_BOTH = "a packet is sent to a pipe or to a queue"
NO_BYTES = memoryview(b"")
pack_packet = PACKET.record.pack_into
unpack_fate = FATE.record.unpack
iterate_deliveries = DELIVERY.record.iter_unpack
pack_moment = Struct("=Q").pack_into
SECRET = Struct("=QQ")
LineText = Union[str, bytes, bytearray, memoryview]
Closable = TypeVar("Closable", bound="Closing")


def encode_line(line: LineText) -> bytes:
    """Returns a configuration line's bytes. Surrogates remain, so that the library reports text that isn't UTF-8."""
    return bytes(line) if isinstance(line, (bytes, bytearray, memoryview)) else line.encode("utf-8", "surrogatepass")


def secret() -> tuple[c_uint64, c_uint64]:
    """Returns a random key for a flow table, so that an attacker can't choose packets that slow the table. No result depends on the
    key."""
    high, low = SECRET.unpack(urandom(SECRET.size))
    return c_uint64(high), c_uint64(low)


def succeed(status: int) -> None:
    """Raises the exception for a call's status, unless the call succeeded."""
    if status:
        raise failure(status)


def error_of_fields(**fields: Any) -> Exception:
    """Returns the exception for a packet's fields, or a moment, outside the library's types."""
    for name, value in fields.items():
        most = LAST_MOMENT if name == "moment" else 256 ** PACKET.width(name) - 1
        try:
            if not 0 <= index(value) <= most:
                return RangeError(f"{name} {value} isn't in 0 to {most}")
        except TypeError:
            return TypeError(f"{name} {value!r} isn't a whole number")
    return AssertionError(fields)


def read_flow(*fields: int) -> FlowStatus:
    """Returns a flow from the fields of the library's struct."""
    values = dict(zip(FLOW.codes, fields))
    number = values.pop("number")
    kind = values.pop("kind")
    return FlowStatus(queue=number if kind == QUEUE else None, **values)


class Turn:
    """Allows one call at a time. A call during another call raises InUseError, so that no result mixes two calls.

    `take` begins a call and returns whether that succeeded, and `give` ends the call.
    """

    def __init__(self) -> None:
        lock = Lock()
        self.take: Callable[[], bool] = partial(lock.acquire, False)
        self.give: Callable[[], None] = lock.release

    def __enter__(self) -> None:
        if not self.take():
            raise InUseError

    def __exit__(self, kind: Optional[type[BaseException]], error: Optional[BaseException], trace: Optional[TracebackType]) -> None:
        self.give()


class WaitingTurn(Turn):
    """Allows one call at a time to several threads: a thread waits for other threads' calls.

    Signal handlers that interrupt a call, and finalizers that run during a call, can't wait for that call: they raise InUseError.
    """

    def __init__(self) -> None:
        self._lock = RLock()
        self._is_taken = False
        self.take = self._take
        self.give = self._give

    def _take(self) -> bool:
        self._lock.acquire()
        if self._is_taken:
            self._lock.release()
            return False
        self._is_taken = True
        return True

    def _give(self) -> None:
        self._is_taken = False
        self._lock.release()


class Closing(ABC):
    """The owner of a library handle. `close`, the end of a `with` block or the end of the last reference closes the handle."""

    _handle: Handle

    @abstractmethod
    def close(self) -> None:
        """Frees all memory. A second call has no effect."""

    @property
    def closed(self) -> bool:
        """Whether the handle is closed."""
        return not self._handle.open

    def __enter__(self: Closable) -> Closable:
        return self

    def __exit__(self, kind: Optional[type[BaseException]], error: Optional[BaseException], trace: Optional[TracebackType]) -> None:
        self.close()

    def __reduce__(self) -> NoReturn:
        raise TypeError(f"a hingetulip.{type(self).__name__} is neither copied nor pickled")

    def __repr__(self) -> str:
        return f"<hingetulip.{type(self).__name__}, {'closed' if self.closed else 'open'}>"


class Calls(ABC):
    """The calls of an emulator. A subclass sets the library's functions, which accept a call's arguments and return its status."""

    def __init__(self, turn: Turn, seed: Optional[int]) -> None:
        self._turn = turn
        self._random = Random(seed)
        self._take, self._give = turn.take, turn.give  # a `with` block would need a tenth of a call's time
        self._packet = (c_char * PACKET.size)()
        self._fate = (c_char * FATE.size)()
        self._moment = c_uint64()
        self._number = c_uint64()
        # These arguments of calls are made once, since making them at each call would take longer than the call.
        self._submitted: tuple[Any, ...] = byref(self._packet), byref(self._fate)
        self._advanced = self._moment, byref(self._number)

    _configure: Callable[..., int]
    _submit: Callable[..., int]
    _advance: Callable[..., int]
    _wake: Callable[..., int]

    @abstractmethod
    def _due(self) -> Any:
        """Collects at the moment in `_moment`; returns the records of the due packets."""

    @abstractmethod
    def _flows(self) -> Any:
        """Returns the records of all flows."""

    def configure(self, line: LineText) -> None:
        """Applies a configuration line, such as `pipe 1 config bw 8Mbit/s delay 20ms`. A line without words changes nothing.

        LineError: the line isn't a command. RefusedError: the pipe or queue doesn't exist, or a pipe to delete has queues.
        """
        succeed(self._obeyed(encode_line(line)))

    def _obeyed(self, line: bytes) -> int:
        """Applies a line, and returns the call's status. LineError: the line isn't a command, though it has words."""
        fault = (c_char * FAULT.size)()
        with self._turn:
            status = self._configure(line, c_size_t(len(line)), byref(fault))
        if status == LINE:
            word, kind = FAULT.record.unpack(fault)
            raise LineError(reason(LINE, kind), word, line.decode("utf-8", "replace"))
        return status

    def submit(
        self,
        moment: int,
        length: int,
        *,
        pipe: Optional[int] = None,
        queue: Optional[int] = None,
        src: int = 0,
        dst: int = 0,
        proto: int = 0,
        sport: int = 0,
        dport: int = 0,
        word: Optional[int] = None,
    ) -> Fate:
        """Returns the fate of a packet with `length` bytes that arrives at a pipe or queue at `moment` ns.

        Addresses are numbers: 10.0.0.1 is 0x0a000001. The packet is lost if the low 31 bits of its word are below the loss rate
        (`plr`) times 2^31; without a word, the shaper draws one. RangeError: a number is outside its range. TypeError: there is no
        target, or two. InUseError: another call is in progress.
        """
        if pipe is None:
            number, kind = queue, QUEUE
        else:
            number, kind = pipe, PIPE
        if number is None or kind == PIPE and queue is not None:
            raise TypeError(NEITHER_OR_BOTH)
        if not self._take():
            raise InUseError
        try:
            if word is None:
                word = self._random.getrandbits(32)
            pack_packet(self._packet, 0, moment, src, dst, word, sport, dport, length, number, kind, proto)
            status = self._submit(*self._submitted)
            at, flow, packet, outcome = unpack_fate(self._fate)
        except StructError:
            raise error_of_fields(
                moment=moment, src=src, dst=dst, word=word, sport=sport, dport=dport, length=length, number=number, proto=proto
            ) from None
        finally:
            self._give()
        if status:
            raise failure(status)
        if outcome == 0:
            return make_fate((QUEUED, at, flow, packet))
        return read_fate(at, flow, packet, outcome)

    def advance(self, moment: int) -> int:
        """Moves the clock forward to `moment` ns, unless the clock is later; returns the clock in ns. No packet leaves."""
        with self._turn:
            self._set_moment(moment)
            succeed(self._advance(*self._advanced))
            return self._number.value

    def collect(self, moment: int) -> list[Delivery]:
        """Moves the clock forward to `moment` ns, and returns the packets that are due and leave, in the order in which they are
        due."""
        with self._turn:
            self._set_moment(moment)
            records = self._due()
            return list(map(Delivery._make, iterate_deliveries(records))) if records else []

    def show(self) -> list[FlowStatus]:
        """Returns the states of all flows, ordered by number."""
        with self._turn:
            return [read_flow(*fields) for fields in FLOW.record.iter_unpack(self._flows())]

    def wake(self) -> Optional[int]:
        """Returns the moment for a collect: the first, in ns, at which a packet is due or its transmission begins, without further
        calls.

        Earlier collects return no packet. A collect at that moment may return no packet either, if it only begins a transmission.
        The result exceeds LAST_MOMENT if no packet can leave any more, and is None if no packet waits or is in transit. The call
        changes nothing, and a service's history doesn't contain the call. Other callers may call before this caller's next call.
        """
        with self._turn:
            succeed(self._wake(byref(self._number)))
            return None if self._number.value == NEVER else self._number.value

    def _set_moment(self, moment: int) -> None:
        """Sets the moment of the next call. ctypes would truncate numbers beyond 64 bits."""
        try:
            pack_moment(self._moment, 0, moment)
        except StructError:
            raise error_of_fields(moment=moment) from None
