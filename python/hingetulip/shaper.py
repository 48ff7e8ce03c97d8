"""A shaper: pipes, queues, and the packets in them."""

from __future__ import annotations

from ctypes import byref, c_char, c_size_t, c_uint32, c_uint64
from functools import partial
from struct import error as StructError
from typing import Any, Callable, Optional

from hingetulip.batches import Deliveries, Fates, Packets
from hingetulip.calls import NEITHER_OR_BOTH, NO_BYTES, Calls, Closing, Turn, pack_packet, secret, succeed, error_of_fields
from hingetulip.errors import RangeError
from hingetulip.layout import DELIVERY, FATE, FLOW, PIPE, QUEUE, Layout
from hingetulip.library import CALLS, NEW_FLOW, ROOM, Handle, failure
from hingetulip.records import Rule


class Listing:
    """A library call that writes records into a buffer, which grows on demand."""

    def __init__(self, call: Callable[..., int], layout: Layout, *before: Any) -> None:
        """Prepares the call for records of this layout. `before` are the arguments before the buffer."""
        self.call = call
        self.size = layout.size
        self.before = before
        self.count = c_uint64()
        self.room = self.new_room(64)

    def new_room(self, count: int) -> tuple[memoryview, tuple[Any, ...]]:
        """Returns a buffer for `count` records, and the call's arguments. A tuple contains both, so that threads always see a
        matching pair."""
        records = bytearray(self.size * count)
        place = byref((c_char * len(records)).from_buffer(records))
        return memoryview(records), (*self.before, place, c_size_t(count), byref(self.count))

    def listed(self) -> memoryview:
        """Makes the call, and returns its records, which are valid until the next call."""
        records, arguments = self.room
        status = self.call(*arguments)
        if status == ROOM:  # the buffer was too short, and the call did nothing
            records, arguments = self.room = self.new_room(max(self.count.value, 2 * len(records) // self.size))
            status = self.call(*arguments)
        succeed(status)
        count = self.count.value
        return records[: self.size * count] if count else NO_BYTES


class Shaper(Calls, Closing):
    """An independent emulator, at first without pipes.

    Threads may use it in turn; a call during another call raises InUseError. The clock starts at 0 ns, and advances to each later
    moment of a call. A call with an earlier moment has its effect at the clock. `close`, the end of a `with` block or the end of
    the last reference closes the shaper.
    """

    def __init__(self, rule: Rule = Rule.ORDERED, seed: Optional[int] = None) -> None:
        """Opens a shaper. `rule` determines the order of a link's packets, and `seed` the words of packets without a word.
        RangeError: there is no such rule."""
        if rule not in (Rule.ORDERED, Rule.FREE):
            raise RangeError(f"rule {rule!r} is neither ORDERED nor FREE")
        self.__del__()  # closes the handle of an earlier call of __init__
        super().__init__(Turn(), seed)
        self._handle = Handle()
        self._self = byref(self._handle)
        self._configure = partial(CALLS.dn_configure, self._self)
        self._advance = partial(CALLS.dn_advance, self._self)
        self._submit = CALLS.dn_submit
        self._wake = partial(CALLS.dn_wake, self._self)
        self._submitted = self._self, *self._submitted
        self._collected = Listing(CALLS.dn_collect, DELIVERY, self._self, self._moment)
        self._shown = Listing(CALLS.dn_show, FLOW, self._self)
        succeed(CALLS.dn_open_with_key(self._self, c_uint32(rule), *secret()))

    def _due(self) -> memoryview:
        return self._collected.listed()

    def _flows(self) -> memoryview:
        return self._shown.listed()

    def close(self) -> None:
        with self._turn:
            CALLS.dn_close(self._self)

    def __del__(self) -> None:
        if hasattr(self, "_self"):
            CALLS.dn_close(self._self)

    def submit_many(self, packets: Packets) -> Fates:
        """Submits packets in order, as `submit` does, with a single, much faster library call; returns their fates.

        If a packet fails, no later packet arrives, and the exception's `fates` contains the fates of the packets before it.
        """
        count = len(packets)
        if packets.draws:
            packets.word[:] = memoryview(self._random.randbytes(4 * count)).cast("I")
        fates = bytearray(FATE.size * count)
        sources, results = (byref((c_char * len(records)).from_buffer(records)) for records in (packets.records, fates))
        with self._turn:
            status = CALLS.dn_submit_many(self._self, sources, c_size_t(count), results, c_size_t(count), byref(self._number))
            of_arrivals = Fates(memoryview(fates)[: FATE.size * self._number.value])
        if status:
            error = failure(status)
            error.fates = of_arrivals
            raise error
        return of_arrivals

    def reserve(
        self,
        *,
        pipe: Optional[int] = None,
        queue: Optional[int] = None,
        src: int = 0,
        dst: int = 0,
        proto: int = 0,
        sport: int = 0,
        dport: int = 0,
    ) -> bool:
        """Reserves memory for a coming packet, and returns True. Before a packet of the same flow, or after 2^62 calls, the call
        can't reserve memory, and returns False.

        Afterwards `submit` with this packet, whatever its length, allocates no memory, if only `advance`, `collect`, `show`,
        `wake`, `reserve` and `submit` for other flows' packets precede it. The call changes nothing else. RangeError: a number is
        outside its range. TypeError: there is no target, or two. OutOfMemoryError: the system refuses memory.
        """
        if (pipe is None) == (queue is None):
            raise TypeError(NEITHER_OR_BOTH)
        number, kind = (queue, QUEUE) if pipe is None else (pipe, PIPE)
        with self._turn:
            try:
                pack_packet(self._packet, 0, 0, src, dst, 0, sport, dport, 1, number, kind, proto)
            except StructError:
                raise error_of_fields(src=src, dst=dst, sport=sport, dport=dport, number=number, proto=proto) from None
            status: int = CALLS.dn_reserve(self._self, byref(self._packet))
        if status != NEW_FLOW:
            succeed(status)
        return status != NEW_FLOW

    def collect_many(self, moment: int) -> Deliveries:
        """Moves the clock forward to `moment` ns, and returns the packets that are due, as `collect` does, but in the library's
        format, whose columns you can read at once."""
        with self._turn:
            self._set_moment(moment)
            return Deliveries(bytearray(self._collected.listed()))
