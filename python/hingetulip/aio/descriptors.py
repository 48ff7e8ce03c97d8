"""Keeps the descriptors of a run's simulated sockets, and the loop's callbacks for reading and writing."""

from __future__ import annotations

import asyncio
import posix
import select
import socket
from types import ModuleType
from typing import TYPE_CHECKING, Any, Callable, Union

from hingetulip.aio.real import family_of
from hingetulip.aio.refusals import ALLOWED, NO_COPY, SOCKET, RealTimeError
from hingetulip.aio.switched import Either, Function, own_of

if TYPE_CHECKING:
    from hingetulip.aio.datagram_socket import DatagramSocket
    from hingetulip.aio.loop import Loop

Descriptor = Union[int, Any]  # a number, or an object with a method `fileno`
REFUSED = "dup", "dup2", "readv", "writev", "sendfile"
own_read, own_write = own_of(posix, "read"), own_of(posix, "write")
READABLE, WRITABLE = select.POLLIN | select.POLLHUP | select.POLLERR, select.POLLOUT


class Descriptors:
    """Keeps the loop's callbacks for descriptors. Simulated sockets are always writable.

    The loop polls descriptors of the system, such as pipes, at each step, but simulated time doesn't wait for them.
    """

    def __init__(self, loop: Loop) -> None:
        self.loop = loop
        self.sockets: dict[int, DatagramSocket] = {}
        self.readers: dict[int, asyncio.Handle] = {}
        self.writers: dict[int, asyncio.Handle] = {}
        self._readable: dict[int, None] = {}  # simulated sockets' descriptors with data, in the order in which data arrived
        self._others: set[int] = set()  # the system's descriptors with a reader or a writer
        self._ends: dict[int, int] = {}  # the other ends of the socket pairs, by simulated sockets' descriptors
        self._settled: set[int] = set()  # simulated sockets' descriptors that the system reports as readable

    def new(self, simulated: DatagramSocket) -> int:
        """Returns a descriptor for a simulated socket: an end of a real socket pair. `settle` writes to the other end."""
        near, far = socket.socketpair(socket.AF_UNIX, socket.SOCK_DGRAM)
        own = near.detach()
        self.sockets[own] = simulated
        self._ends[own] = far.detach()
        if simulated.is_readable():
            self._readable[own] = None
        self.settle()
        return own

    def remove(self, descriptor: int) -> None:
        """Removes a closed simulated socket."""
        if self.sockets.pop(descriptor, None) is not None:
            self._readable.pop(descriptor, None)
            self._settled.discard(descriptor)
            socket.close(descriptor)
            socket.close(self._ends.pop(descriptor))

    def settle(self, are_all: bool = False) -> None:
        """Makes the system report those simulated sockets as readable that have data; with `are_all`, all simulated sockets."""
        for own, simulated in self.sockets.items():
            is_readable = are_all or simulated.is_readable()
            if is_readable and own not in self._settled:
                own_write(self._ends[own], b"1")
                self._settled.add(own)
            elif not is_readable and own in self._settled:
                own_read(own, 1)
                self._settled.discard(own)

    def functions(self) -> dict[tuple[ModuleType, str], Either]:
        """Returns the run's versions of the functions for descriptors, which read and write simulated sockets, or refuse them."""
        functions: dict[tuple[ModuleType, str], Either] = {(posix, "read"): self.read, (posix, "write"): self.write}
        functions.update({(posix, name): self.refused for name in REFUSED})
        return functions

    def read(self, own: Function) -> Function:
        """Returns `os.read` for simulated sockets. For other descriptors, a thread of the run yields until they are readable."""

        def read(descriptor: int, *arguments: Any) -> Any:
            if descriptor in self.sockets:
                return self.sockets[descriptor].recv(*arguments)
            if self.loop.baton.member() is not None and posix.get_blocking(descriptor):
                poll = select.poll()
                poll.register(descriptor, READABLE)
                poll.poll()
            return own(descriptor, *arguments)

        return read

    def write(self, own: Function) -> Function:
        """Returns `os.write` for simulated sockets and other descriptors."""

        def write(descriptor: int, data: Any) -> Any:
            if descriptor in self.sockets:
                return self.sockets[descriptor].send(data)
            return own(descriptor, data)

        return write

    def refused(self, own: Function) -> Function:
        """Returns a function that raises RealTimeError for simulated sockets, and calls the system's function for others."""

        def refuse(*arguments: Any, **keywords: Any) -> Any:
            if any(isinstance(argument, int) and argument in self.sockets for argument in arguments[:2]):
                raise RealTimeError(NO_COPY)
            return own(*arguments, **keywords)

        return refuse

    def close(self) -> None:
        """Closes all simulated sockets that have a descriptor."""
        for simulated in list(self.sockets.values()):
            simulated.close()

    def readable(self, simulated: DatagramSocket) -> None:
        """Records that a simulated socket has data."""
        if simulated._descriptor >= 0:
            self._readable[simulated._descriptor] = None

    def number(self, descriptor: Descriptor) -> int:
        """Returns a descriptor's number. ValueError: the descriptor is closed."""
        number: int = descriptor if isinstance(descriptor, int) else descriptor.fileno()
        if number < 0:
            raise ValueError(f"no descriptor: {descriptor!r}")
        return number

    def add(self, waits: dict[int, asyncio.Handle], descriptor: Descriptor, callback: Callable[..., object], args: Any) -> None:
        """Sets a descriptor's callback in `waits`, the readers or the writers, in place of an earlier callback.

        ValueError: the descriptor is closed. RealTimeError: it is a real network socket's, and the network isn't `real`.
        """
        number = self.number(descriptor)
        self.take_away(waits, number)
        waits[number] = asyncio.Handle(callback, args, self.loop, None)
        if number not in self.sockets:
            self._count_real_use(number)
            self._others.add(number)

    def _count_real_use(self, number: int) -> None:
        """Counts a new descriptor of the system as a real use. RealTimeError: the descriptor is a real network socket's, and the
        network isn't `real`."""
        if number not in self._others and not self.loop.net.real:
            if family_of(number) != socket.AF_UNIX:
                raise RealTimeError(SOCKET + ALLOWED)
            self.loop.net.real_uses.descriptors[number] = None

    def take_away(self, waits: dict[int, asyncio.Handle], descriptor: Descriptor) -> bool:
        """Removes a callback; returns False if there was no callback."""
        number = self.number(descriptor)
        handle = waits.pop(number, None)
        if number not in self.readers and number not in self.writers:
            self._others.discard(number)
        if handle is None:
            return False
        handle.cancel()
        return True

    def ready(self) -> list[asyncio.Handle]:
        """Returns the callbacks of all descriptors ready for reading or writing."""
        for own in list(self._readable):
            if not self.sockets[own].is_readable():
                del self._readable[own]
        handles = [self.readers[own] for own in self._readable if own in self.readers]
        handles += [handle for own, handle in self.writers.items() if own in self.sockets]
        if self._others:
            handles += self._ready_of_system()
        return handles

    def _ready_of_system(self) -> list[asyncio.Handle]:
        """Returns the callbacks of the system's descriptors that are ready."""
        poll = select.poll()
        for other in sorted(self._others):
            events = 0
            if other in self.readers:
                events |= READABLE
            if other in self.writers:
                events |= WRITABLE
            poll.register(other, events)
        handles = []
        for other, events in poll.poll(0):
            if other in self.readers and events & READABLE:
                handles.append(self.readers[other])
            if other in self.writers and events & WRITABLE:
                handles.append(self.writers[other])
        return handles
