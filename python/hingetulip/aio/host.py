"""A simulated host: its addresses, sockets and tasks."""

from __future__ import annotations

import contextvars
import errno
import inspect
from collections import Counter
from typing import TYPE_CHECKING, Any, Callable, Coroutine, Optional, TypeVar

from hingetulip.aio.addresses import ANY, BROADCAST, is_of_6
from hingetulip.aio.datagram import Address, Datagram, Refusal
from hingetulip.aio.endpoint import Endpoint, fault
from hingetulip.aio.transport import Transport

if TYPE_CHECKING:
    import asyncio

    from hingetulip.aio.disturbances import Disturbance
    from hingetulip.aio.network import Network

T = TypeVar("T")
Protocol = TypeVar("Protocol", bound="asyncio.DatagramProtocol")
FIRST_FREE_PORT, PORTS = 49152, 65536
here: contextvars.ContextVar[Host] = contextvars.ContextVar("here")  # the host of the current task


def current_host() -> Host:
    """Returns the host on which this code runs. RuntimeError: the task belongs to no host."""
    try:
        return here.get()
    except LookupError:
        raise RuntimeError("this task runs on no host: make it by host.create_task") from None


def check_host(end: object) -> None:
    """Checks that the end of a link is a host. TypeError: it is another object, such as a coroutine that would return the host."""
    if not isinstance(end, Host):
        hint = "; run what makes it by sim_net.run" if inspect.isawaitable(end) or inspect.isasyncgen(end) else ""
        raise TypeError(f"a link is between two hosts, and {end!r} is none{hint}")


class Host:
    """A simulated host. Its tasks open sockets there, and its first address is the source of their datagrams.

    The host's `time.time()` is ahead of the network's time by `offset` seconds, and gains `drift` seconds per second. Timers
    and `time.monotonic()` are the same on all hosts.
    """

    def __init__(self, net: Network, addresses: tuple[str, ...], name: Optional[str]) -> None:
        self.net = net
        self.addresses = addresses
        self.address = addresses[0]
        self.name = name or addresses[0]
        self.address_of_6 = next((address for address in addresses if is_of_6(address)), None)
        self.sockets: dict[int, list[Endpoint]] = {}
        """The sockets at each port."""
        self.groups = Counter[str]()
        """How many sockets have joined each group."""
        self.next_port = FIRST_FREE_PORT
        self.offset = self.drift = 0.0
        self.looks = 0  # how often code on this host has looked at the clock
        self.skew: Optional[Disturbance] = None
        self.programs: list[Callable[[], Coroutine[Any, Any, Any]]] = []
        self.is_up = True

    def __repr__(self) -> str:
        return f"<Host {self.name}>"

    def address_for(self, version: int) -> str:
        """Returns the host's first address in this IP version, or otherwise its first IPv4 address."""
        return self.address_of_6 or self.address if version == 6 else self.address

    def create_task(self, coroutine: Coroutine[Any, Any, T], *, name: Optional[str] = None) -> asyncio.Task[T]:
        """Creates a task that runs on this host, and returns the task. The tasks that it creates run here too."""
        return self._task(coroutine, name)

    def _task(self, coroutine: Coroutine[Any, Any, T], name: Optional[str] = None) -> asyncio.Task[T]:
        """Returns a new task with this coroutine, for which `current_host` returns this host."""
        context = contextvars.copy_context()
        context.run(here.set, self)
        return context.run(lambda: self.net.loop.create_task(coroutine, name=name))

    def boot(self, program: Callable[[], Coroutine[Any, Any, T]]) -> asyncio.Task[T]:
        """Starts the program's coroutine on this host as a task now, and again after each crash; returns the task."""
        self.programs.append(program)
        return self.create_task(program())

    def stop(self) -> int:
        """Crashes the host: closes its sockets and cancels its tasks; until `start` the host neither sends nor receives nor
        forwards. Returns the number of these sockets and tasks."""
        self.is_up = False
        endpoints = [endpoint for at_port in self.sockets.values() for endpoint in at_port]
        for endpoint in endpoints:
            endpoint.receiver.abort()
        tasks = [task for task in self.net.loop.pending() if task.host is self]
        for task in tasks:
            task.cancel()
        return len(endpoints) + len(tasks)

    def start(self) -> None:
        """Starts the host again after a crash, with a new task for each program of `boot`. Other tasks need a new `create_task`."""
        if not self.is_up and not self.net.closing:
            self.is_up = True
            for program in self.programs:
                self.create_task(program())

    async def endpoint(
        self, factory: Callable[[], Protocol], port: int = 0, remote: Optional[Address] = None
    ) -> tuple[Transport, Protocol]:
        """Creates a datagram endpoint on this host from any task, at `port` or a free port; returns its transport and protocol.

        With `remote`, the endpoint is connected.
        """
        return await self._task(self.net.loop.create_datagram_endpoint(factory, (ANY, port), remote))

    def free_port(self) -> int:
        """Returns an unused port: the next number, or the first one after the last. OSError: all ports are in use."""
        for _ in range(FIRST_FREE_PORT, PORTS):
            port = self.next_port
            self.next_port = port + 1 if port < PORTS - 1 else FIRST_FREE_PORT
            if port not in self.sockets:
                return port
        raise fault(errno.EADDRINUSE, f"{self.name} has no free port")

    def bind(self, endpoint: Endpoint, address: str, port: int) -> None:
        """Binds an endpoint to a port at an address or all addresses; port 0 means any free port. OSError: the port is in use."""
        port = port or self.free_port()
        others = self.sockets.get(port, [])
        if any(other.clashes(address, endpoint) and not (other.shares and endpoint.shares) for other in others):
            raise fault(errno.EADDRINUSE, f"{self.name}: port {port} is in use")
        self.sockets.setdefault(port, []).append(endpoint)
        endpoint.local = address, port

    def free(self, endpoint: Endpoint) -> None:
        """Removes a closed endpoint."""
        port = endpoint.local[1]
        at_port = self.sockets.get(port, [])
        if endpoint in at_port:
            at_port.remove(endpoint)
            if not at_port:
                del self.sockets[port]

    def take(self, datagram: Datagram) -> bool:
        """Delivers a datagram to its socket, the highest in rank if several accept it; returns False if no socket accepts it."""
        at_port = self.sockets.get(datagram[1][1])
        if at_port is None or not self.is_up:
            return False
        if len(at_port) == 1:
            socket = at_port[0]
        else:
            ranked = sorted(reversed([each for each in at_port if each.accepts(datagram)]), key=Endpoint.rank)
            if not ranked:
                return False
            socket = ranked[-1]
        if not socket.accepts(datagram):
            return False
        socket.receiver.take(datagram)
        return True

    def take_of_group(self, datagram: Datagram) -> None:
        """Delivers a multicast or broadcast datagram to all sockets at its port that accept the datagram, if this host is up.
        For a multicast datagram, a socket of this host must have joined the group."""
        group, port = datagram.target
        if self.is_up and (self.groups[group] or group == BROADCAST):
            for socket in list(self.sockets.get(port, ())):
                if socket.accepts(datagram):
                    socket.receiver.take(datagram)

    def take_refusal(self, refusal: Refusal) -> None:
        """Reports a closed port to the connected socket that sent the datagram."""
        for socket in self.sockets.get(refusal.target[1], ()):
            if socket.remote == refusal.source:
                socket.receiver.refuse(fault(errno.ECONNREFUSED))
                return
