"""An event loop in simulated time, whose datagrams pass the links of a network."""

from __future__ import annotations

import asyncio
import errno
import socket
import threading
from collections import deque
from typing import TYPE_CHECKING, Any, Callable, NoReturn, Optional, TypeVar

from hingetulip.aio.baton import Baton
from hingetulip.aio.addresses import ANY, ANY_OF_6, OWN, any_of, is_of_6, plain_address, version_of
from hingetulip.aio.clock import Clock
from hingetulip.aio.datagram import Address
from hingetulip.aio.datagram_socket import DatagramSocket
from hingetulip.aio.descriptors import Descriptor, Descriptors
from hingetulip.aio.endpoint import Endpoint
from hingetulip.aio.host import Protocol, current_host, here
from hingetulip.aio.refusals import NO_TCP
from hingetulip.aio.task import Task
from hingetulip.aio.transport import Transport

if TYPE_CHECKING:
    from hingetulip.aio.network import Network

T = TypeVar("T")
FEW_TASKS = 64  # the tasks that the loop holds before it looks for ended ones
RESOLUTION = 0.5e-9  # s: a timer is due at the nearest ns
LEFT_OUT = (  # methods for TCP
    "create_connection",
    "create_server",
    "connect_accepted_socket",
    "sock_accept",
    "sock_sendfile",
    "sendfile",
    "start_tls",
)
NO_SYSTEM = (
    "a simulated host has no processes, pipes, Unix sockets and signals: `hinge run --simulated` takes programs into simulated time"
)
OF_THE_SYSTEM = (  # methods for processes, pipes, Unix sockets and signals
    "create_unix_connection",
    "create_unix_server",
    "subprocess_exec",
    "subprocess_shell",
    "connect_read_pipe",
    "connect_write_pipe",
    "add_signal_handler",
    "remove_signal_handler",
)


class Loop(asyncio.BaseEventLoop):
    """An event loop in simulated time, whose datagrams pass the links of a network."""

    _ready: deque[asyncio.Handle]

    def __init__(self, net: Network) -> None:
        super().__init__()
        self.net = net
        self.descriptors = Descriptors(self)
        self.baton = Baton(self)
        self._selector = self.clock = Clock(self)
        self._clock_resolution = RESOLUTION
        self.count = 0  # the number of tasks so far
        self.tasks: list[Task[Any]] = []  # the tasks that the loop holds: all unfinished ones, and some others
        self.room = FEW_TASKS  # the length of `tasks` at which the loop removes finished tasks
        self.set_task_factory(lambda loop, coroutine, **more: Task(coroutine, loop=self, **more))

    def time(self) -> float:
        """Returns the simulated seconds since the loop was created. `clock.now` contains the ns."""
        return self.clock.seconds

    def resolve(self, resolution: float) -> None:
        """Sets the clock's resolution to `resolution`, the distance between two floats at the current time. A timer is due at the
        nearest float."""
        self._clock_resolution = max(RESOLUTION, resolution)

    def _process_events(self, events: list[asyncio.Handle]) -> None:
        """Schedules the callbacks of readable and writable descriptors. The clock delivers datagrams directly to their sockets."""
        for handle in events:
            self._add_callback(handle)  # type: ignore[attr-defined]

    def _write_to_self(self) -> None:
        """Does nothing: requests from other threads wait for the loop's next step."""

    def keep(self, task: Task[Any]) -> None:
        """Keeps a reference to a task until the task ends. Otherwise the garbage collector could end a waiting task."""
        if len(self.tasks) >= self.room:
            self.tasks = [each for each in self.tasks if not each.done()]
            self.room = max(FEW_TASKS, 2 * len(self.tasks))
        self.tasks.append(task)

    def pending(self) -> list[Task[Any]]:
        """Returns the unfinished tasks except the current one, in the order of their creation."""
        current = asyncio.current_task(self)
        return [task for task in self.tasks if not task.done() and task is not current]

    def run_in_executor(self, executor: Any, func: Callable[..., T], *args: Any) -> asyncio.Future[T]:
        """Runs a function in a new thread of the run, which yields instead of waiting, or in this thread if the network is `real`.
        Returns the future for the function's result."""
        future: asyncio.Future[T] = self.create_future()

        def end(setter: Callable[[Any], None], value: object) -> None:
            if not future.done():
                setter(value)

        def call() -> None:
            try:
                result = func(*args)
            except Exception as error:
                self.call_soon_threadsafe(end, future.set_exception, error)
            else:
                self.call_soon_threadsafe(end, future.set_result, result)

        if self.net.real:
            call()
        else:
            threading.Thread(target=call, name="to_thread", daemon=True).start()  # a daemon, since it may wait for ever
        return future

    def add_reader(self, fd: Descriptor, callback: Callable[..., object], *args: Any) -> None:
        self.descriptors.add(self.descriptors.readers, fd, callback, args)

    def remove_reader(self, fd: Descriptor) -> bool:
        return self.descriptors.take_away(self.descriptors.readers, fd)

    def add_writer(self, fd: Descriptor, callback: Callable[..., object], *args: Any) -> None:
        self.descriptors.add(self.descriptors.writers, fd, callback, args)

    def remove_writer(self, fd: Descriptor) -> bool:
        return self.descriptors.take_away(self.descriptors.writers, fd)

    async def _when_readable(self, sock: socket.socket, call: Callable[..., T], *args: Any) -> T:
        """Returns the result of a call on a simulated socket, which this method repeats until the socket has data."""
        simulated(sock).setblocking(False)
        while True:
            try:
                return call(*args)
            except BlockingIOError:
                arrival: asyncio.Future[None] = self.create_future()
                self.add_reader(sock, arrival.set_result, None)
                try:
                    await arrival
                finally:
                    self.remove_reader(sock)

    async def sock_sendto(self, sock: socket.socket, data: Any, address: Any) -> Any:
        return simulated(sock).sendto(data, address)

    async def sock_sendall(self, sock: socket.socket, data: Any) -> None:
        simulated(sock).sendall(data)

    async def sock_connect(self, sock: socket.socket, address: Any) -> None:
        simulated(sock).connect(address)

    async def getaddrinfo(
        self, host: Any, port: Any, *, family: int = 0, type: int = 0, proto: int = 0, flags: int = 0
    ) -> list[Any]:
        """Returns the addresses of a host in the network, from an address or a name. gaierror: there is no such host."""
        return self.net.names.addresses_of(host, port, family, type, proto, flags)

    async def getnameinfo(self, sockaddr: Any, flags: int = 0) -> tuple[str, str]:
        """Returns the address and port as numbers."""
        return str(sockaddr[0]), str(sockaddr[1])

    async def create_datagram_endpoint(  # type: ignore[override]
        self,
        protocol_factory: Callable[[], Protocol],
        local_addr: Optional[Address] = None,
        remote_addr: Optional[Address] = None,
        *,
        family: int = 0,
        reuse_port: Optional[bool] = None,
        allow_broadcast: Optional[bool] = None,
        sock: Optional[socket.socket] = None,
        **more: Any,
    ) -> tuple[Transport, Protocol]:
        """Creates a transport on the task's host, or on the host with the local address, and returns the transport and its
        protocol. With `sock`, the transport uses this simulated socket and its queued datagrams."""
        if sock is not None:
            endpoint = simulated(sock).endpoint()
        else:
            endpoint = self._bound(local_addr, remote_addr, family, bool(reuse_port))
            endpoint.broadcasts = bool(allow_broadcast)
        protocol = protocol_factory()
        transport = Transport(endpoint, protocol, None if sock is None else simulated(sock))
        self.call_soon(protocol.connection_made, transport)
        if sock is not None:
            simulated(sock).hand_over(transport)
        await asyncio.sleep(0)
        return transport, protocol

    def _bound(self, local: Optional[Address], remote: Optional[Address], family: int, shares: bool) -> Endpoint:
        """Returns an endpoint with a local address, connected to the remote address if any. NotImplementedError: the address is
        a Unix socket's. OSError: the local address is another host's, or the port is in use. gaierror: there is no such host."""
        if family == socket.AF_UNIX or isinstance(local or remote, str):
            raise NotImplementedError(NO_SYSTEM)
        names = [plain_address(address[0] or "localhost") for address in (local, remote) if address]
        version = 6 if any(map(is_of_6, names)) and names[0] != "::1" else 4
        if family:
            version = version_of(family)
        name = names[0] if local else any_of(version)
        port = int(local[1]) if local else 0
        if name in (ANY, ANY_OF_6, *OWN):
            host = current_host()
            address = any_of(version)
        else:
            address = self.net.names.address_of(name, version)
            host = self.net.hosts[address]
            if here.get(host) is not host:
                raise OSError(errno.EADDRNOTAVAIL, f"{current_host().name} hasn't the address {name}")
        endpoint = Endpoint(host, version)
        endpoint.shares = shares
        if remote:
            self.net.names.address_of(names[-1], version)
        endpoint.bind(address, port)
        endpoint.remote = endpoint.target((names[-1], int(remote[1]))) if remote else None
        return endpoint


def refusing(text: str) -> Callable[..., NoReturn]:
    """Returns a method of the loop that raises NotImplementedError with this advice."""

    def refuse(loop: Loop, *arguments: Any, **keywords: Any) -> NoReturn:
        raise NotImplementedError(text)

    return refuse


def receiving(name: str) -> Callable[..., Any]:
    """Returns the loop's method for the method `name` of sockets, which waits for data."""
    return lambda loop, sock, *arguments: loop._when_readable(sock, getattr(sock, name), *arguments)


for name in ("recv", "recv_into", "recvfrom", "recvfrom_into"):
    setattr(Loop, f"sock_{name}", receiving(name))
for name in LEFT_OUT:
    setattr(Loop, name, refusing(NO_TCP))
for name in OF_THE_SYSTEM:
    setattr(Loop, name, refusing(NO_SYSTEM))


def simulated(sock: socket.socket) -> DatagramSocket:
    """Returns the socket, which must be simulated. NotImplementedError: it is a system socket."""
    if not isinstance(sock, DatagramSocket):
        raise NotImplementedError(f"{NO_TCP}; {sock!r} isn't a datagram socket of the run")
    return sock
