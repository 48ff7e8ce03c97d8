"""The datagram sockets of a run: a simulated host's sockets, with the methods of `socket.socket`."""

from __future__ import annotations

import errno
import socket
import struct
from collections import deque
from typing import TYPE_CHECKING, Any, Iterable, Optional

from hingetulip.aio.addresses import ANY, ANY_OF_6, OWN, any_of, is_group, plain_address, version_of
from hingetulip.aio.datagram import NS, Datagram
from hingetulip.aio.endpoint import Endpoint, fault
from hingetulip.aio.host import Host, current_host, here
from hingetulip.aio.hostless_socket import HostlessSocket
from hingetulip.aio.socket_options import option, set_option

if TYPE_CHECKING:
    from hingetulip.aio.network import Network
    from hingetulip.aio.transport import Transport

STAMPS = socket.SOL_SOCKET, 35  # SO_TIMESTAMPNS
Buffer = Any  # an object that a memoryview accepts


class DatagramSocket(HostlessSocket):
    """A simulated datagram socket. Its host is that of the first task that uses the socket.

    The socket only opens a descriptor if code needs one, for `loop.add_reader` or `select`.
    """

    net: Network

    def __init__(self, family: int = -1, type: int = -1, proto: int = -1, fileno: Optional[int] = None) -> None:
        # `socket.socket` isn't initialized, so that the system opens no descriptor.
        self._io_refs = 0  # the files made from this socket, which `socket.socket` counts
        self._closed = False
        self._version = version_of(family)
        self._endpoint: Optional[Endpoint] = None
        self._wanted = (any_of(self._version), 0)  # the address and port to bind to, once the socket is on a host
        self._options: dict[tuple[int, int], Any] = {}
        self._queue: deque[Datagram] = deque()
        self._arrivals: dict[int, int] = {}  # each queued datagram's arrival in ns, if the socket wants time stamps
        self._error: Optional[OSError] = None  # an error from a closed port, for the next call
        is_nonblocking = type > 0 and bool(type & socket.SOCK_NONBLOCK)
        self._timeout = 0.0 if is_nonblocking else socket.getdefaulttimeout()
        self._descriptor = -1
        if here.get(None) is not None:
            self._place()

    @classmethod
    def of(cls, endpoint: Endpoint) -> DatagramSocket:
        """Returns a socket for a transport's endpoint, which lets users set options."""
        new = cls.__new__(cls)
        cls.__init__(new, socket.AF_INET6 if endpoint.version == 6 else socket.AF_INET, socket.SOCK_DGRAM)
        new.net = endpoint.host.net
        new._endpoint = endpoint
        new._timeout = 0.0
        return new

    def _place(self, host: Optional[Host] = None) -> Endpoint:
        """Returns the socket's endpoint. The first call creates the endpoint, on `host` or the current host.

        OSError: the socket is closed, or the port is in use. RuntimeError: this task runs on no host.
        """
        if self._closed:
            raise fault(errno.EBADF)
        if self._endpoint is None:
            endpoint = Endpoint(host or current_host(), self._version)
            endpoint.receiver = self
            for (level, name), value in self._options.items():
                set_option(endpoint, level, name, value)
            if self._wanted != (any_of(self._version), 0):
                endpoint.bind(*self._wanted)
            self._endpoint = endpoint
        return self._endpoint

    def endpoint(self) -> Endpoint:
        """Returns the endpoint for a transport, and binds the endpoint to a port if necessary."""
        endpoint = self._place()
        if not endpoint.local[1]:
            endpoint.bind(*endpoint.local)
        return endpoint

    def hand_over(self, transport: Transport) -> None:
        """Hands the queued datagrams over to a transport."""
        while self._queue:
            transport.take(self._queue.popleft())

    # The endpoint calls these methods.

    def take(self, datagram: Datagram) -> None:
        """Receives a datagram."""
        self._queue.append(datagram)
        if self._options.get(STAMPS):
            self._arrivals[id(datagram)] = self.net.loop.clock.now
        self.net.loop.descriptors.readable(self)

    def refuse(self, fault: OSError) -> None:
        """Records an error from a closed port, which the next call raises."""
        self._error = fault
        self.net.loop.descriptors.readable(self)

    def abort(self) -> None:
        """Closes the socket, since the host crashes."""
        self.close()

    def is_readable(self) -> bool:
        """Returns whether a receiving call ends at once, with a datagram or an error."""
        return bool(self._queue) or self._error is not None

    # Users call these methods, as they do with other sockets.

    def __repr__(self) -> str:
        state = ""
        if self._closed:
            state = " [closed]"
        elif self._endpoint is not None:
            state = f" on {self._endpoint.host.name}, laddr={self.getsockname()}"
        return f"<hingetulip.aio.DatagramSocket{state}>"

    def fileno(self) -> int:
        """Returns a descriptor for select and similar functions; -1 after closing."""
        if self._descriptor < 0 and not self._closed:
            self._descriptor = self.net.loop.descriptors.new(self)
        return self._descriptor

    def setsockopt(self, level: int, optname: int, value: Any, optlen: Optional[int] = None) -> None:
        """Sets an option. Only groups, shared ports, broadcasts and IPV6_V6ONLY have an effect; other options are just stored."""
        self._options[level, optname] = value
        if self._endpoint is not None:
            set_option(self._endpoint, level, optname, value)

    def getsockopt(self, level: int, optname: int, buflen: int = 0) -> Any:
        if (level, optname) == (socket.SOL_SOCKET, socket.SO_ERROR):
            error = self._take_error()
            return 0 if error is None else error.errno
        return option(self._options, level, optname, buflen)

    def bind(self, address: Any) -> None:
        """Binds to a port on the host. Outside a host's tasks, the socket is bound once a host uses it.

        OSError: the port is in use, the address isn't the host's, or the socket is bound already.
        """
        name = plain_address(address[0])
        port = address[1]
        host = here.get(None)
        if name in (ANY, ANY_OF_6, *OWN):
            name = any_of(self._version)
        elif not is_group(name):
            owner = self.net.hosts.get(name)
            if owner is None or host not in (None, owner):
                raise fault(errno.EADDRNOTAVAIL, f"{host.name if host else 'no host'} hasn't the address {name}")
            host = owner
            if name not in owner.addresses:
                name = owner.address_for(self._version)
        if self._endpoint is not None and self._endpoint.local[1]:
            raise fault(errno.EINVAL)
        self._wanted = name, port
        if host is not None and not self._place(host).local[1]:
            self._place().bind(name, port)

    def connect(self, address: Any) -> None:
        """Connects the socket to an address, and discards queued datagrams from other addresses."""
        endpoint = self._place()
        endpoint.connect(endpoint.target(address))
        self._queue = deque(datagram for datagram in self._queue if datagram.source == endpoint.remote)

    def connect_ex(self, address: Any) -> int:
        try:
            self.connect(address)
        except OSError as error:
            return error.errno or errno.EINVAL
        return 0

    def getsockname(self) -> Any:
        if self._endpoint is None:
            return (*self._wanted, 0, 0) if self._version == 6 else self._wanted
        return self._endpoint.name()

    def getpeername(self) -> Any:
        endpoint = self._place()
        if endpoint.remote is None:
            raise fault(errno.ENOTCONN)
        return endpoint.own_form(endpoint.remote)

    def _take_error(self) -> Optional[OSError]:
        """Returns the error from a closed port, and clears it; None if there is none."""
        error = self._error
        self._error = None
        return error

    def _raise_error(self) -> None:
        """Raises the error from a closed port, if there is one."""
        error = self._take_error()
        if error is not None:
            raise error

    def send(self, data: Any, flags: int = 0) -> int:
        endpoint = self._place()
        self._raise_error()
        if endpoint.remote is None:
            raise fault(errno.EDESTADDRREQ)
        return self._send(endpoint, bytes(data), endpoint.remote)

    def sendto(self, data: Any, *rest: Any) -> int:
        endpoint = self._place()
        self._raise_error()
        return self._send(endpoint, bytes(data), endpoint.target(rest[-1]))

    def sendall(self, data: Any, flags: int = 0) -> None:
        self.send(data)

    def sendmsg(self, buffers: Iterable[Any], ancdata: Any = (), flags: int = 0, address: Any = None) -> int:
        data = b"".join(map(bytes, buffers))
        return self.send(data) if address is None else self.sendto(data, address)

    def _send(self, endpoint: Endpoint, data: bytes, target: Any) -> int:
        error = endpoint.send(data, target)
        if error is not None:
            raise error
        return len(data)

    def _await(self, flags: int) -> Endpoint:
        """Returns the endpoint once a datagram has arrived. A thread of the run yields meanwhile.

        OSError: a closed port sent an error, or no datagram has arrived in time. RealTimeError: the loop's thread would wait.
        """
        endpoint = self._place()
        self._raise_error()
        if not self._queue:
            if self._timeout == 0 or flags & socket.MSG_DONTWAIT:
                raise fault(errno.EAGAIN)
            if not self.net.loop.baton.wait(self.is_readable, self._timeout):
                raise socket.timeout("timed out")
            self._raise_error()
        return endpoint

    def recvfrom(self, bufsize: int, flags: int = 0) -> tuple[bytes, Any]:
        """Returns the next datagram's data and source. BlockingIOError: none has arrived, and the socket doesn't block.
        RealTimeError: none has arrived, and the loop's thread would wait."""
        endpoint = self._await(flags)
        datagram = self._queue[0] if flags & socket.MSG_PEEK else self._queue.popleft()
        return datagram.data[:bufsize], endpoint.own_form(datagram.source)

    def recv(self, bufsize: int, flags: int = 0) -> bytes:
        return self.recvfrom(bufsize, flags)[0]

    def recvfrom_into(self, buffer: Buffer, nbytes: int = 0, flags: int = 0) -> tuple[int, Any]:
        room = memoryview(buffer).cast("B")
        data, source = self.recvfrom(nbytes or len(room), flags)
        room[: len(data)] = data
        return len(data), source

    def recv_into(self, buffer: Buffer, nbytes: int = 0, flags: int = 0) -> int:
        return self.recvfrom_into(buffer, nbytes, flags)[0]

    def recvmsg(self, bufsize: int, ancbufsize: int = 0, flags: int = 0) -> tuple[bytes, list[Any], int, Any]:
        """Returns the next datagram's data, its time stamp if the socket wants one, MSG_TRUNC if the data is cut off, and the
        source."""
        self._await(flags)
        datagram = self._queue[0]
        data, source = self.recvfrom(bufsize, flags)
        stamps = []
        arrival = self._arrivals.pop(id(datagram), None)
        if arrival is not None:
            stamps.append((*STAMPS, struct.pack("@ll", *divmod(round(self.net.start * NS) + arrival, NS))))
        return data, stamps, socket.MSG_TRUNC if len(datagram.data) > bufsize else 0, source

    def shutdown(self, how: int) -> None:
        self.getpeername()

    def _real_close(self, *_: object) -> None:
        """Closes the socket. `close` calls this method when all files made from the socket are closed."""
        self._closed = True
        if self._endpoint is not None and self._endpoint.receiver is self:
            self._endpoint.close()
        self.net.loop.descriptors.remove(self._descriptor)
        self._descriptor = -1
