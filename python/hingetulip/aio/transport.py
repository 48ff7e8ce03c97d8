"""The asyncio transport over a host's datagram socket."""

from __future__ import annotations

import asyncio
import contextvars
import errno
from asyncio import Handle
from typing import TYPE_CHECKING, Any, Optional, Union

from hingetulip.aio.datagram import Address, Datagram
from hingetulip.aio.endpoint import Endpoint

if TYPE_CHECKING:
    from hingetulip.aio.datagram_socket import DatagramSocket

Data = Union[bytes, bytearray, memoryview]


class Transport(asyncio.DatagramTransport):
    """Sends datagrams from a host's endpoint, and delivers datagrams to a protocol."""

    def __init__(self, endpoint: Endpoint, protocol: asyncio.DatagramProtocol, socket: Optional[DatagramSocket] = None) -> None:
        self.host = endpoint.host
        self.endpoint = endpoint
        self.protocol = protocol
        self.socket = socket
        remote = endpoint.remote
        super().__init__({"sockname": endpoint.name(), "peername": remote and endpoint.own_form(remote)})
        self.closing = False
        self.context = contextvars.copy_context()
        self.loop = self.host.net.loop
        endpoint.receiver = self

    @property
    def local(self) -> Address:
        """The bound address and port."""
        return self.endpoint.local

    @property
    def remote(self) -> Optional[Address]:
        """The address and port of the peer, if connected."""
        return self.endpoint.remote

    def get_extra_info(self, name: str, default: Any = None) -> Any:
        """Returns `socket`, `sockname` or `peername`, as other transports do."""
        if name == "socket":
            if self.socket is None:
                from hingetulip.aio.datagram_socket import DatagramSocket

                self.socket = DatagramSocket.of(self.endpoint)
            return self.socket
        return super().get_extra_info(name, default)

    def sendto(self, data: Data, addr: Optional[Any] = None) -> None:
        """Sends a datagram. As in asyncio, the protocol's `error_received` gets the system's errors.

        OSError: the transport has no peer, and there is no address. TypeError: the data isn't bytes. ValueError: the address isn't
        the peer's.
        """
        if not isinstance(data, (bytes, bytearray, memoryview)):
            raise TypeError(f"data has to be bytes, not {type(data).__name__}")
        if self.closing:
            return
        endpoint = self.endpoint
        remote = endpoint.remote
        if remote is None:
            if addr is None:
                raise OSError(errno.EDESTADDRREQ, "a socket without a peer needs an address to send to")
            remote = endpoint.target(addr)
        elif addr is not None and tuple(addr[:2]) != remote and endpoint.target(addr) != remote:
            raise ValueError(f"the socket is connected to {remote}, and not to {addr}")
        fault = endpoint.send(bytes(data), remote)
        if fault is not None:
            self.protocol.error_received(fault)

    def take(self, datagram: Datagram) -> None:
        """Receives a datagram, which the protocol gets in the loop's next step."""
        loop = self.loop
        loop._ready.append(Handle(self._deliver, (datagram,), loop, self.context))  # the same as loop.call_soon, and faster

    def _deliver(self, datagram: Datagram) -> None:
        if not self.closing:
            source = datagram.source
            if self.endpoint.version != 4:
                source = self.endpoint.own_form(source)  # type: ignore[assignment]
            self.protocol.datagram_received(datagram.data, source)

    def refuse(self, fault: OSError) -> None:
        """Receives an error from a closed port, which the protocol gets in the loop's next step."""
        self.loop.call_soon(self._deliver_error, fault, context=self.context)

    def _deliver_error(self, fault: OSError) -> None:
        if not self.closing:
            self.protocol.error_received(fault)

    def close(self) -> None:
        if not self.closing:
            self.closing = True
            self.endpoint.close()
            self.loop.call_soon(self._end, context=self.context)

    def _end(self) -> None:
        self.protocol.connection_lost(None)
        if self.socket is not None:
            self.socket.close()

    def abort(self) -> None:
        self.close()

    def is_closing(self) -> bool:
        return self.closing

    def set_protocol(self, protocol: asyncio.BaseProtocol) -> None:
        assert isinstance(protocol, asyncio.DatagramProtocol)
        self.protocol = protocol

    def get_protocol(self) -> asyncio.BaseProtocol:
        return self.protocol
