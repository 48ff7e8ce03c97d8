"""The parts of a simulated datagram socket that don't depend on its host."""

from __future__ import annotations

import errno
import socket
from typing import NoReturn, Optional

from hingetulip.aio.endpoint import fault
from hingetulip.aio.refusals import NO_COPY


class HostlessSocket(socket.socket):
    """A simulated datagram socket's kind and timeout, and the methods that such a socket refuses."""

    _version: int  # 4 or 6
    _timeout: Optional[float]  # in s; None if calls wait without a limit, and 0 if they don't wait

    @property
    def family(self) -> socket.AddressFamily:
        return socket.AF_INET6 if self._version == 6 else socket.AF_INET

    @property
    def type(self) -> socket.SocketKind:
        return socket.SOCK_DGRAM

    @property
    def proto(self) -> int:
        return socket.IPPROTO_UDP

    @property
    def timeout(self) -> Optional[float]:
        return self._timeout

    def setblocking(self, flag: bool) -> None:
        self._timeout = None if flag else 0.0

    def getblocking(self) -> bool:
        return self._timeout != 0

    def settimeout(self, value: Optional[float]) -> None:
        self._timeout = value

    def gettimeout(self) -> Optional[float]:
        return self._timeout

    def listen(self, *_: object) -> NoReturn:
        raise fault(errno.EOPNOTSUPP)

    def accept(self) -> NoReturn:
        raise fault(errno.EOPNOTSUPP)

    def detach(self) -> NoReturn:
        raise NotImplementedError(NO_COPY)

    def dup(self) -> NoReturn:
        raise NotImplementedError(NO_COPY)
