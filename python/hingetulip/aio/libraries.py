"""Replaces functions of some libraries during a run: libraries that keep the system's functions from their import, call them in C
code, or only accept the system's sockets."""

from __future__ import annotations

import socket
import sys
from contextlib import ExitStack, contextmanager
from typing import Any, Iterator
from unittest import mock

from hingetulip.aio.addresses import is_of_6
from hingetulip.aio.datagram_socket import DatagramSocket
from hingetulip.aio.host import current_host
from hingetulip.aio.refusals import NO_TRIO, RealTimeError

PREFIX, PREFIX_OF_6 = 24, 64  # bits of the addresses' network parts


def adapters(*_: object, **__: object) -> list[Any]:
    """Returns the current host's addresses in ifaddr's format."""
    ifaddr: Any = sys.modules["ifaddr"]
    host = current_host()
    ips = []
    for address in host.addresses:
        if is_of_6(address):
            ips.append(ifaddr.IP((address, 0, 0), PREFIX_OF_6, host.name))
        else:
            ips.append(ifaddr.IP(address, PREFIX, host.name))
    return [ifaddr.Adapter(host.name, host.name, ips, index=1)]


def addresses(use_ipv4: bool, use_ipv6: bool) -> list[str]:
    """Returns the current host's addresses for aioice."""
    return [address for address in current_host().addresses if (use_ipv6 if is_of_6(address) else use_ipv4)]


def trio_socket(sock: socket.socket) -> Any:
    """Returns trio's socket for a system socket. RealTimeError: the socket is simulated, and trio wouldn't call its methods."""
    if isinstance(sock, DatagramSocket):
        raise RealTimeError(NO_TRIO)
    return sys.modules["trio._socket"]._SocketType(sock)


REPLACED = (  # the modules and names of the functions, and the functions in their place
    ("ifaddr", "get_adapters", adapters),
    ("aioice.ice", "get_host_addresses", addresses),
    ("trio._socket", "from_stdlib_socket", trio_socket),
    ("trio.socket", "from_stdlib_socket", trio_socket),
)


@contextmanager
def libraries_adapted() -> Iterator[None]:
    """Makes ifaddr and aioice find the current host's addresses, and trio refuse its sockets, within the context."""
    with ExitStack() as stack:
        for module, name, function in REPLACED:
            if module in sys.modules:
                stack.enter_context(mock.patch.object(sys.modules[module], name, function, create=True))
        yield
