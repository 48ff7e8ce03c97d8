"""Sets and returns the options of simulated datagram sockets. Only some options have an effect."""

from __future__ import annotations

import errno
import socket
import struct
from typing import Any, Mapping

from hingetulip.aio.endpoint import Endpoint, fault

IP, IPV6, SOCKET = socket.IPPROTO_IP, socket.IPPROTO_IPV6, socket.SOL_SOCKET
SHARED = {(SOCKET, socket.SO_REUSEADDR), (SOCKET, socket.SO_REUSEPORT)}
HEARS_ITSELF = {(IP, socket.IP_MULTICAST_LOOP), (IPV6, socket.IPV6_MULTICAST_LOOP)}
ADDRESS_LENGTH, ADDRESS_OF_6_LENGTH = 4, 16
BUFFER = 212_992  # bytes, the same as on Linux
DEFAULTS = {
    (SOCKET, socket.SO_TYPE): int(socket.SOCK_DGRAM),
    (SOCKET, socket.SO_RCVBUF): BUFFER,
    (SOCKET, socket.SO_SNDBUF): BUFFER,
    (IP, socket.IP_TTL): 64,
    (IP, socket.IP_MULTICAST_TTL): 1,
    (IP, socket.IP_MULTICAST_LOOP): 1,
    (IPV6, socket.IPV6_MULTICAST_LOOP): 1,
    (IPV6, socket.IPV6_UNICAST_HOPS): 64,
    (IPV6, socket.IPV6_MULTICAST_HOPS): 1,
}


def option_number(value: Any) -> int:
    """Returns an option's number, from an int or its bytes."""
    return value if isinstance(value, int) else int.from_bytes(value, "little")


def group_of(level: int, value: bytes) -> str:
    """Returns the group address at the start of a membership request."""
    if level == IP:
        return socket.inet_ntop(socket.AF_INET, value[:ADDRESS_LENGTH])
    return socket.inet_ntop(socket.AF_INET6, value[:ADDRESS_OF_6_LENGTH])


def set_option(endpoint: Endpoint, level: int, name: int, value: Any) -> None:
    """Sets an option on a host's socket. OSError: the socket joins a group twice, leaves a group without membership, or sets
    IPV6_V6ONLY after it was bound."""
    option = level, name
    if option in SHARED:
        endpoint.shares = bool(option_number(value))
    elif option == (SOCKET, socket.SO_BROADCAST):
        endpoint.broadcasts = bool(option_number(value))
    elif option in HEARS_ITSELF:
        endpoint.hears_itself = bool(option_number(value))
    elif option == (IPV6, socket.IPV6_V6ONLY):
        if endpoint.local[1]:
            raise fault(errno.EINVAL)
        endpoint.only_6 = bool(option_number(value))
    elif option in ((IP, socket.IP_ADD_MEMBERSHIP), (IPV6, socket.IPV6_JOIN_GROUP)):
        endpoint.join(group_of(level, value))
    elif option in ((IP, socket.IP_DROP_MEMBERSHIP), (IPV6, socket.IPV6_LEAVE_GROUP)):
        endpoint.leave(group_of(level, value))


def option(known: Mapping[tuple[int, int], Any], level: int, name: int, length: int) -> Any:
    """Returns an option's value, from the socket's options `known` or by default: a number, or that many bytes if `length`
    isn't 0."""
    value = known.get((level, name), DEFAULTS.get((level, name), 0))
    if length:
        return struct.pack("=i", value)[:length] if isinstance(value, int) else bytes(value)[:length]
    return option_number(value)
