"""Reads the addresses of hosts and groups, as text. A host's IPv6 addresses are further names for the same host."""

from __future__ import annotations

import ipaddress
import socket
from typing import Any

ANY, ANY_OF_6 = "0.0.0.0", "::"
OWN = ("localhost", "127.0.0.1", "::1")
MAPPED = "::ffff:"  # precedes an IPv4 address in an IPv6 socket
BROADCAST = "255.255.255.255"
WRITTEN = {"": ANY, "<broadcast>": BROADCAST}  # names in Python's sockets, and their addresses
LOW = (1 << 32) - 1
FLAGS = socket.SOCK_NONBLOCK | socket.SOCK_CLOEXEC  # flags that a socket's type may contain


def is_of_6(address: str) -> bool:
    """Returns whether an address is an IPv6 address."""
    return ":" in address


def is_address(text: str) -> bool:
    """Returns whether the text is an address instead of a name."""
    try:
        ipaddress.ip_address(text)
    except ValueError:
        return False
    return True


def any_of(version: int) -> str:
    """Returns the address that stands for all of a host's addresses in IP version 4 or 6."""
    return ANY if version == 4 else ANY_OF_6


def is_group(address: str) -> bool:
    """Returns whether a datagram to this address reaches each subscribed host on a link."""
    if is_of_6(address):
        return address.startswith("ff")
    return address == BROADCAST or address.split(".")[0] in GROUPS


GROUPS = frozenset(map(str, range(224, 240)))  # the first bytes of IPv4 groups


def plain_address(address: Any) -> str:
    """Returns an address or name in the network's form: without a scope, and without the IPv6 prefix of a mapped IPv4 address."""
    text = address.decode() if isinstance(address, (bytes, bytearray)) else str(address)
    text = text.partition("%")[0]
    if not is_of_6(text):
        return WRITTEN.get(text, text)
    try:
        parsed = ipaddress.IPv6Address(text)
    except ValueError:
        return text
    return str(parsed.ipv4_mapped or parsed)


def number(address: str) -> int:
    """Returns an address as a history's number: all bits of an IPv4 address, or an IPv6 address's last 32 bits."""
    return int(ipaddress.ip_address(address)) & LOW


def version_of(family: int) -> int:
    """Returns 4 or 6, from a socket's address family."""
    return 6 if family == socket.AF_INET6 else 4


def port_of(port: Any, is_stream: bool) -> int:
    """Returns a port's number, from a number or a service's name. gaierror: no service has this name."""
    text = port.decode() if isinstance(port, (bytes, bytearray)) else str(port or 0)
    if text.isdecimal():
        return int(text)
    try:
        return socket.getservbyname(text, "tcp" if is_stream else "udp")
    except OSError:
        raise socket.gaierror(socket.EAI_SERVICE, f"no service has the name {text!r}") from None
