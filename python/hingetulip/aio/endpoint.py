"""The endpoint of a socket on a host: its bound address, its peer and its groups."""

from __future__ import annotations

import errno
import os
import socket
from typing import TYPE_CHECKING, Any, Optional, Protocol

from hingetulip.aio.addresses import ANY, ANY_OF_6, BROADCAST, MAPPED, OWN, is_group, is_of_6, plain_address
from hingetulip.aio.datagram import HEADERS_OF_6, MOST_BYTES, Address, Datagram, headers

if TYPE_CHECKING:
    from hingetulip.aio.host import Host


MOST_DATA_OF_6 = MOST_BYTES - HEADERS_OF_6


class Receiver(Protocol):
    """The owner of an endpoint, which receives its datagrams: a transport or a socket."""

    def take(self, datagram: Datagram) -> None:
        """Receives a datagram."""

    def refuse(self, fault: OSError) -> None:
        """Receives an error from a closed port."""

    def abort(self) -> None:
        """Closes, since the host crashes."""


def fault(number: int, text: str = "") -> OSError:
    """Returns the exception for an errno number, with this text or the system's."""
    return OSError(number, text or os.strerror(number))


def families(address: str, only_6: bool) -> str:
    """Returns the IP versions that a socket at this address receives, such as "46"."""
    if not is_of_6(address):
        return "4"
    return "46" if address == ANY_OF_6 and not only_6 else "6"


class Endpoint:
    """The endpoint of a socket on a host. While the endpoint is bound, the host delivers datagrams to its receiver.

    `version` is the IP version, 4 or 6. Unless `only_6` is set, an IPv6 endpoint also receives IPv4 datagrams, and shows their
    addresses in IPv6 form.
    """

    receiver: Receiver

    def __init__(self, host: Host, version: int = 4) -> None:
        self.host = host
        self.version = version
        self.local: Address = (ANY if version == 4 else ANY_OF_6, 0)
        self.remote: Optional[Address] = None  # the peer, once connected
        self.groups: list[str] = []
        self._sources: dict[str, Address] = {}  # the source of datagrams to each target so far
        self.shares = False  # whether other endpoints may use the port too (SO_REUSEADDR, SO_REUSEPORT)
        self.broadcasts = False  # whether broadcasts are permitted (SO_BROADCAST)
        self.hears_itself = True  # whether its host receives its datagrams to a group (IP_MULTICAST_LOOP)
        self.only_6 = False  # whether it refuses IPv4 (IPV6_V6ONLY)

    def name(self) -> tuple[Any, ...]:
        """Returns the local address and port, as getsockname does. After connecting, the address is the source of sent
        datagrams."""
        address, port = self.local
        if self.remote:
            address = self.source_to(self.remote[0])
        return self.own_form((address, port))

    def source_to(self, target: str) -> str:
        """Returns the source address for datagrams to a target, or an empty text if the host lacks an address of that version."""
        address = self.local[0]
        if address not in (ANY, ANY_OF_6) and not is_group(address):
            return address
        if is_of_6(target):
            return self.host.address_of_6 or ""
        return self.host.address

    def own_form(self, address: Address) -> tuple[Any, ...]:
        """Returns an address and port in the form of this socket's family."""
        if self.version == 4:
            return address
        text, port = address
        return (text if is_of_6(text) else MAPPED + text, port, 0, 0)

    def target(self, address: Any) -> Address:
        """Returns the address and port to send to, from a host's address or name. gaierror: the address is of another family than
        the socket."""
        name, port = address[0], address[1]
        target = self._target_address(name)
        if self.version == 4 and is_of_6(target) or self.only_6 and not is_of_6(target):
            raise socket.gaierror(socket.EAI_ADDRFAMILY, f"{name} is of another family than the socket")
        return target, port

    def _target_address(self, name: Any) -> str:
        """Returns the address for a host's address or name; this host's for `localhost` and the like."""
        net = self.host.net
        if name in net.numbers:
            known: str = name
            return known
        text = plain_address(name)
        if text in OWN or text in (ANY, ANY_OF_6):
            return self.host.address
        if text in net.hosts and text not in net.numbers:
            return net.hosts[text].address_for(self.version)
        return text

    def bind(self, address: str, port: int) -> None:
        """Binds to a port at an address; port 0 means any free port. OSError: the port is in use."""
        self.host.bind(self, address, port)
        self._sources.clear()

    def connect(self, remote: Address) -> None:
        """Connects to a peer, and binds to a free port if necessary."""
        if not self.local[1]:
            self.bind(*self.local)
        self.remote = remote

    def send(self, data: bytes, target: Address) -> Optional[OSError]:
        """Sends a datagram; returns the system's error, if any."""
        source = self._sources.get(target[0])
        if source is None:
            try:
                source = self._source(target[0])
            except OSError as error:
                return error
        if len(data) > MOST_DATA_OF_6 and len(data) > MOST_BYTES - headers(target[0]):
            return self._too_long(data, MOST_BYTES - headers(target[0]))
        return self.host.net.send(self.host, Datagram(source, target, data), self.hears_itself)

    def _too_long(self, data: bytes, most: int) -> OSError:
        """Counts data that exceeds the longest datagram, and returns the system's error."""
        self.host.net.refused[f"{self.host.name}: {len(data)} bytes, and a datagram has at most {most}"] += 1
        return fault(errno.EMSGSIZE, f"more than {most} bytes")

    def _source(self, target: str) -> Address:
        """Returns the source address and port for a target, and binds to a free port if necessary. OSError: the host has no address
        of the target's IP version, or the socket may not send there."""
        if not self.local[1]:
            self.bind(*self.local)
        if target == BROADCAST and not self.broadcasts:
            raise fault(errno.EACCES, "a socket needs SO_BROADCAST to send to all")
        address = self.source_to(target)
        if not address or is_of_6(address) and not is_of_6(target):
            raise fault(errno.ENETUNREACH)
        source = address, self.local[1]
        if target != BROADCAST:
            self._sources[target] = source
        return source

    def accepts(self, datagram: Datagram) -> bool:
        """Returns whether this endpoint receives a datagram that was sent to its port."""
        if self.remote is not None and self.remote != datagram.source:
            return False
        local = self.local[0]
        target = datagram.target[0]
        if local == ANY:
            return ":" not in target
        return local == target or local == ANY_OF_6 and not (self.only_6 and ":" not in target)

    def rank(self) -> int:
        """Returns the endpoint's rank, 0 to 3: among several endpoints at a port, the highest receives a datagram. A peer counts
        for more than an address."""
        rank = 0
        if self.remote is not None:
            rank += 2
        if self.local[0] not in (ANY, ANY_OF_6):
            rank += 1
        return rank

    def clashes(self, address: str, other: Endpoint) -> bool:
        """Returns whether `address`, another endpoint's, conflicts with this endpoint's at the same port."""
        own = self.local[0]
        if not set(families(own, self.only_6)) & set(families(address, other.only_6)):
            return False
        return own == address or bool({own, address} & {ANY, ANY_OF_6})

    def join(self, group: str) -> None:
        """Joins a group, whose datagrams then reach this host. OSError: the endpoint is already a member."""
        if group in self.groups:
            raise fault(errno.EADDRINUSE)
        self.groups.append(group)
        self.host.groups[group] += 1

    def leave(self, group: str) -> None:
        """Leaves a group. OSError: the endpoint isn't a member."""
        if group not in self.groups:
            raise fault(errno.EADDRNOTAVAIL)
        self.groups.remove(group)
        self.host.groups[group] -= 1

    def close(self) -> None:
        """Leaves all groups, and frees the port."""
        for group in list(self.groups):
            self.leave(group)
        self.host.free(self)
