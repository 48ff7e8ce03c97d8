"""Looks up the names and addresses of a network's hosts, in place of the system's functions."""

from __future__ import annotations

import _socket
import socket
from types import ModuleType
from typing import TYPE_CHECKING, Any

from hingetulip.aio.addresses import ANY, ANY_OF_6, FLAGS, OWN, is_address, is_of_6, plain_address, port_of
from hingetulip.aio.datagram import UDP
from hingetulip.aio.host import current_host, here
from hingetulip.aio.switched import Either

if TYPE_CHECKING:
    from hingetulip.aio.host import Host


class Names:
    """The names and addresses of a network's hosts."""

    def __init__(self, hosts: dict[str, Host], numbers: dict[str, int]) -> None:
        self.hosts = hosts  # the hosts, by each address and by name
        self.numbers = numbers  # addresses as a history's numbers

    def address_of(self, name: str, version: int = 4) -> str:
        """Returns a host's address in an IP version, from the host's name; an address of a host stays the same. gaierror: there is
        no such host."""
        if name in OWN:
            return current_host().address
        if name in self.numbers:
            return name
        if name not in self.hosts:
            raise socket.gaierror(socket.EAI_NONAME, f"there is no simulated host {name}")
        return self.hosts[name].address_for(version)

    def addresses_of(self, host: Any, port: Any, family: int = 0, type: int = 0, proto: int = 0, flags: int = 0) -> list[Any]:
        """Returns a host's addresses like getaddrinfo. gaierror: there is no such host or service, or the host has no address in
        this family."""
        is_stream = type & ~FLAGS == socket.SOCK_STREAM
        texts = self._texts_of(host, is_passive=bool(flags & socket.AI_PASSIVE))
        number = port_of(port, is_stream)
        kind = socket.SocketKind(type or socket.SOCK_DGRAM)
        protocol = proto or (socket.IPPROTO_TCP if is_stream else UDP)
        rows: list[Any] = []
        for text in texts:
            if is_of_6(text) and family in (0, socket.AF_INET6):
                rows.append((socket.AF_INET6, kind, protocol, "", (text, number, 0, 0)))
            elif not is_of_6(text) and family in (0, socket.AF_INET):
                rows.append((socket.AF_INET, kind, protocol, "", (text, number)))
        if not rows:
            raise socket.gaierror(socket.EAI_ADDRFAMILY, f"{host} has no address of {socket.AddressFamily(family).name}")
        return rows

    def _texts_of(self, host: Any, is_passive: bool) -> tuple[str, ...]:
        """Returns the addresses for a host's name or address; for None those of the current host or, if a socket waits there, the
        addresses that stand for all. gaierror: there is no such host."""
        if host is None:
            return (ANY, ANY_OF_6) if is_passive else current_host().addresses
        name = plain_address(host)
        if name in OWN:
            return current_host().addresses
        if is_address(name):
            return (name,)
        if name not in self.hosts:
            raise socket.gaierror(socket.EAI_NONAME, f"there is no simulated host {name}")
        return self.hosts[name].addresses

    def by_name(self, name: str) -> tuple[str, list[str], list[str]]:
        """Returns a host in the format of gethostbyname_ex. gaierror: there is no such host."""
        address = self.addresses_of(name, 0, socket.AF_INET)[0][4][0]
        return self.hosts[address].name if address in self.hosts else name, [], [address]

    def functions(self) -> dict[tuple[ModuleType, str], Either]:
        """Returns the makers of the run's functions for names, by module and name."""
        functions: dict[str, Either] = {
            "getaddrinfo": lambda own: self.addresses_of,
            "gethostbyname": lambda own: lambda name: self.by_name(name)[2][0],
            **dict.fromkeys(("gethostbyname_ex", "gethostbyaddr"), lambda own: self.by_name),
            "getnameinfo": lambda own: lambda address, flags: (str(address[0]), str(address[1])),
            "gethostname": lambda own: lambda: current_host().name if here.get(None) else own(),
            "if_nameindex": lambda own: lambda: [(1, current_host().name)] if here.get(None) else own(),
        }
        return {(_socket, name): function for name, function in functions.items()}
