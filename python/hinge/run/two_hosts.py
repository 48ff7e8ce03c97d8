"""The addresses of a run's two hosts, in the network from --net."""

from __future__ import annotations

import ipaddress
from typing import NamedTuple

from hinge.run.words import Wrong

MOST_BITS = 30  # the longest prefix of a network with two hosts
FEWEST_BITS = 8  # the shortest prefix, which leaves other networks


class Ends(NamedTuple):
    """Holds the addresses of the client and the server, and their network."""

    client: str
    server: str
    client6: str
    server6: str
    network: str
    bits: int  # the length of the IPv4 network's prefix

    def names(self) -> str:
        """Returns lines for /etc/hosts."""
        return f"{self.server} server\n{self.client} client\n{self.server6} server6\n{self.client6} client6\n"

    def names_of_six(self) -> str:
        """Returns lines for /etc/hosts that give the names `server` and `client` IPv6 addresses, too."""
        return f"{self.server6} server\n{self.client6} client\n"


OWN_ENDS = Ends("10.8.0.1", "10.8.0.2", "fd08::1", "fd08::2", "10.8.0.0/24", 24)


def two_ends(text: str | None) -> Ends:
    """Returns the first two addresses of an IPv4 network, with IPv6 addresses in fd08:: that contain the network's number. Without
    a network, returns the usual addresses. Wrong: the text isn't a network, or the network is too small, too large or for other
    purposes."""
    if text is None:
        return OWN_ENDS
    try:
        network = ipaddress.IPv4Network(text)
    except ValueError:
        raise Wrong(f"--net {text}: no network of IPv4, as 10.20.0.0/24") from None
    if not FEWEST_BITS <= network.prefixlen <= MOST_BITS or network.is_loopback or network.is_multicast:
        raise Wrong(f"--net {text}: no network of hosts with /{FEWEST_BITS} to /{MOST_BITS}, as 10.20.0.0/24")
    number = int(network.network_address)
    six = f"fd08:{number >> 16:x}:{number & 0xffff:x}::"
    return Ends(str(network[1]), str(network[2]), six + "1", six + "2", str(network), network.prefixlen)
