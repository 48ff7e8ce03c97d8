"""The rooms of a net's hosts. A room is a network namespace with an interface for each link, names, addresses and routes.

A host's name resolves to its address on `lo`, one for each IP version. Each link's end gets further addresses. A switch needs no
room: the links end in the links' process. The hosts at connected switches share an Ethernet network.
"""

from __future__ import annotations

import socket
from functools import partial
from typing import Callable, Iterator, NamedTuple, Optional

from hinge.net.description import Description
from hinge.net.ways import Hop, first_hops, links_by_host
from hinge.run.interfaces import (
    MAIN_TABLE,
    add_address,
    add_interface_route,
    add_tun,
    all_dropped,
    hand_on,
    interface_route,
    know_groups,
    unforwarded,
)
from hinge.run.outside import Outside
from hinge.run.rooms import add_names, furnish, see_own_processes
from hinge.run.rtnetlink import Request, ask_many, index_of, one_socket
from hinge.run.system import NEWNET, NEWUTS, enter, try_to_write, unshare

LONGEST_INTERFACE = 15  # letters
NETWORK = "10.8.0.0/16"  # the network of the hosts' main addresses
GROUPS = ("224.0.0.0", 4)  # the network of all IPv4 groups, and the length of its prefix
WORST = 1 << 24  # a metric that is worse than those of any daemon's routes
LEAST_BITS = 4  # a route leads to several hosts together only from 2 ** LEAST_BITS hosts on
AT_NO_HOST = -1  # stands for the descriptor at a link's end in a switch, which has no interface


class Addresses(NamedTuple):
    """Holds an IPv4 and an IPv6 address."""

    four: str
    six: str


def own_addresses(place: int) -> Addresses:
    """Returns a host's main addresses, from the host's place in the net's file, from 1."""
    return Addresses(f"10.8.{place >> 8}.{place & 255}", f"fd08::{place:x}")


def end_addresses(link: int, end: int) -> Addresses:
    """Returns the addresses of a link's end (0 or 1). The link's number counts from 0."""
    place = link + 1
    return Addresses(f"10.{9 + (place >> 8)}.{place & 255}.{end + 1}", f"fd09:{place:x}::{end + 1}")


def mac_of(link: int) -> bytes:
    """Returns a host's hardware address on a link to a switch, such as 02:00:00:00:00:01 for link 0."""
    return bytes([2, 0, 0, 0]) + (link + 1).to_bytes(2, "big")


def networks(places: list[int]) -> Iterator[tuple[int, int]]:
    """Yields the networks that together contain exactly these places, which ascend. A network is its first place and the number
    of bits for the places within it."""
    index = 0
    while index < len(places):
        first = places[index]
        bits = 0
        while first % (2 << bits) == 0 and places[index - 1 + (2 << bits) :][:1] == [first - 1 + (2 << bits)]:
            bits += 1
        if bits < LEAST_BITS:
            bits = 0
        yield first, bits
        index += 1 << bits


class NetEnds:
    """Provides the names and addresses for a net's hosts and for both ends of each link."""

    def __init__(self, net: Description) -> None:
        self.net = net
        self.places = {name: place for place, name in enumerate(net.hosts, 1) if not net.hosts[name].is_switch}
        self.own = {name: own_addresses(place) for name, place in self.places.items()}
        self.links = links_by_host(net)
        self.ports = net.ports()

    def label(self, name: str, link: int) -> str:
        """Returns the name of a link's end at a host: `b.a` is b's end on its link to a, and `b.a.2` on the second such link."""
        other = self.net.links[link].other(name)
        place = [number for number, end in self.links[name] if end == other].index(link)
        return f"{name}.{other}.{place + 1}" if place > 0 else f"{name}.{other}"

    def interface(self, name: str, link: int) -> str:
        """Returns the interface name for a link at a host. If the name is too long, returns a name with the link's number, from
        1."""
        label = "to-" + self.label(name, link).partition(".")[2]
        return label if len(label) <= LONGEST_INTERFACE else f"link{link + 1}"

    def place_of_end(self, name: str, link: int) -> tuple[int, int]:
        """Returns the number of the link or segment (joined switches) that contains an end, and the end's place there, both from
        0."""
        if (link, name) in self.ports:
            port = self.ports[link, name]
            return port.segment, port.number - 1
        return link, self.net.links[link].ends.index(name)

    def at_end(self, name: str, link: int) -> Addresses:
        """Returns the addresses at a link's end on a host."""
        return end_addresses(*self.place_of_end(name, link))

    def link_local(self, name: str, link: int) -> str:
        """Returns the link-local IPv6 address at a link's end."""
        return f"fe80::{self.place_of_end(name, link)[1] + 1:x}"

    def gateways(self, to: str, hop: Hop) -> tuple[Optional[str], Optional[str]]:
        """Returns the next router's IPv4 and IPv6 addresses for a route to the host `to`. Returns None for both if the first hop is
        that host, or doesn't pass a switch."""
        if hop.host == to or (hop.host_link, hop.host) not in self.ports:
            return None, None
        return self.at_end(hop.host, hop.host_link).four, self.link_local(hop.host, hop.host_link)

    def all_of(self, name: str) -> list[str]:
        """Returns a host's addresses: first the main addresses, then the addresses at the links' ends."""
        addresses = list(self.own[name])
        for link, _ in self.links[name]:
            addresses += self.at_end(name, link)
        return addresses

    def names(self) -> str:
        """Returns the lines for /etc/hosts with IPv4 addresses. IPv6 addresses get separate names, such as ip6-a."""
        lines = [f"{addresses.four} {name}\n{addresses.six} ip6-{name}\n" for name, addresses in self.own.items()]
        return "".join([*lines, *(f"{addresses.four} {label}\n" for addresses, label in self.labels())])

    def names_of_six(self) -> str:
        """Returns further lines for /etc/hosts, which give the plain names IPv6 addresses too."""
        lines = [f"{addresses.six} {name}\n" for name, addresses in self.own.items()]
        return "".join([*lines, *(f"{addresses.six} {label}\n" for addresses, label in self.labels())])

    def drops(self, by_host: dict[str, dict[str, int]]) -> list[int]:
        """Returns how many packets the system dropped before each way, from its drops by host and interface."""
        return [
            by_host[name].get(self.interface(name, number), 0) if name in by_host else 0
            for number, link in enumerate(self.net.links)
            for name in link.ends
        ]

    def labels(self) -> Iterator[tuple[Addresses, str]]:
        """Yields the addresses and the name at each link's end on a host."""
        for name in self.own:
            for link, _ in self.links[name]:
                yield self.at_end(name, link), self.label(name, link)


def in_ipv6(do: Callable[[], None]) -> None:
    """Calls `do`, and ignores that it fails on a system without IPv6."""
    try:
        do()
    except OSError:
        pass


class NetRooms:
    """Creates a room for each host of a net: a network namespace with interfaces, names, addresses and routes. Create the object
    in the net's first process."""

    def __init__(self, net: Description, mtu: int) -> None:
        self.ends = NetEnds(net)
        self.network: dict[str, int] = {}
        tuns: dict[tuple[int, str], int] = {}
        see_own_processes()
        for name in self.ends.own:
            unshare(NEWNET)
            with one_socket():
                self.network[name] = furnish()
                self.add_own(name)
                for link, _ in self.ends.links[name]:
                    tuns[link, name] = self.add_end(name, link, mtu)
                ask_many(self.ways_of(name))
                if net.hosts[name].forwards:
                    self.let_forward(name)
                self.know_groups(name, True)
        self.interfaces = [tuns.get((number, name), AT_NO_HOST) for number, link in enumerate(net.links) for name in link.ends]
        first = next(iter(self.ends.own))
        add_names(self.ends.names() + "127.0.0.1 localhost\n", self.ends.names_of_six(), first, self.ends.own[first].four)

    def descriptors(self) -> list[int]:
        """Returns the descriptors of all interfaces."""
        return [interface for interface in self.interfaces if interface != AT_NO_HOST]

    def add_own(self, name: str) -> None:
        """Adds the host's main addresses to this process's network namespace."""
        for path in ("all", "default"):
            # Without the filter, packets may arrive by another interface than the one to their source.
            try_to_write(f"/proc/sys/net/ipv4/conf/{path}/rp_filter", "0")
        add_address("lo", self.ends.own[name].four, 32)
        in_ipv6(lambda: add_address("lo", self.ends.own[name].six, 128))

    def add_end(self, name: str, link: int, mtu: int) -> int:
        """Adds the interface for a link's end to this process's network namespace; returns the interface's descriptor."""
        interface = self.ends.interface(name, link)
        is_port = (link, name) in self.ends.ports
        mac = mac_of(link) if is_port else b""
        descriptor = add_tun(*self.ends.at_end(name, link), self.ends.net.links[link].mtu or mtu, interface, mac=mac)
        in_ipv6(lambda: add_address(interface, self.ends.link_local(name, link), 64))
        if is_port:  # neighbours ask for an address of IPv6 at the interface that has it
            in_ipv6(lambda: add_address(interface, self.ends.own[name].six, 128))
        return descriptor

    def let_forward(self, name: str) -> None:
        """Makes this process's network namespace forward packets. Multicast is off until then, or the kernel would look for
        routers there."""
        try_to_write("/proc/sys/net/ipv4/ip_forward", "1")  # also for interfaces that the host's programs add, such as tunnels
        for link, _ in self.ends.links[name]:
            hand_on(self.ends.interface(name, link), is_asked=False)
        try_to_write("/proc/sys/net/ipv6/conf/all/forwarding", "1")

    def ways_of(self, name: str) -> Iterator[Request]:
        """Yields the routes from the host whose namespace this process is in: to all reachable hosts, and to multicast groups.
        Hosts in a row with the same next hop share a route, because 200 hosts would need 80,000 routes otherwise.

        If the net leaves routes to a daemon, yields only the routes to neighbours, with a metric worse than any daemon's metric.
        """
        own = self.ends.own[name]
        numbers = {link: index_of(self.ends.interface(name, link)) for link, _ in self.ends.links[name]}  # the interfaces' numbers
        is_plain = self.ends.net.has_routes
        alike = dict[tuple[int, tuple[Optional[str], Optional[str]]], list[int]]()
        metric = None if is_plain else WORST
        for to, hop in first_hops(name, self.ends.net, self.ends.links).items():
            if to in self.ends.own and (is_plain or to == hop.host):
                alike.setdefault((hop.link, self.ends.gateways(to, hop)), []).append(self.ends.places[to])
        for (link, gateways), places in alike.items():
            # its own place may be within a network, since packets to it never leave
            for first, bits in networks(sorted([*places, self.ends.places[name]])):
                for address, source, gateway, most in zip(own_addresses(first), own, gateways, (32, 128)):
                    if bits or first != self.ends.places[name]:
                        may_fail = source == own.six
                        yield interface_route(address, numbers[link], source, most - bits, MAIN_TABLE, metric, may_fail, gateway)
        if is_plain and numbers:
            # The metric makes the kernel use a separate next hop for groups. With a shared next hop, the kernel would send
            # a packet for a host with the time to live for groups.
            yield interface_route(GROUPS[0], next(iter(numbers.values())), own.four, GROUPS[1], metric=1)

    def know_groups(self, name: str, does: bool) -> None:
        """Turns multicast groups on or off (`does`) at a host's interfaces."""
        enter(self.network[name])
        for link, _ in self.ends.links[name]:
            know_groups(self.ends.interface(name, link), does)

    def lead_out(self, outside: Outside, by: str) -> None:
        """Connects the host `by` to the system's network. If the host forwards packets, the other hosts reach the outside through
        the host."""
        interfaces = list[str]()
        others = list[str]()  # the IPv6 addresses of the other hosts
        if self.ends.net.hosts[by].forwards and self.ends.links[by]:
            interfaces = [self.ends.interface(by, link) for link, _ in self.ends.links[by]]
            for name in self.network:
                if name != by:
                    others += [address for address in self.ends.all_of(name) if ":" in address]
        self.know_groups(by, False)  # because the host now begins to forward IPv6 packets
        has_ipv6 = outside.join(self.network[by], interfaces, others)
        self.know_groups(by, True)
        if interfaces:
            for name in self.network:
                self.lead_to(by, name, has_ipv6)

    def lead_to(self, by: str, name: str, has_ipv6: bool) -> None:
        """Adds the default routes by which a host reaches the outside through the host `by`, if a route leads there."""
        enter(self.network[name])
        hop = first_hops(name, self.ends.net, self.ends.links).get(by)
        if name == by or hop is None:
            return
        four, six = self.ends.gateways("", hop)
        own = self.ends.own[name]
        interface = self.ends.interface(name, hop.link)
        add_interface_route("0.0.0.0", interface, own.four, 0, gateway=four)
        if has_ipv6:
            in_ipv6(partial(add_interface_route, "::", interface, own.six, 0, gateway=six))

    def enter(self, name: str) -> None:
        """Moves this process into the host's namespace and sets its host name."""
        enter(self.network[name])
        unshare(NEWUTS)
        socket.sethostname(name)

    def dropped(self) -> list[int]:
        """Returns how many packets the system dropped before each way."""
        by_host = dict[str, dict[str, int]]()
        for name, network in self.network.items():
            enter(network)
            by_host[name] = all_dropped()
        return self.ends.drops(by_host)

    def unforwarded(self) -> dict[str, dict[str, int]]:
        """Returns how many packets for other hosts the system didn't forward, for each host and each counter in the system. Omits
        hosts without such packets."""
        table = {}
        for name, network in self.network.items():
            enter(network)
            table[name] = unforwarded()
        return {name: counts for name, counts in table.items() if counts}
