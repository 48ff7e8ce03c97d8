"""The shortest routes between the hosts of a net, through hosts that forward packets. Among equal routes, earlier links win."""

from __future__ import annotations

from collections import deque
from typing import NamedTuple, Optional

from hinge.net.description import Description


def links_by_host(net: Description) -> dict[str, list[tuple[int, str]]]:
    """Returns each host's links: each link's number, and the host at the other end."""
    table: dict[str, list[tuple[int, str]]] = {name: [] for name in net.hosts}
    for number, link in enumerate(net.links):
        for name in link.ends:
            table[name].append((number, link.other(name)))
    return table


class Hop(NamedTuple):
    """Describes a route's first hop: the link to use, and the host that receives the packet.

    If there are switches between both hosts, `host_link` is the receiver's link to the last switch.
    """

    link: int
    host: str
    host_link: int


def first_hops(start: str, net: Description, links: dict[str, list[tuple[int, str]]]) -> dict[str, Hop]:
    """Returns the first hop on the route from a host to each reachable host."""
    table: dict[str, Hop] = {}
    queue = deque([start])
    while queue:
        host = queue.popleft()
        if host != start and not net.hosts[host].forwards:
            continue
        for number, other in links[host]:
            if other == start or other in table:
                continue
            hop = table.get(host, Hop(number, other, number))
            table[other] = Hop(hop.link, other, number) if net.hosts[hop.host].is_switch else hop
            queue.append(other)
    return table


class Gap(NamedTuple):
    """Describes two hosts without a route between them, because the host `between` has links to both and doesn't forward packets."""

    start: str
    end: str
    between: str


def gap(net: Description) -> Optional[Gap]:
    """Finds the first two hosts without a route between them, because a host with links to both doesn't forward packets.
    Considers only hosts between that have no command and aren't the main host, since such a host was probably meant as a router.
    Returns None if there are no such hosts."""
    links = links_by_host(net)
    for name, host in net.hosts.items():
        others = list(dict.fromkeys(other for _, other in links[name]))
        if host.forwards or host.command or name == net.main or len(others) < 2:
            continue
        for start in sorted(others, key=lambda other: other != net.main):
            reach = first_hops(start, net, links)
            for end in others:
                if end != start and end not in reach:
                    return Gap(start, end, name)
    return None
