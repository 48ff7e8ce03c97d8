"""Chooses routes over several links."""

from __future__ import annotations

from collections import deque
from typing import TYPE_CHECKING, Optional

if TYPE_CHECKING:
    from hingetulip.aio.host import Host
    from hingetulip.aio.link import Link


class Routes:
    """Chooses the next link for a datagram: on a path with the fewest links and, among equal paths, on the links created first."""

    def __init__(self) -> None:
        self.out: dict[Host, list[Link]] = {}  # the links from each host
        self.chosen: dict[tuple[Host, Host], Optional[Link]] = {}  # the results of `next` so far, by host and target
        self.fixed: dict[tuple[Host, Host], Link] = {}  # the links that `give` set
        self.untaken: dict[tuple[Host, Host], Link] = {}  # those of `fixed` that no datagram has used
        self.first: dict[Host, dict[Host, Link]] = {}  # the first link from each host to each reachable host

    def add(self, link: Link) -> None:
        """Adds a link, which may change all chosen links."""
        self.out.setdefault(link.near, []).append(link)
        self.chosen.clear()
        self.first.clear()

    def give(self, near: Host, target: Host, link: Link) -> None:
        """Sets the link for datagrams from a host to a target."""
        self.fixed[near, target] = link
        self.untaken[near, target] = link
        self.chosen.clear()

    def next(self, near: Host, target: Host) -> Optional[Link]:
        """Returns the next link from a host to a target, or None if there is no path."""
        try:
            return self.chosen[near, target]
        except KeyError:
            self.untaken.pop((near, target), None)
            link = self.fixed.get((near, target)) or self._search(near, target)
            self.chosen[near, target] = link
            return link

    def _search(self, near: Host, target: Host) -> Optional[Link]:
        """Returns the first link of a shortest path; None if there is no path."""
        links = self.out.get(near, [])
        if len(links) == 1:  # a leaf needs no table: a star's only table is that of its middle
            (only,) = links
            return only if only.far is target or target in self._first_links(only.far) else None
        return self._first_links(near).get(target)

    def _first_links(self, near: Host) -> dict[Host, Link]:
        """Returns the first link from a host to each reachable host, and keeps the table."""
        if near not in self.first:
            self.first[near] = self._search_all(near)
        return self.first[near]

    def _search_all(self, near: Host) -> dict[Host, Link]:
        """Returns the first link to each reachable host, after a breadth-first search."""
        ends = deque((link, link.far) for link in self.out.get(near, ()))
        first_links: dict[Host, Link] = {}
        while ends:
            first, host = ends.popleft()
            if host not in first_links and host is not near:
                first_links[host] = first
                ends.extend((first, link.far) for link in self.out.get(host, ()))
        return first_links
