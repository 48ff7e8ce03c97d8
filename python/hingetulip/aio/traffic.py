"""Carries datagrams over links to their receivers, and records their fate on each link."""

from __future__ import annotations

import errno
from collections import Counter
from typing import TYPE_CHECKING, Optional

from hingetulip.aio.addresses import is_group, number
from hingetulip.aio.datagram import ICMP, UDP, Address, Datagram, Dropped, Refusal, headers, place, refusal
from hingetulip.aio.emulator import Emulator, Way
from hingetulip.aio.endpoint import fault
from hingetulip.aio.extra import IS_LOST, IS_TWICE, LOSES_NONE
from hingetulip.aio.routes import Routes
from hingetulip.layout import PIPE, QUEUE
from hingetulip.library import NEVER
from hingetulip.records import Outcome

if TYPE_CHECKING:
    from hingetulip.aio.host import Host
    from hingetulip.aio.link import Link
    from hingetulip.aio.loop import Loop
    from hingetulip.history_file import Recording
    from hingetulip.shaper import Shaper

MOST_WAYS = 1 << 14  # the most ways in the cache


class Traffic:
    """The part of a network that carries datagrams. `Network` describes the public attributes."""

    loop: Loop

    def __init__(self, shaper: Shaper, history: Optional[Recording]) -> None:
        self.shaper = shaper
        self.hosts: dict[str, Host] = {}
        self.numbers: dict[str, int] = {}  # each address as a history's number
        self.routes = Routes()
        self.dropped: list[Dropped] = []
        self.unrouted = Counter[str]()
        self.unheard = Counter[str]()
        self.refused = Counter[str]()
        self.happened: list[tuple[Link, str, int]] = []
        """The packets that were lost, doubled or late: each with its link, the event and its number on the link."""
        self.rows = 0  # the number of packets in the history so far
        self.closing = False
        self.next_moment = NEVER  # the ns of the shaper's next event, when it was last asked
        self.changed = False  # whether the shaper was called since
        self._emulator = Emulator(shaper, history)
        self._held: dict[int, tuple[Way, Datagram, int]] = {}  # datagrams on links, and packets' numbers, 0 for a second pass
        self._ways: dict[tuple[Host, Address, Address, type], Way] = {}  # the cache of ways

    def send(self, near: Host, datagram: Datagram, is_heard: bool = True) -> Optional[OSError]:
        """Sends or forwards a host's datagram; returns the system's error, for example without a route to the target. `is_heard`
        says whether the host itself receives its datagrams to a group. RuntimeError: the run has ended."""
        if self.closing or not near.is_up:
            if self.loop.is_closed():
                raise RuntimeError(
                    f"a socket of {near.name} at port {datagram.source[1]} outlives its run, and nothing carries what it sends"
                )
            return None
        source, target, _ = datagram
        way = self._ways.get((near, source, target, datagram.__class__)) or self._way_to(near, datagram)
        if way is None:
            return self._send_otherwise(near, datagram, is_heard)
        return self.take(way, datagram)

    def _way_to(self, near: Host, datagram: Datagram) -> Optional[Way]:
        """Returns the way of a datagram to another host over the next link, from the cache or a new one; None for other
        datagrams."""
        target = self.hosts.get(datagram.target[0])
        link = None if target is None or target is near else self.routes.next(near, target)
        if link is None:
            return None
        if len(self._ways) >= MOST_WAYS:
            self._ways.clear()
        way = self._way_over(link, datagram)
        self._ways[near, datagram.source, datagram.target, datagram.__class__] = way
        return way

    def _way_over(self, link: Link, datagram: Datagram) -> Way:
        """Returns a new way of a datagram over a link."""
        (source, sport), (target, dport), _ = datagram
        proto = UDP
        if datagram.__class__ is Refusal:
            proto, sport, dport = ICMP, 0, 0
        fields = self.numbers[source], self.numbers[target], proto, sport, dport
        return Way(link, headers(target), target in link.far.addresses, fields, PIPE, link.pipe)

    def _send_otherwise(self, near: Host, datagram: Datagram, is_heard: bool) -> Optional[OSError]:
        """Sends a datagram to the same host, to a group, or to an unknown address; returns the system's error, if any."""
        address = datagram.target[0]
        target = self.hosts.get(address)
        if target is near:
            self._deliver_to(near, datagram)
            return None
        if target is None and is_group(address):
            return self._send_to_group(near, datagram, is_heard)
        if not isinstance(datagram, Refusal):
            self.unrouted[f"{near.name} > {address}"] += 1
        return fault(errno.ENETUNREACH)

    def _send_to_group(self, near: Host, datagram: Datagram, is_heard: bool) -> Optional[OSError]:
        """Sends a group's datagram over each link of the host, and returns the first error, if any. Other hosts don't forward the
        datagram."""
        group = datagram.target[0]
        self.numbers.setdefault(group, number(group))
        if is_heard:
            near.take_of_group(datagram)
        links = self.routes.out.get(near, ())
        if not links:
            return fault(errno.ENETUNREACH)
        errors = [self.take(self._way_over(link, datagram), datagram) for link in links]
        return next((error for error in errors if error is not None), None)

    def take(self, way: Way, datagram: Datagram) -> Optional[OSError]:
        """Sends a datagram over a link; returns an error if the datagram is too long for the link."""
        link = way.link
        length = len(datagram[2]) + way.before
        if length > link.mtu:
            self.refused[f"{link.name}: {length} bytes, and the link's MTU is {link.mtu}"] += 1
            return fault(errno.EMSGSIZE)
        if link.cuts or link.holds:
            for disturbance in link.cuts + link.holds:
                disturbance.met += 1
            if link.holds:
                link.held.append((way, datagram))
                return None
        is_refusal = datagram.__class__ is Refusal
        copies = 1 if link.copies is None or is_refusal else link.copies(datagram)
        for _ in range(copies):
            link.came += 1
            self._enter(way, datagram, length, link.came)
            if link.is_twice is not None and not is_refusal and link.is_twice(link.came):
                self._enter(way, datagram, length, link.came, is_second=True)
        return None

    def _enter(self, way: Way, datagram: Datagram, length: int, number: int, is_second: bool = False) -> None:
        """Submits a datagram to the emulator as the packet with this number on a link, and records the outcome. The second copy of
        a doubled packet draws no word, so random losses never affect the copy."""
        self.rows += 1
        link, now = way.link, self.loop.clock.now
        if link.classify is None:
            words = link.loss
        else:
            queue = link.queues[link.classify(datagram)]
            way, words = way.to(QUEUE, queue), link.class_words[queue]
        if now + link.delay < self.next_moment:  # otherwise the run asks the shaper again before the packet is due
            self.changed = True
        outcome, packet = self._emulator.submit(way, now, length, LOSES_NONE if is_second else words.next())
        link.outcomes[outcome] += 1
        is_lost = outcome == Outcome.LOST
        if is_second and not is_lost:
            self.happened.append((link, IS_TWICE, number))
        elif is_lost and not is_second:
            self.happened.append((link, IS_LOST, number))
        self._hold(outcome, packet, way, datagram, number)

    def _enter_again(self, way: Way, datagram: Datagram, pipe: int) -> None:
        """Starts a datagram's second pass, through a pipe with unlimited bandwidth."""
        self.rows += 1
        self.changed = True
        length = len(datagram.data) + way.before
        outcome, packet = self._emulator.submit(way.to(PIPE, pipe), self.loop.clock.now, length, LOSES_NONE)
        self._hold(outcome, packet, way, datagram, 0)

    def _hold(self, outcome: int, packet: int, way: Way, datagram: Datagram, number: int) -> None:
        """Keeps a datagram that the emulator has queued, and records any other as dropped."""
        if outcome == 0:
            self._held[packet] = way, datagram, number
        else:
            self.dropped.append(Dropped(self.rows, self.loop.clock.now, *datagram, Outcome(outcome)))

    def wake(self) -> int:
        """Asks the shaper for its next event; returns the event's moment in ns, or NEVER."""
        self.next_moment = self._emulator.wake() if self._held and not self.closing else NEVER
        self.changed = False
        return self.next_moment

    def deliver(self) -> None:
        """Delivers the datagrams that are due at the end of their links."""
        self.changed = True
        for packet in self._emulator.collect(self.loop.clock.now):
            way, datagram, number = self._held.pop(packet)
            link = way.link
            if number and (link.late_of or link.jitter) is not None and datagram.__class__ is not Refusal:
                pipe = link.second_pipe(datagram, number)
                if pipe:
                    self._enter_again(way, datagram, pipe)
                    continue
            if way.is_last:
                self._deliver_to(link.far, datagram)
            elif datagram.target[0] in self.hosts:
                self.send(link.far, datagram)
            else:
                link.far.take_of_group(datagram)

    def _deliver_to(self, host: Host, datagram: Datagram) -> None:
        """Delivers a datagram to its host. A closed port replies with an error."""
        if isinstance(datagram, Refusal):
            host.take_refusal(datagram)
        elif not host.take(datagram):
            self.unheard[f"{place(datagram.target[0])}:{datagram.target[1]}"] += 1
            if host.is_up:
                self.send(host, refusal(datagram))

    def forget_ways(self) -> None:
        """Clears the cache, since links or routes have changed."""
        self._ways.clear()
