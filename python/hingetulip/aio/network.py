"""The network of a run in simulated time: its hosts, its links and the run itself."""

from __future__ import annotations

import asyncio
import ipaddress
from collections import Counter
from contextlib import nullcontext
from pathlib import Path
from random import Random
from typing import Any, Callable, Coroutine, Mapping, Optional, TypeVar, Union

from hingetulip.aio.addresses import number
from hingetulip.aio.datagram import MOST_BYTES, Datagram
from hingetulip.aio.disturbances import DisturbingCalls
from hingetulip.aio.extra import DelayOf, IsTwice, LateOf, effects_of_words
from hingetulip.aio.host import Host, check_host
from hingetulip.aio.link import Classifier, Link, Words
from hingetulip.aio.loop import Loop
from hingetulip.aio.names import Names
from hingetulip.aio.real import RealUses
from hingetulip.aio.report import report
from hingetulip.aio.simulated import simulated
from hingetulip.aio.system import simulated_system
from hingetulip.aio.traffic import Traffic
from hingetulip.aio.waiting import waiting
from hingetulip.history_file import Recording
from hingetulip.library import NEVER
from hingetulip.shaper import Shaper
from hingetulip_words.presets import either_way

T = TypeVar("T")
MOST_PIPES = 65535
START = 1_700_000_000  # s since 1970
PATIENCE = 3600  # s of simulated time in which cancelled tasks must end when the network is closed


class Network(DisturbingCalls, Traffic):
    """Hosts and links in simulated time. When the network closes, the file `history` contains the calls to the emulator.

    `dropped` lists the datagrams that were lost on links or dropped at full queues. `unrouted` counts datagrams without a
    route, `unheard` those to a port without a socket, and `refused` those longer than a link's `mtu` or the longest possible
    datagram. `options` are the default words for links, and `back` those for the way back of a path.
    """

    def __init__(
        self,
        *,
        seed: int = 1,
        history: Union[str, Path, None] = None,
        options: str = "",
        back: Optional[str] = None,
        start: float = START,
    ) -> None:
        self.seed = seed
        self.history = history
        self.options = options
        self.back = back
        self.start = start
        """The result of `time.time()` at the beginning of the simulated time, in seconds since 1970."""
        self.random = Random(seed)
        super().__init__(Shaper(seed=seed), Recording(history) if history else None)
        self.names = Names(self.hosts, self.numbers)
        self.links: dict[tuple[Host, Host], Link] = {}
        self.unsaid: list[Link] = []
        """The links that use the network's default options."""
        self.real_uses = RealUses()
        self.real = False
        """Whether a run may call `time.sleep` and use sockets of the system."""
        self.loop = Loop(self)
        self.faults: list[str] = []
        """Texts about the exceptions that tasks and callbacks raised, and that no code retrieved."""
        self.loop.set_exception_handler(self._fault)
        self._counts: Counter[str] = Counter()  # the pipes and queues

    def _fault(self, loop: asyncio.AbstractEventLoop, context: dict[str, Any]) -> None:
        """Adds an exception to `faults`, as the loop's exception handler."""
        if context.get("exception") is not None:
            self.faults.append(f"{context['message']}: {context['exception']!r}")
        loop.default_exception_handler(context)

    def number_of(self, kind: str) -> int:
        """Returns the number for a new pipe or queue. ValueError: all numbers are in use."""
        if self._counts[kind] == MOST_PIPES:
            raise ValueError(f"a network has at most {MOST_PIPES} {kind}s")
        self._counts[kind] += 1
        return self._counts[kind]

    def new_host(self, addresses: tuple[str, ...], name: Optional[str]) -> Host:
        """Returns a new host, which the network doesn't yet know. Subclasses may return a subclass of Host."""
        return Host(self, addresses, name)

    def host(self, *addresses: str, name: Optional[str] = None) -> Host:
        """Returns the host with these addresses, creating the host if necessary. The first address must be IPv4.

        Other hosts also find the host by `name`. Histories contain the first address in place of an IPv6 address. ValueError:
        another host has an address or the name.
        """
        first = str(ipaddress.IPv4Address(addresses[0]))
        if first in self.hosts:
            return self.hosts[first]
        texts = (first, *(str(ipaddress.ip_address(address)) for address in addresses[1:]))
        host = self.new_host(texts, name)
        for text in (*texts, host.name):
            if self.hosts.setdefault(text, host) is not host:
                raise ValueError(f"another host has {text}")
        self.numbers.update({text: number(first if ":" in text else text) for text in texts})
        return host

    def link(
        self,
        near: Host,
        far: Host,
        options: Optional[str] = None,
        *,
        classes: Optional[Mapping[str, str]] = None,
        classify: Optional[Classifier] = None,
        loss: Optional[Words] = None,
        copies: Optional[Callable[[Datagram], int]] = None,
        jitter: Optional[DelayOf] = None,
        mtu: int = MOST_BYTES,
    ) -> Link:
        """Creates the link from one host to another, a single direction, and returns it. Its options are words such as
        `bw 8Mbit/s delay 20ms plr 0.05` or `8Mbit/s 20ms loss 5% jitter 10ms`.

        `classes` contains the options of a queue for each class of datagrams, and `classify` returns a datagram's class. The loss
        model `loss` returns each packet's random word, under a loss rate of 0.5. `copies` returns how often a datagram enters the
        link. `jitter` returns the ms that a datagram's second pass adds to the delay. A datagram that exceeds `mtu` bytes with its
        headers isn't fragmented: the link refuses it, and the sender's socket gets an error.

        LineError: a word isn't a link's. ValueError: this link exists already, or both ends are the same host. TypeError: an end is
        no host.
        """
        check_host(near)
        check_host(far)
        if near is far or (near, far) in self.links:
            raise ValueError(f"there is a link from {near.name} to {far.name} already")
        link = Link(
            self,
            near,
            far,
            self.options if options is None else options,
            classes=classes,
            classify=classify,
            loss=loss,
            copies=copies,
            jitter=jitter,
            mtu=mtu,
        )
        self.links[near, far] = link
        if options is None or options == self.options:
            self.unsaid.append(link)
        self.routes.add(link)
        self.forget_ways()
        return link

    def drawn_of(self, link: Link) -> tuple[Optional[LateOf], Optional[IsTwice]]:
        """Returns the functions for late and doubled packets on a link; None for an effect that the link's words lack."""
        return effects_of_words(link.options.extra, self.seed, link.pipe)

    def path(
        self, one: Host, other: Host, options: Optional[str] = None, back: Optional[str] = None, *, preset: Optional[str] = None
    ) -> tuple[Link, Link]:
        """Creates the links from `one` to `other` and back, and returns both. Without `back`, both use `options`. With a preset
        such as `lte`, `other` is the server.

        ValueError: there is no such preset, or a link exists already.
        """
        if preset is not None:
            options, back = either_way(preset, options, back)
        if options is None and back is None:
            back = self.back
        return self.link(one, other, options), self.link(other, one, options if back is None else back)

    def route(self, near: Host, target: Host, via: Host) -> None:
        """Makes datagrams from `near` to `target` use the link to `via`. Without a route, datagrams use the fewest links.
        ValueError: there is no link from `near` to `via`."""
        if (near, via) not in self.links:
            raise ValueError(f"there is no link from {near.name} to {via.name}")
        self.routes.give(near, target, self.links[near, via])
        self.forget_ways()

    def idle(self) -> list[str]:
        """Returns a line for each part of the network that no packet met: a link's functions and changes, a route, or all links."""
        if self.links and not any(link.came for link in self.links.values()):
            return ["no packet came to a link"]
        parts = [part for link in self.links.values() for part in link.idle()]
        parts += [f"the route from {near.name} to {target.name}" for near, target in self.routes.untaken]
        return [f"no packet met {part}" for part in parts]

    def obey(self, line: str) -> None:
        """Applies a configuration line at the current moment."""
        self.changed = True
        self._emulator.configure(self.loop.clock.now, line)

    def run(self, main: Coroutine[Any, Any, T], *, timeout: Optional[float] = None) -> T:
        """Runs a coroutine to its end, and returns its result.

        asyncio's TimeoutError: the coroutine needs more than `timeout` simulated seconds. Stuck: no event can happen any more.
        RealTimeError: code slept or used a system socket, and `real` isn't set.
        """
        system = nullcontext() if self.real else simulated_system(self)
        with simulated(self.loop, self.random), system:
            if timeout is None:
                return self.loop.run_until_complete(main)
            return self.loop.run_until_complete(self._limited(main, timeout))

    async def _limited(self, main: Coroutine[Any, Any, T], timeout: float) -> T:
        """Returns a coroutine's result. TimeoutError: the coroutine hasn't ended after `timeout` simulated seconds."""
        task = self.loop.create_task(main)
        await asyncio.wait({task}, timeout=timeout)
        if not task.done():
            text = waiting(self.loop)
            task.cancel()
            await asyncio.wait({task})
            raise asyncio.TimeoutError(f"it hasn't ended after {timeout} s of simulated time.{text}")
        return task.result()

    def close(self) -> None:
        """Cancels the tasks in the order of their creation, and ends the history. From now on the tasks can't send anything."""
        if self.loop.is_closed():
            return
        self.closing = True
        self.next_moment = NEVER
        tasks = self.loop.pending()
        for task in tasks:
            task.cancel()
        if tasks:
            self.loop.run_until_complete(asyncio.wait(tasks, timeout=PATIENCE))
        for task in self.loop.tasks:
            if task.has_lost_exception():
                place = f" on {task.host.name}" if task.host else ""
                self.faults.append(f"{task.get_name()}{place}: {task.exception()!r}")
        self.loop.run_until_complete(self.loop.shutdown_asyncgens())
        self.loop.baton.close()
        self.loop.descriptors.close()
        self.loop.close()
        self._emulator.close()

    def __repr__(self) -> str:
        return f"<Network of {len(set(self.hosts.values()))} hosts at {self.loop.time():g} s>"

    async def __aenter__(self) -> Network:
        """Returns the network. RuntimeError: another loop than the network's is running."""
        if asyncio.get_running_loop() is not self.loop:
            raise RuntimeError("a network has a loop of its own: write `with Network() as net: net.run(main())`")
        return self

    async def __aexit__(self, *_: object) -> None:
        """Cancels the tasks of hosts, and waits until they end."""
        tasks = [task for task in self.loop.pending() if task.host is not None]
        for task in tasks:
            task.cancel()
        await asyncio.gather(*tasks, return_exceptions=True)

    def __enter__(self) -> Network:
        return self

    def __exit__(self, *_: object) -> None:
        self.close()

    def waiting(self) -> str:
        """Returns a line for each waiting task, with the place in the code where it waits; an empty text without such tasks."""
        text = waiting(self.loop)
        return f"\n{text.strip()}" if text else ""

    def report(self) -> str:
        """Returns a report about each link, and about the first dropped datagrams."""
        return report(self)


def network() -> Network:
    """Returns the running loop's network. RuntimeError: no simulated loop is running."""
    loop = asyncio.get_running_loop()
    if not isinstance(loop, Loop):
        raise RuntimeError("this loop isn't one of simulated time: hingetulip.aio.run makes one")
    return loop.net


def run(
    main: Coroutine[Any, Any, T],
    *,
    seed: int = 1,
    history: Union[str, Path, None] = None,
    timeout: Optional[float] = None,
    start: float = START,
) -> T:
    """Runs a coroutine in a new network, available as `network()`, and returns the coroutine's result.

    Raises the errors of `Network.run`, and Unmet if a cut, hold, crash or skew had no effect.
    """
    with Network(seed=seed, history=history, start=start) as net:
        result = net.run(main, timeout=timeout)
        net.check()
        return result
