"""A test's network that the seed varies.

Without variation all tasks run in step, so that two periodic tasks always meet in the same order."""

from __future__ import annotations

import asyncio
from random import Random
from typing import Any, Coroutine, Optional, TypeVar

from hinge.fault_lines import CRASH, CUT, HOLD, SKEW, Act, AnyFault
from hinge.faults import FaultyNetwork
from hinge.testing.marks import Span, Variation
from hingetulip.aio import Host, Link
from hingetulip.aio.extra import IsTwice, LateOf

T = TypeVar("T")
MOST_CUTS = 30  # a run's most acts of a kind; the timers end, so that a test which waits for no event is noticed
KINDS = {  # for each word that draws acts, the kind of act and of its target
    "cuts": (CUT, "host with links"),
    "one_way_cuts": (CUT, "link"),
    "holds": (HOLD, "link"),
    "crashes": (CRASH, "host with a program of `host.boot`"),
}


class VariedHost(Host):
    """Describes a host whose tasks each begin after a time that the seed draws, their phase."""

    net: VariedNetwork

    def create_task(self, coroutine: Coroutine[Any, Any, T], *, name: Optional[str] = None) -> asyncio.Task[T]:
        self.net.begun += 1
        phase = self.net.variation.phase
        if phase is not None:
            coroutine = delayed(coroutine, phase.drawn(self.net.drawn))
        return super().create_task(coroutine, name=name)


async def delayed(coroutine: Coroutine[Any, Any, T], phase: float) -> T:
    """Runs a coroutine after `phase` seconds; returns its result."""
    try:
        await asyncio.sleep(phase)
    except asyncio.CancelledError:
        coroutine.close()
        raise
    return await coroutine


class VariedNetwork(FaultyNetwork):
    """Describes a network that the seed varies by the words of a `vary` mark. The draws don't depend on the links' losses, so that
    a run with fewer losses has the same variation. A run with chosen faults draws no faults, such as cuts, jitter and skews."""

    def __init__(self, variation: Variation, *words: Any, **more: Any) -> None:
        super().__init__(*words, **more)
        self.variation = variation
        self.drawn = Random(f"vary {self.seed}")
        self.drawn_acts: dict[str, list[Act]] = {word: [] for word in KINDS}
        self.skews: list[Act] = []
        self.begun = 0  # the number of the hosts' tasks
        for word in KINDS if self.chosen is None else ():
            if getattr(variation, word) is not None:
                self._act_next(word, Random(f"{word} {self.seed}"), MOST_CUTS)

    def new_host(self, addresses: tuple[str, ...], name: Optional[str]) -> Host:
        host = VariedHost(self, addresses, name)
        if self.variation.drift is not None:
            host.drift = self.variation.drift.drawn(self.drawn)
        if self.variation.skew is not None and self.chosen is None:
            host.offset = round(self.variation.skew.drawn(Random(f"skew {self.seed} {host.name}")), 9)
            self.skews.append(Act(self.loop.time(), SKEW, host.name, host.offset))
        return host

    def link(self, near: Host, far: Host, options: Optional[str] = None, **more: Any) -> Link:
        variation = self.variation
        link = super().link(near, far, options, **more)
        if variation.delay is not None:
            link.change(f"{link.options.without('delay')} delay {variation.delay.ms(self.drawn)}ms")
        return link

    def drawn_of(self, link: Link) -> tuple[Optional[LateOf], Optional[IsTwice]]:
        late, is_twice = super().drawn_of(link)
        jitter = self.variation.jitter
        rate = self.variation.duplicates
        random = Random(f"{self.seed} {link.near} > {link.far}" if jitter is None else self.drawn.getrandbits(64))
        random_of_copies = Random(random.getstate()[1][0])
        if self.chosen is not None:
            return late, is_twice
        varied_late = late
        varied_twice = is_twice
        if jitter is not None:
            ms_of = jitter.ms
            varied_late = lambda number: ms_of(random) + (late(number) if late else 0)
        if rate is not None:
            chance = rate.high
            varied_twice = lambda number: random_of_copies.random() < chance or bool(is_twice and is_twice(number))
        return varied_late, varied_twice

    def faults_met(self) -> list[AnyFault]:
        """Returns everything that the seed drew as faults. A cut is reported as the packets that it lost."""
        acts = [act for drawn in self.drawn_acts.values() for act in drawn if act.kind != CUT]
        return [*super().faults_met(), *self.skews, *sorted(acts)]

    def unvaried(self) -> dict[str, str]:
        """Returns the words of the `vary` mark that had no effect, each with the reason."""
        has_packet = any(link.came for link in self.links.values())
        has_look = any(host.looks for host in self.hosts.values())
        reasons = dict[str, str]()
        if not has_packet:
            reasons.update(dict.fromkeys(("delay", "jitter", "duplicates"), "no packet came to a link"))
        if not self.begun:
            reasons["phase"] = "no task is a host's"
        if not has_look:
            reasons.update(dict.fromkeys(("drift", "skew"), "no task of a host looked at `time.time()`"))
        now = self.loop.time()
        for word, (_, target) in KINDS.items() if self.chosen is None else ():
            span = getattr(self.variation, word)
            if span is not None and not self.drawn_acts[word] and not span.low <= now <= span.high:
                reasons[word] = f"the test ended at {now:g} s" if now < span.low else f"there is no {target}"
        return {word: reason for word, reason in reasons.items() if getattr(self.variation, word) is not None}

    def _targets(self, word: str) -> list[str]:
        """Returns the names of the links or hosts that this word's acts can affect."""
        if word in ("one_way_cuts", "holds"):
            return [link.name for link in self.links.values()]
        hosts = sorted(set(self.hosts.values()), key=lambda host: host.address)
        return [host.name for host in hosts if word != "crashes" or host.programs]

    def _act_next(self, word: str, random: Random, left: int) -> None:
        """Begins an act of this word after a drawn time, and then the next one, `left` acts in all."""
        span: Span = getattr(self.variation, word)

        def begin() -> None:
            if self.closing:
                return
            lasting = round(span.drawn(random), 9)
            targets = self._targets(word)
            target = random.choice(targets) if targets else ""
            act = Act(self.loop.time(), KINDS[word][0], target, lasting)
            try:
                self.act(act).is_drawn = True
                self.drawn_acts[word].append(act)
            except ValueError:  # there is nothing to cut yet
                pass
            self.loop.call_later(lasting, self._act_next, word, random, left - 1)

        if left:
            self.loop.call_later(span.drawn(random), begin)
