"""Chosen faults on the links of hingetulip.aio. Hypothesis can draw the faults, and shrinks the faults of a failed test:

    @given(some_faults("client > server", "server > client"))
    def test_it(faults):
        run(main(), faults)
"""

from __future__ import annotations

from typing import TYPE_CHECKING, Any, Coroutine, Iterable, Optional, Sequence, TypeVar

from hinge.fault_lines import ACT_KINDS, CRASH, CUT, HOLD, IS_LATE, IS_LOST, IS_TWICE, SKEW, Act, Drawn, AnyFault, Fault, Faults
from hinge.loss import Listed
from hingetulip.aio import Host, Link, Network
from hingetulip.aio.extra import IsTwice, LateOf
from hingetulip.aio.options import BY_MODEL

if TYPE_CHECKING:
    from hypothesis.strategies import SearchStrategy

    from hingetulip.aio import Disturbance

T = TypeVar("T")
DELAYS = (5, 20, 50, 100, 300, 1000)  # the delays in ms that hypothesis draws for late packets
LASTING = (0.2, 1.0, 3.0, 10.0)  # the lengths in s that hypothesis draws for acts
MOST_TRAINS = 3  # a train is a row of packets at equal distances with the same fault
MOST_OF_TRAIN = 8  # packets
MOST_APART = 12  # packets from a train's packet to its next one
MOST_ACTS = 2


class FaultyNetwork(Network):
    """A network whose links lose packets only through these faults, or, without faults, at their own rates."""

    def __init__(self, faults: Optional[Iterable[AnyFault]] = None, **more: Any) -> None:
        super().__init__(**more)
        self.chosen = faults if faults is None or isinstance(faults, Faults) else Faults(*faults)
        self.acted: dict[Act, Disturbance] = {}
        self.refused_acts: dict[Act, str] = {}
        for act in () if self.chosen is None else self.chosen.acts:
            self.loop.call_at(act.moment, self._act, act)

    def _act(self, act: Act) -> None:
        """Does an act now, and keeps the disturbance, or the reason for a refusal."""
        if not self.closing:
            try:
                self.acted[act] = self.act(act)
                self.acted[act].is_drawn = isinstance(self.chosen, Drawn)
            except ValueError as error:
                self.refused_acts[act] = str(error)

    def act(self, act: Act) -> Disturbance:
        """Does an act now, and returns its disturbance. ValueError: there is no such host or link."""
        disturb = {CUT: self.cut, HOLD: self.hold, CRASH: self.crash, SKEW: self.skew}[act.kind]
        return disturb(act.of, act.seconds)

    def packets_of(self, name: str, kind: str) -> dict[int, int]:
        """Returns a link's packets with faults of this kind, with their delays in ms."""
        faults = () if self.chosen is None else self.chosen.packets
        return {fault.packet: fault.ms for fault in faults if fault.link == name and fault.kind == kind}

    def link(self, near: Host, far: Host, options: Optional[str] = None, **more: Any) -> Link:
        if self.chosen is None:
            return super().link(near, far, options, **more)
        name = f"{getattr(near, 'name', near)} > {getattr(far, 'name', far)}"
        more.update(loss=Listed(self.packets_of(name, IS_LOST)))
        link = super().link(near, far, options, **more)
        if not float(link.options.settings["plr"]):  # at the loss rate 0 no word loses a packet
            link.change(f"{link.options.without('plr')} plr {BY_MODEL}")
        return link

    def drawn_of(self, link: Link) -> tuple[Optional[LateOf], Optional[IsTwice]]:
        if self.chosen is None:
            return super().drawn_of(link)
        late = self.packets_of(link.name, IS_LATE)
        twice = self.packets_of(link.name, IS_TWICE)
        delay_of: Optional[LateOf] = (lambda number: late.get(number, 0)) if late else None
        return delay_of, twice.__contains__ if twice else None

    def faults_met(self) -> list[AnyFault]:
        """Returns the faults that happened to packets: losses and copies in order of time, then delays by link and packet."""
        faults = [Fault(link.name, number, kind) for link, kind, number in self.happened if kind != IS_LATE]
        late = [Fault(link.name, number, kind, link.late.get(number, 0)) for link, kind, number in self.happened if kind == IS_LATE]
        return [*faults, *sorted(late)]

    def unmet(self) -> Faults:
        """Returns the faults whose packets never arrived, and the acts that weren't done or did nothing."""
        faults = Faults() if self.chosen is None else self.chosen
        counts = {link.name: link.came for link in self.links.values()}
        packets = [fault for fault in faults.packets if counts.get(fault.link, 0) < fault.packet]
        acts = [act for act in faults.acts if act not in self.acted or not self.acted[act].met]
        return Faults(*packets, *acts)

    def unmet_faults(self) -> list[str]:
        """Returns a message for each fault whose link is missing and each refused act. Unless the faults are drawn, adds a message
        for each fault whose packet never arrived, and each act after the run's end."""
        lines = super().unmet_faults()
        names = [link.name for link in self.links.values()]
        is_drawn = isinstance(self.chosen, Drawn)
        unmet = self.unmet()
        for fault in unmet.packets:
            if fault.link not in names:
                lines.append(f"{fault}: there is no such link; there are {', '.join(names) or 'none'}")
            elif not is_drawn:
                lines.append(f"{fault}: it came to no packet")
        lines += [f"{act}: {text}" for act, text in self.refused_acts.items()]
        if not is_drawn:
            later = [act for act in unmet.acts if act not in self.acted and act not in self.refused_acts]
            lines += [f"{act}: the run ended before, at {self.loop.time():.6f} s" for act in later]
        return lines


def run(main: Coroutine[Any, Any, T], faults: Iterable[AnyFault], *, seed: int = 1, timeout: Optional[float] = None) -> T:
    """Runs a coroutine in a new network with these faults, like `hingetulip.aio.run`; returns its value. Unmet: a fault's link or
    host doesn't exist, or a fault not drawn by `some_faults` had no effect."""
    with FaultyNetwork(faults, seed=seed) as net:
        value = net.run(main, timeout=timeout)
        net.check()
        return value


def some_faults(*links: str, packets: int = 60, hosts: Sequence[str] = (), seconds: int = 0) -> SearchStrategy[Faults]:
    """Returns a hypothesis strategy for faults of these links' first packets. Some faults have equal distances, since often the
    repetitions must be lost too. During the first `seconds`, links are also cut and held, in one direction each, and `hosts` are
    cut, held, crashed or given another time. Everything shrinks to the fewest, earliest and simplest faults."""
    from hypothesis import strategies

    def train(link: str, packet: int, kind: str, ms: int, apart: int, are_there: list[bool]) -> list[Fault]:
        delay = ms if kind == IS_LATE else 0
        return [Fault(link, packet + place * apart, kind, delay) for place, is_there in enumerate(are_there) if is_there]

    trains = strategies.builds(
        train,
        strategies.sampled_from(links),
        strategies.integers(1, packets),
        strategies.sampled_from((IS_LOST, IS_TWICE, IS_LATE)),
        strategies.sampled_from(DELAYS),
        strategies.just(1) | strategies.integers(1, MOST_APART),
        strategies.lists(strategies.sampled_from((False, True, True, True)), min_size=1, max_size=MOST_OF_TRAIN),
    )
    several = strategies.lists(trains, max_size=MOST_TRAINS)
    of_packets = several.map(lambda trains: Drawn(*sorted({fault for train in trains for fault in train})))
    if not seconds:
        return of_packets
    targets = [(kind, link) for link in links for kind in (CUT, HOLD)] + [(kind, host) for host in hosts for kind in ACT_KINDS]
    acts = strategies.builds(
        lambda tenths, target, lasting: Act(tenths / 10, target[0], target[1], lasting),
        strategies.integers(0, 10 * seconds),
        strategies.sampled_from(targets),
        strategies.sampled_from(LASTING),
    )
    of_hosts = strategies.lists(acts, max_size=MOST_ACTS, unique=True)
    return strategies.builds(lambda packets, acts: Drawn(*packets, *sorted(acts)), of_packets, of_hosts)
