"""The verdict on a run: its links, late or reordered acts on hosts, programs that waited for a processor, and a suspended
machine."""

from __future__ import annotations

import time
from itertools import islice
from typing import TYPE_CHECKING, Callable, Iterable, Iterator, NamedTuple, Optional, Sequence

from hinge.border.files import read_text
from hinge.run.cgroups import Cgroup
from hinge.run.page import Counts
from hinge.run.summary import CAUTION, NAMES, cautions, void
from hinge.run.system import is_simulated

if TYPE_CHECKING:
    from hinge.events.kinds import TimedEvent
    from hinge.net.acts import FinishedAct

WITHOUT_LIMIT = 20.0  # ms
MOST_TOLD = 4  # how many hosts or texts a line names
NOTHING_RAN = "changed nothing, as the host's command had ended by itself"
PART = 0.01  # the share of the time, as of packets, that causes no remark


class ActTimes(NamedTuple):
    """Describes when an act on a host was due, and when it came."""

    words: str  # the act, in backticks
    due: int  # ns, on the links' clock
    came: int  # ns

    @property
    def late_ms(self) -> float:
        """Returns the ms between both moments."""
        return (self.came - self.due) / 1e6


def times_of(act: FinishedAct, main: int) -> ActTimes:
    """Returns when an act was due and when it came; the main command started at `main` ns."""
    moment = act.act.moment
    due = moment.ns + main if moment.of_main else moment.ns
    return ActTimes(f"`{act.act.word} {act.act.host}`", due, act.moment)


def late_acts(acts: Sequence[FinishedAct], main: Optional[int], limit: float) -> Iterator[str]:
    """Yields a remark if acts on hosts came later than `limit` ms after their requested moments, and a remark for each act that
    came in another order than requested. `main` is the ns at which the main command started."""
    times = [times_of(act, main or 0) for act in acts]
    late = [act for act in times if act.late_ms > limit]
    if late:
        latest = max(late, key=lambda act: act.late_ms)
        yield f"{len(late)} of {len(times)} acts on hosts were late by over {limit:g} ms ({latest.words} {latest.late_ms:.3f} ms)"
    in_order = sorted(times, key=lambda act: act.came)
    for earlier, later in zip(in_order, in_order[1:]):
        if later.due < earlier.due:
            ms = (earlier.due - later.due) / 1e6
            yield f"{later.words} came behind {earlier.words}, which was to come {ms:g} ms later"


def some(kind: str, texts: Iterable[str]) -> Iterator[str]:
    """Yields a line with the first MOST_TOLD texts and the number of further texts; yields nothing if there are no texts. The
    further texts are counted, and not kept in memory."""
    rest = iter(texts)
    first = [*islice(rest, MOST_TOLD)]
    if first:
        count = sum(1 for _ in rest)
        others = f" and {count} more" if count else ""
        yield f"{kind}: {', '.join(first)}{others}"


class Awaited(NamedTuple):
    """Lists what a run's words request, for a comparison with the run's counts."""

    moments: Sequence[tuple[int, str]] = ()  # each event's moment in ns, and its text
    packets: Sequence[tuple[int, int]] = ()  # the way and the number of each packet that a fault or model names
    idle: Sequence[tuple[TimedEvent, TimedEvent]] = ()  # each event that changes nothing, and the event that is the cause
    rules: Sequence[str] = ()  # for each of the rules' lines in the plan, the words that name the rule
    queues: Sequence[str] = ()  # the queues that no rule names
    faults: Sequence[tuple[str, bool]] = ()  # the faults of hosts on which nothing ran, and whether a seed drew each

    def missed(self, counts: Counts, names: Sequence[str]) -> Iterator[str]:
        """Yields lines about requested events and packets that never came, and about events without effect that no seed drew."""
        late = (f"`{text}`" for moment, text in self.moments if moment > counts["moment"])
        packets = (f"packet {packet} of {names[way]}" for way, packet in self.packets if packet > counts.ways[way]["came"])
        yield from some("not yet when the run ended", late)
        yield from some("chosen, but never came", packets)
        yield from self.without_effect(is_drawn=False)

    def without_effect(self, is_drawn: bool) -> Iterator[str]:
        """Yields lines about events and hosts' faults without effect: those that a seed drew, or the others."""
        pairs = (pair for pair in self.idle if pair[0].is_drawn == is_drawn)
        yield from some("changed nothing", (f"`{event}`, beside `{cause}`" for event, cause in pairs))
        yield from some(NOTHING_RAN, (words for words, by_seed in self.faults if by_seed == is_drawn))

    def remarks(self, counts: Counts) -> Iterator[str]:
        """Yields remarks on what isn't a mistake: events without effect that a seed drew, rules that no packet matched, and queues
        that no rule names."""
        yield from self.without_effect(is_drawn=True)
        with_packets = {text for place, text in enumerate(self.rules) if counts.has_met(place)}
        yield from some("met no packet", (f"`{text}`" for text in dict.fromkeys(self.rules) if text not in with_packets))
        yield from some("no rule names", self.queues)


class Verdict(NamedTuple):
    """Holds the reasons why a run is void (to be repeated), and the warnings."""

    void: list[str]
    cautions: list[str]


def verdict(
    counts: Counts,
    drops: Sequence[int],
    plan: str,
    limit: Optional[float],
    others: Callable[[float], list[str]],
    names: Sequence[str] = NAMES,
    awaited: Awaited = Awaited(),
    may_be_late: bool = True,
) -> Verdict:
    """Returns the verdict on a run, from the links' counts and the numbers of packets that the system dropped before each way.
    `limit` is from --late in ms; without a limit, late packets only cause warnings. `others` returns remarks on lateness above a
    limit in ms that the links didn't cause. `may_be_late` is false if late packets say nothing about the machine."""
    reasons = void(counts, drops, limit, names)
    late = others(WITHOUT_LIMIT if limit is None else limit)
    missed = [*awaited.missed(counts, names)]
    remarks = [f"CAUTION, {line}" for line in awaited.remarks(counts)]
    if limit is not None:
        return Verdict(reasons + late + missed, remarks)
    warnings = cautions(counts, drops, plan, names) if may_be_late and not is_simulated() else []
    warnings += [f"{CAUTION}: {line}" for line in late]
    warnings += [f"CAUTION, {line}" for line in missed]
    return Verdict(reasons, warnings + remarks)


class Waits:
    """Holds how long the hosts' programs waited for a processor; the caller reads these times once a second."""

    def __init__(self) -> None:
        self.begun = time.monotonic()
        self.looked = self.begun  # the last reading's moment
        self.readings: dict[str, float] = {}  # the last reading for each host: ms since its programs' start
        self.totals: dict[str, float] = {}  # ms since the run's start, by hosts
        self.most: dict[str, float] = {}  # the most ms in a second, by hosts

    def left(self) -> float:
        """Returns the seconds until the next reading."""
        return max(0.0, self.looked + 1 - time.monotonic())

    def look(self, cgroups: dict[str, Cgroup], processes: dict[str, int]) -> None:
        """Reads the waiting times of all hosts. If a host's cgroup doesn't report the time, only the first thread of the host's
        command counts."""
        now = time.monotonic()
        lasting = max(1.0, now - self.looked)
        self.looked = now
        for host in dict.fromkeys([*cgroups, *processes]):
            total = cgroups[host].waited() if host in cgroups else None
            if total is None and host in processes:
                total = waited_of(processes[host])
            self.add(host, total, lasting)

    def add(self, host: str, total: Optional[float], lasting: float) -> None:
        """Adds the growth of a host's waiting time; `total` is the time in ms since the programs' start, and `lasting` the seconds
        since the last reading. A smaller total than before shows that the programs restarted."""
        if total is None:
            return
        last = self.readings.get(host, 0.0)
        self.readings[host] = total
        growth = total - last if total >= last else total
        self.totals[host] = self.totals.get(host, 0.0) + growth
        self.most[host] = max(self.most.get(host, 0.0), growth / lasting)

    def record(self) -> dict[str, float]:
        """Returns each host's waiting time in ms."""
        return {host: round(ms, 3) for host, ms in self.totals.items()}

    def over(self, limit: float) -> list[str]:
        """Returns lines about the hosts whose programs waited for more than a share of the time (PART), and in some second for more
        than `limit` ms."""
        ran = time.monotonic() - self.begun
        over = {host: ms for host, ms in self.totals.items() if ms > PART * ran * 1e3 and self.most[host] > limit}
        hosts = sorted(over, key=lambda host: (-over[host], host))
        end = f"of {ran:.1f} s for a processor (over {limit:g} ms in a second)"
        lines = [f"programs of {host} waited {over[host]:.0f} ms {end}" for host in hosts[:MOST_TOLD]]
        others = hosts[MOST_TOLD:]
        if others:
            lines.append(f"so did those of {len(others)} more hosts")
        return lines


def waited_of(process: int) -> Optional[float]:
    """Returns the ms for which a process's first thread waited for a processor, or None if the system doesn't report the time."""
    try:
        return int(read_text(f"/proc/{process}/schedstat").split()[1]) / 1e6
    except (OSError, IndexError, ValueError):
        return None  # the process has ended, or the system doesn't report the time
