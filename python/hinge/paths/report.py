"""The report on a net's ways (directions of links), on the packets' paths, and on faults between the links."""

from __future__ import annotations

from dataclasses import dataclass
from typing import Iterator, Optional

from hinge.lazy import Integers, Reals, np
from hinge.paths.matching import LOST_IN_HOST, NONE, Matched
from hinge.paths.passages import Passages
from hinge.replays.replay import FULL, LOST, OUT

MS = 1e6  # ns
SHOWN = 10  # packets that the report lists for a kind of fault


@dataclass(frozen=True)
class Path:
    """The packets that passed the same ways in the same order. Arrays have a row for each packet; times are in ns."""

    pipes: tuple[int, ...]  # of the ways
    sent: Integers  # the moments at which packets entered the first link
    links: Integers  # the time in each link, a column for each
    hosts: Integers  # the time in each host between two links, a column for each

    @property
    def most_in_hosts(self) -> int:
        return int(self.hosts.max(initial=0))


@dataclass(frozen=True)
class WayFigures:
    """A way's traffic in packets. Times are in ns; `mean` and `p99` of the delay are None if no packet was delivered."""

    pipe: int
    ends: tuple[str, str]
    packets: int
    lost: int
    full: int
    sent_bytes: int
    span: int  # from the first delivery to the last
    mean: Optional[int]
    p99: Optional[int]

    @property
    def name(self) -> str:
        return " > ".join(self.ends)

    @property
    def mbit_s(self) -> Optional[float]:
        return self.sent_bytes * 8000 / self.span if self.span else None


def chains(matching: Matched) -> Iterator[Integers]:
    """Yields the passages (packets on one link) of packets that arrived at their destinations, an array for each number of links: a
    row for each packet, a column for each passage."""
    last = np.flatnonzero(matching.is_there)
    chain = last[:, None]
    while len(chain):
        before = matching.before[chain[:, 0]]
        yield chain[before == NONE]
        chain = np.column_stack((before, chain))[before != NONE]


def paths(matching: Matched) -> list[Path]:
    """Returns the paths of the packets that arrived, beginning with the path of most packets."""
    passages = matching.passages
    items: list[Path] = []
    for chain in chains(matching):
        ways, number = np.unique(passages.pipe[chain], axis=0, return_inverse=True)
        in_links = passages.due[chain] - passages.came[chain]
        in_hosts = passages.came[chain[:, 1:]] - passages.due[chain[:, :-1]]
        for place, pipes in enumerate(ways.tolist()):
            of_path = number.ravel() == place
            items.append(Path(tuple(pipes), passages.came[chain[of_path, 0]], in_links[of_path], in_hosts[of_path]))
    return sorted(items, key=lambda path: -len(path.sent))


def hosts_of(matching: Matched, path: Path) -> list[str]:
    """Returns the names of a path's hosts, from the sender to the destination."""
    topology = matching.passages.topology
    ends = [topology.pipes[pipe] for pipe in path.pipes]
    return [topology.hosts[start] for start, _ in ends] + [topology.hosts[ends[-1][1]]]


def ways(matching: Matched) -> list[WayFigures]:
    """Returns the figures of each way that packets entered, in the order of the pipes' numbers."""
    used = set(np.unique(matching.passages.pipe).tolist())
    return [figures_of(matching, pipe) for pipe in sorted(matching.passages.topology.pipes) if pipe in used]


def figures_of(matching: Matched, pipe: int) -> WayFigures:
    passages, topology = matching.passages, matching.passages.topology
    is_own = passages.pipe == pipe
    out = is_own & (passages.event == OUT)
    packets = int(is_own.sum())
    losses = int((is_own & (passages.event == LOST)).sum())
    full = int((is_own & (passages.event == FULL)).sum())
    sent_bytes = int(passages.length[out].sum())
    start, end = topology.pipes[pipe]
    ends = (topology.hosts[start], topology.hosts[end])
    if not out.any():
        return WayFigures(pipe, ends, packets, losses, full, sent_bytes, 0, None, None)
    delay = (passages.due - passages.came)[out]
    span = int(np.ptp(passages.due[out]))
    p99 = int(np.quantile(delay, 0.99, method="higher"))
    return WayFigures(pipe, ends, packets, losses, full, sent_bytes, span, int(delay.mean()), p99)


def of_ways(matching: Matched) -> Iterator[str]:
    """Yields the lines of a table with the figures of each way that packets entered."""
    rows: list[tuple[str, ...]] = [("way", "packets", "lost", "full", "Mbit/s", "mean ms", "p99 ms")]
    for way in ways(matching):
        times = [None if time is None else time / MS for time in (way.mean, way.p99)]
        texts = ["-" if value is None else f"{value:.3f}" for value in (way.mbit_s, *times)]
        rows.append((way.name, f"{way.packets:,}", f"{way.lost:,}", f"{way.full:,}", *texts))
    widths = [max(map(len, column)) for column in zip(*rows)]
    for name, *fields in rows:
        yield "  ".join([name.ljust(widths[0]), *(field.rjust(width) for field, width in zip(fields, widths[1:]))])


def of_paths(matching: Matched, top: int) -> Iterator[str]:
    """Yields a line for each path over several links: packets, and the mean time in each link and host. The line ends with the
    longest time in a host. After the `top` busiest paths, a line counts the others."""
    long_paths = [path for path in paths(matching) if len(path.pipes) > 1]
    for path in long_paths[:top]:
        in_links = path.links.mean(axis=0)
        in_hosts = path.hosts.mean(axis=0)
        total = (in_links.sum() + in_hosts.sum()) / MS
        head = f"{' - '.join(hosts_of(matching, path))}: {len(path.sent):,} packets, {total:.3f} ms"
        yield f"{head}: links {sum_of(in_links)}, hosts {sum_of(in_hosts)}, at most {path.most_in_hosts / MS:.3f}"
    if len(long_paths) > top:
        yield f"{len(long_paths) - top} other paths"


def sum_of(times: Reals) -> str:
    """Converts times from ns to a sum in ms, such as `10.020 + 5.000`."""
    return " + ".join(f"{time / MS:.3f}" for time in times)


def of_faults(matching: Matched, files: list[str]) -> Iterator[str]:
    """Yields a line for each kind of fault with the count, and then lines for the first packets. `files` are the transcript's."""
    for kind, rows in matching.faults.items():
        if not len(rows):
            continue
        yield f"{kind}: {len(rows):,}"
        for row in rows[:SHOWN].tolist():
            yield line_of_fault(matching.passages, row, kind, files)


def line_of_fault(passages: Passages, row: int, kind: str, files: list[str]) -> str:
    """Returns a line about a faulty passage: a host received a packet that was lost there, and sent any other packet."""
    if kind == LOST_IN_HOST:
        act = f"{passages.topology.hosts[passages.end[row]]} got"
        moment = passages.due[row]
    else:
        act = f"{passages.topology.hosts[passages.start[row]]} sent"
        moment = passages.came[row]
    content = int(passages.content[row]) % 2**64  # the column is signed
    packet = f"a packet of {passages.length[row]} bytes at {moment / MS:.6f} ms, content {content:016x}"
    return f"  {files[passages.file[row]]} line {passages.line[row]}: {act} {packet}"


def summary(matching: Matched) -> str:
    """Returns a line with the counts of packets: on links, handed on by hosts, arrived, and of four rarer kinds if they occur."""
    handed_on = int((matching.before != NONE).sum())
    arrived = int(matching.is_there.sum()) - matching.expired
    counts = {
        "with an expired time to live": matching.expired,
        "back at their senders, as while routes change": matching.back,
        "at hosts at the end": matching.at_the_end,
        "dropped by the system, as it told": matching.told,
    }
    more = "".join(f", {count:,} {what}" for what, count in counts.items() if count)
    return f"{len(matching.passages):,} packets on links, {handed_on:,} handed on by hosts, {arrived:,} arrived{more}"
