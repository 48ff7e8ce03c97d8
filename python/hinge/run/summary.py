"""A run's summary for people and for programs: the run's reliability, and the counts of packets in each direction of the links."""

from __future__ import annotations

import re
from typing import Iterator, Optional, Sequence, Union

from hinge.border.terminal import tell
from hinge.run.page import COUNTS, ENDED_WELL, Counts, Page, WayCounts

NAMES = ("up", "down")
FORMAT = 1  # the version of the JSON summary, whose keys docs/LIVE.md lists
CAUTION = "CAUTION, this machine was too busy"
VOID = 75  # the status of a run that should be repeated
SHARES = (("p50", 0.5), ("p99", 0.99), ("p99.9", 0.999), ("max", 1.0))
Record = dict[str, Union[int, float]]


def times(way: WayCounts) -> dict[str, float]:
    """Returns how late packets left and how long packets waited unread, in ms: for each share of the packets, and for 99 % of the
    time, the least limit that the share keeps."""
    late = {f"late_{label}_ms": way.late.within(share) for label, share in SHARES}
    unread = {f"unread_{label}_ms": way.unread.within(share) for label, share in SHARES}
    of_time = {"late_time_p99_ms": way.late_time.within(0.99), "unread_time_p99_ms": way.unread_time.within(0.99)}
    return late | unread | of_time


def judged(name: str, way: WayCounts, drops: int, limit: float) -> Iterator[str]:
    """Yields the reasons not to trust a way (one direction of a link), by a limit in ms for 99 % of the packets and 99 % of the
    time.

    The limit also applies to the time, since a stall may last long but affect few packets."""
    ms = times(way)
    for label in ("late", "unread"):
        p99 = ms[f"{label}_p99_ms"]
        if p99 > limit:
            yield f"{name}: the p99 of `{label}`, {p99:.3f} ms, is above the limit of {limit:g} ms"
        elif ms[f"{label}_time_p99_ms"] > limit:
            most = ms[f"{label}_max_ms"]
            yield f"{name}: `{label}` was above the limit of {limit:g} ms in more than 1 % of the time (max {most:.3f} ms)"
    if drops or way["refused"]:
        yield f"{name}: the system dropped {drops} packets before the link and {way['refused']} behind it"


def void(counts: Counts, drops: Sequence[int], limit: Optional[float], names: Sequence[str] = NAMES) -> list[str]:
    """Returns the reasons that make a run void (to be repeated), if any. Without a limit there are two: the host broke off, or the
    machine was suspended. `drops` are the packets that the system dropped before each way."""
    lines: list[str] = []
    if limit is not None:
        for name, way, losses in zip(names, counts.ways, drops):
            lines += judged(name, way, losses, limit)
    if counts.slept > LEAST_SLEEP:
        lines.append(f"this machine was suspended for {counts.slept / 1e9:.3f} s")
    if counts["state"] != ENDED_WELL:
        links = "the link" if names is NAMES else "the links"
        lines.append(f"{links} broke off before the end")
    return lines


LEAST_SLEEP = 10_000_000  # ns
MOST_PIPE = 65535
MOST_TOLD = 4  # how many warnings are printed
PART_OF_DELAY = 10  # the tenth part of the shortest delay is the limit
WITHOUT_DELAY = 5.0  # the limit in ms if no link has a delay
DELAY = re.compile(r"^line (?:pipe (\d+)|queue \d+) config .*?\bdelay (\d+)", re.MULTILINE)
SECOND_PASS = re.compile(r"^(?:jitter \d+|fault \d+ 2 \d+) (\d+)", re.MULTILINE)


def cautions(counts: Counts, drops: Sequence[int], plan: str, names: Sequence[str] = NAMES) -> list[str]:
    """Returns warnings for a run without a limit, if the host was late by more than a tenth of the shortest delay in the plan."""
    first_of_second_pass = min(map(int, SECOND_PASS.findall(plan)), default=MOST_PIPE + 1)
    delays = [int(delay) for pipe, delay in DELAY.findall(plan) if int(delay) and int(pipe or 0) < first_of_second_pass]
    limit = min(delays) / PART_OF_DELAY if delays else WITHOUT_DELAY
    reasons = list[str]()
    for name, way, losses in zip(names, counts.ways, drops):
        reasons += judged(name, way, losses, limit)
    if not reasons:
        return []
    advice = f"--late {limit:g}ms makes such a run void"
    if len(reasons) > MOST_TOLD:
        advice += f", and names {len(reasons) - MOST_TOLD} more ways"
    return [*(f"{CAUTION}: {reason}" for reason in reasons[:MOST_TOLD]), advice]


SELDOM = (
    ("corrupted", "left with a flipped bit"),
    ("discarded", "discarded"),
    ("no_target", "had no pipe"),
    ("not_ip", "not IP"),
    ("turned_away", "turned away"),
)


def direction(name: str, way: WayCounts, drops: int) -> str:
    """Returns the counts of a way in words, without counts of 0 that are rare."""
    text = "nothing came"
    if way["came"]:
        text = f"{way['came']} came, {way['sent']} delivered, {way['lost']} lost, {way['full']} met a full queue"
        text += f", {way.underway} under way"
    text += "".join(f", {way[key]} {words}" for key, words in SELDOM if way[key])
    if drops or way["refused"]:
        text += f", the system dropped {drops} before the link and {way['refused']} behind it"
    return f"{name}: {text}"


def line(counts: Counts, drops: Sequence[int]) -> str:
    """Returns the summary's line with the counts of both ways."""
    return "; ".join(direction(name, way, losses) for name, way, losses in zip(NAMES, counts.ways, drops))


def way_record(way: WayCounts, drops: int) -> Record:
    """Returns a way's part of the JSON summary."""
    counts: Record = {key: way[key] for key in COUNTS if not key.endswith("_most")}
    return counts | times(way) | {"underway": way.underway, "system_drops": drops}


def host_record(counts: Counts) -> dict[str, object]:
    """Returns the part of the JSON summary about the host program: the clock, and how often the program woke and looked after the
    links."""
    return {"moment": counts["moment"], "wakeups": counts["wakes"], "turns": counts["turns"]}


def record(counts: Counts, drops: Sequence[int], status: Optional[int], seed: int, faults: list[str]) -> dict[str, object]:
    """Returns the summary for JSON; `faults` are the reasons why the run is void."""
    ways = [way_record(way, losses) for way, losses in zip(counts.ways, drops)]
    front = {"format": FORMAT, "status": status, "seed": seed, "void": faults}
    return front | host_record(counts) | dict(zip(NAMES, ways))


def shown(name: str, before: WayCounts, now: WayCounts) -> str:
    """Returns the growth of a way's counts between two readings a second apart, in words; the delay is the mean over packets that
    left."""
    growth = {key: now[key] - before[key] for key in ("sent", "sent_bytes", "stayed", "lost", "full")}
    rate = growth["sent_bytes"] * 8 / 1e6
    delay = growth["stayed"] / max(1, growth["sent"]) / 1e6
    drops = growth["lost"] + growth["full"]
    return f"{name:4} {rate:9.3f} Mbit/s {now['held']:6} in link {delay:9.3f} ms {drops:5} dropped"


class Watch:
    """Prints a line each second with the rates, queues and losses of both directions, for `--watch`."""

    def __init__(self, page: Page) -> None:
        self.page = page
        self.before = page.read()  # the counts of the last line

    def tick(self, at: float) -> None:
        """Prints a line about the last second; `at` is the time in seconds since the start."""
        counts = self.page.read()
        ways = (shown(*way) for way in zip(NAMES, self.before.ways, counts.ways))
        tell("  | ".join([f"{at:6.1f} s", *ways]))
        self.before = counts
