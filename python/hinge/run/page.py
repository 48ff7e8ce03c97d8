"""The page of counts: memory that this process shares with the host program hinge-link, which counts packets there during the run.
Reading the page costs the host no time."""

from __future__ import annotations

import mmap
import os
import struct
import time
from itertools import accumulate

BINS = 480  # of times in us, 16 bins for each power of two; page.h contains the same number
HEAD = ("state", "moment", "wakes", "turns", "underway", "realtime", "parts")
COUNTS = (  # of a way; page.h describes each
    "came",
    "came_bytes",
    "sent",
    "sent_bytes",
    "lost",
    "full",
    "no_target",
    "refused",
    "corrupted",
    "not_ip",
    "turned_away",
    "dropped",
    "held",
    "discarded",
    "stayed",
    "late_most",
    "unread_most",
)
KINDS = 4  # of histograms: late packets, unread packets, time with late packets, and time with unread packets
WAY = len(COUNTS) + KINDS * BINS  # numbers of a way
STARTING, RUNNING, ENDED_WELL = range(3)  # values of `state`
LOOKS = 5  # readings of the clocks
MET = 16  # numbers behind the ways' numbers, with a bit for each of the first rules
HAS_IT, NOT_ALLOWED = 1, 2  # values of `realtime`


class Times:
    """Holds a histogram of times, whose bins count packets or ns, and the longest time in ns."""

    def __init__(self, bins: tuple[int, ...], most: int) -> None:
        self.bins = bins
        self.most = most  # ns

    def within(self, share: float) -> float:
        """Returns the ms that this share of the packets or of the time doesn't exceed: the upper end of a bin, but at most the
        longest time."""
        total = sum(self.bins)
        if not total:
            return 0.0
        for index, count in enumerate(accumulate(self.bins)):
            if count >= share * total:
                return min(end_of_bin(index) / 1e3, self.most / 1e6)
        return 0.0


def end_of_bin(index: int) -> int:
    """Returns the upper end of a bin in us. The first 32 bins have a width of 1 us; then 16 bins divide each power of two."""
    if index < 32:
        return index + 1
    return (16 + index % 16 + 1) << (index - 16) // 16


class WayCounts:
    """Holds the counts of a way (one direction of a link)."""

    def __init__(self, numbers: tuple[int, ...], moment: int) -> None:
        """Reads a way's part of the page. `moment` is the ns since the start of the links' clock; all ns that the host didn't count
        are time without late packets."""
        self.counts = dict(zip(COUNTS, numbers))
        late, unread, late_time, unread_time = (numbers[start : start + BINS] for start in range(len(COUNTS), WAY, BINS))
        self.late = Times(late, self["late_most"])
        self.unread = Times(unread, self["unread_most"])
        self.late_time = Times(with_uncounted(late_time, moment), self["late_most"])
        self.unread_time = Times(with_uncounted(unread_time, moment), self["unread_most"])

    def __getitem__(self, name: str) -> int:
        return self.counts[name]

    @property
    def underway(self) -> int:
        """Returns how many packets are on the way now."""
        return self["came"] - sum(self[name] for name in ("sent", "refused", "lost", "full", "no_target", "discarded"))


def with_uncounted(bins: tuple[int, ...], moment: int) -> tuple[int, ...]:
    """Returns a histogram of ns, whose first bin also contains the ns until `moment` that no bin contains."""
    rest = max(0, moment - sum(bins))
    return (bins[0] + rest, *bins[1:])


class Counts:
    """Holds the page's contents at a moment."""

    def __init__(self, numbers: tuple[int, ...], slept: int = 0) -> None:
        """Reads the page's numbers. The machine was suspended for `slept` ns since the page's creation."""
        self.slept = slept
        self.head = dict(zip(HEAD, numbers))
        end = len(numbers) - (len(numbers) - len(HEAD)) % WAY
        self.ways = [WayCounts(numbers[at : at + WAY], self["moment"]) for at in range(len(HEAD), end, WAY)]
        self.met = numbers[end:]  # 64 bits each

    def __getitem__(self, name: str) -> int:
        return self.head[name]

    def has_met(self, rule: int) -> bool:
        """Returns whether a packet matched a rule; `rule` is the rule's place among the plan's rules. The host keeps no bit for
        very late rules, which count as matched."""
        if rule >= 64 * len(self.met):
            return True
        return bool(self.met[rule // 64] >> rule % 64 & 1)


def asleep() -> int:
    """Returns for how many ns this machine was suspended since its start: the least difference between two clocks in a few
    readings. The clock that stands still during a suspension is read first, so that a pause between the two calls only adds to a
    difference."""
    return min(-time.clock_gettime_ns(time.CLOCK_MONOTONIC) + time.clock_gettime_ns(time.CLOCK_BOOTTIME) for _ in range(LOOKS))


def size_of_page(ways: int) -> int:
    """Returns the bytes of a page with the counts of some ways."""
    return 8 * (len(HEAD) + ways * WAY + MET)


class Page:
    """Holds the memory of the page."""

    def __init__(self, ways: int = 2) -> None:
        self.asleep = asleep()
        self.size = size_of_page(ways)
        self.descriptor = os.memfd_create("hinge-run")
        os.ftruncate(self.descriptor, self.size)
        self.memory = mmap.mmap(self.descriptor, self.size)

    def read(self) -> Counts:
        """Returns all counts."""
        return Counts(struct.unpack(f"{self.size // 8}Q", self.memory[: self.size]), asleep() - self.asleep)

    def head(self, name: str) -> int:
        """Returns a number from the page's head, without reading the ways' counts."""
        return int(struct.unpack_from("Q", self.memory, 8 * HEAD.index(name))[0])
