#!/usr/bin/env python3
"""Times of calls of the Python module, in us a packet: the least of some rounds, by the processor's time.

    bench/python_calls.py [ROUNDS [PACKETS]]     (HINGETULIP_LIBRARY may name the library)

Packets of 1,000 bytes, one each 1,000 ns, go to a pipe of 10 Gbit/s and 1 ms, so that 1,000 are under way, and all are collected.
"""

import sys
import time
from array import array
from pathlib import Path
from typing import Callable

sys.path.insert(0, str(Path(__file__).resolve().parent.parent / "python"))

import hingetulip  # noqa: E402

LINE, STEP = "pipe 1 config bw 10Gbit/s delay 1 queue 1000", 1_000
Load = Callable[[hingetulip.Shaper, int], int]


def one_by_one(shaper: hingetulip.Shaper, count: int) -> int:
    """A submit with all its fields and a collect for each packet."""
    came = 0
    for moment in range(0, count * STEP, STEP):
        shaper.submit(moment, 1000, pipe=1, src=1, dst=2, proto=17, sport=1000, dport=2000, word=0)
        came += len(shaper.collect(moment))
    return came


def by_columns(shaper: hingetulip.Shaper, count: int) -> int:
    """A submit_many and a collect_many for 1,000 packets, whose moments are written anew."""
    came = 0
    packets = hingetulip.Packets(1000, moment=0, length=1000, pipe=1, word=0)
    lasting = 1000 * STEP
    for first in range(0, count * STEP, lasting):
        packets.moment[:] = array("Q", range(first, first + lasting, STEP))
        shaper.submit_many(packets)
        came += len(shaper.collect_many(first + lasting))
    return came


LOADS: dict[str, Load] = {"one by one": one_by_one, "by columns, 1,000 at once": by_columns}


def timed(load: Load, count: int) -> float:
    with hingetulip.Shaper() as shaper:
        shaper.configure(LINE)
        begun = time.process_time()
        came = load(shaper, count)
        took = time.process_time() - begun
        came += len(shaper.collect(hingetulip.LAST_MOMENT))
    if came != count:
        sys.exit(f"{came} of {count} packets came")
    return took / count * 1e6


def main(rounds: int = 60, count: int = 20_000) -> None:
    least = {name: float("inf") for name in LOADS}
    for _ in range(rounds):
        for name, load in LOADS.items():
            least[name] = min(least[name], timed(load, count))
    for name, took in least.items():
        print(f"Python, {name}: {took:.2f} us a packet")


if __name__ == "__main__":
    main(*map(int, sys.argv[1:]))
