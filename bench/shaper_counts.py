#!/usr/bin/env python3
"""Counts what a packet costs the shaper's benchmark, which no other work on the machine changes: instructions and misses
of simulated caches, a Submit and its share of the Collects, for each load, from 150 rounds of 1,000 packets to 650.

The last cache is one of 1 MiB, as the second level of the machine is that the times were taken on; what it misses is
counted as a read of memory. Cycles are estimated as KCachegrind does: an instruction 1, a miss of the first level 10 and
one of the last 100.

usage: bench/shaper_counts.py     (after bench/shaper.sh, which proves and builds the program; it needs valgrind)
"""
import os
from concurrent.futures import ThreadPoolExecutor

from replay import counts

PROGRAM = os.path.join(os.path.dirname(__file__), "..", "crates", "bench_calls", "out", "bench_calls")
LOADS = ["one flow of a pipe", "100 queues on a pipe", "1,000 links", "16,384 links", "40,000 flows over 10 queues"]
ROUNDS = (150, 650)


def per_packet(load):
    """Instructions, misses of the first level and misses of the last, a packet."""
    with ThreadPoolExecutor() as pool:
        fewer, more = pool.map(counts, ([PROGRAM, "shaper", str(rounds), str(load)] for rounds in ROUNDS))
    each = {name: (more[name] - fewer[name]) / (1000 * (ROUNDS[1] - ROUNDS[0])) for name in more}
    return each["I refs"], each["I1 misses"] + each["D1 misses"], each["LLi misses"] + each["LLd misses"]


def main():
    found = [per_packet(load) for load in range(len(LOADS))]
    cycles = [instructions + 10 * first + 100 * last for instructions, first, last in found]
    for load, (instructions, first, last), estimate in zip(LOADS, found, cycles):
        print(
            f"{load}: {instructions:.0f} instructions, {first:.1f} and {last:.1f} misses, some {estimate:.0f} cycles,"
            f" {instructions / found[0][0]:.2f} and {estimate / cycles[0]:.2f} times one flow's"
        )


if __name__ == "__main__":
    main()
