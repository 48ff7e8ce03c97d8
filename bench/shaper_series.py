#!/usr/bin/env python3
"""Runs the built bench_calls again and again, and tells for each load the least and the median of a Submit and of its
share of the Collects, in ns a packet, and how many times one link's cost a packet at 16,384 links has.

A run stays on one processor, the next run on the next one, and takes the cost at one link just before and after that at 16,384 links:
the processors of a virtual machine can be threads of cores whose other threads have other users, and then one of them is half as
fast as another, or as itself a second later. So beside all runs the steady ones are told by themselves, those in which the two costs at
one link differ by at most a tenth.

usage: bench/shaper_series.py ROUNDS RUNS     (after bench/shaper.sh, which proves and builds the program)
"""
import os
import re
import statistics
import subprocess
import sys

PROGRAM = os.path.join(os.path.dirname(__file__), "..", "crates", "bench_calls", "out", "bench_calls")
LINE = re.compile(r"(.*): (\d+) ns and (\d+) ns for the Collects of \d+ rounds")
ONE, MANY = "one flow of a pipe", "16,384 links"
OTHER_LOADS = [1, 2, 4]


def cost(rounds, load):
    """The name of a load, and what a packet costs: a Submit, and its share of the Collects."""
    done = subprocess.run([PROGRAM, "shaper", str(rounds), str(load)], capture_output=True, text=True, check=True)
    name, submits, collects = LINE.match(done.stderr).groups()
    packets = 1000 * rounds
    return name, (int(submits) / packets, int(collects) / packets)


def one_run(rounds, processor):
    """The costs of each load by one processor, and one link's cost again after that at 16,384 links."""
    os.sched_setaffinity(0, {processor})
    costs = dict(cost(rounds, load) for load in [0, 3])
    after = cost(rounds, 0)[1]
    costs.update(cost(rounds, load) for load in OTHER_LOADS)
    return costs, after


def tell_loads(runs):
    """The least and the median of each load."""
    for load in runs[0][0]:
        submits, shares = zip(*(costs[load] for costs, _ in runs))
        print(
            f"{load}: least {min(submits):.0f} + {min(shares):.0f},"
            f" median {statistics.median(submits):.0f} + {statistics.median(shares):.0f}"
        )


def tell_ratios(name, runs):
    """How many times one link's cost 16,384 links have: in each run, and by the least cost of all runs."""
    if not runs:
        print(f"{name}: none")
        return
    times = [2 * sum(costs[MANY]) / (sum(costs[ONE]) + sum(after)) for costs, after in runs]
    least = min(sum(costs[MANY]) for costs, _ in runs) / min(min(sum(costs[ONE]), sum(after)) for costs, after in runs)
    print(
        f"{name}: 16,384 links to one in a run: least {min(times):.2f}, median {statistics.median(times):.2f}, most {max(times):.2f},"
        f" at most 4 in {sum(ratio <= 4 for ratio in times)} of {len(times)}; by the least costs {least:.2f}"
    )


def main():
    if len(sys.argv) != 3:
        sys.exit(__doc__)
    rounds, count = int(sys.argv[1]), int(sys.argv[2])
    processors = sorted(os.sched_getaffinity(0))
    runs = [one_run(rounds, processors[i % len(processors)]) for i in range(count)]
    tell_loads(runs)
    tell_ratios("all runs", runs)
    tell_ratios("steady runs", [(costs, after) for costs, after in runs if 0.9 < sum(costs[ONE]) / sum(after) < 1.1])


if __name__ == "__main__":
    main()
