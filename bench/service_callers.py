"""Calls of one emulator by 1 to 15 threads, through the service of C and of Python, beside plain Rust's mutex, as a table.

    python3 bench/service_callers.py CALLERS SERVICE_CALLS [ROUNDS [COUNT]]
    python3 bench/service_callers.py KIND CALLERS COUNT     (the calls of service_calls.c from Python)

CALLERS is the program `callers` of bench/twin, SERVICE_CALLS is bench/service_calls.c, and HINGETULIP_LIBRARY names Python's library. All
run by turns. A figure is the median of the rounds in ns a call over all callers, and behind it by the mutex's in the same round.
Python makes a tenth of the calls.
"""

import re
import statistics
import subprocess
import sys
import time
from collections import defaultdict
from pathlib import Path
from threading import Barrier, Thread

sys.path.insert(0, str(Path(__file__).resolve().parent.parent / "python"))

from hingetulip import Caller, Service  # noqa: E402

CALLERS = (1, 2, 4, 8)
Case = tuple[str, int]


def make_moves(caller: Caller, count: int) -> None:
    for moment in range(count):
        caller.advance(moment)


def send_packets(caller: Caller, count: int) -> None:
    for moment in range(count):
        caller.submit(moment, 1000, pipe=1, src=1, dst=2, proto=17, sport=1000, dport=2000)


KINDS = {"moves": make_moves, "packets": send_packets}


def call(kind: str, callers: str, count: str) -> None:
    """Prints the ns a call over all of some threads, each with a caller of its own."""
    ready = Barrier(int(callers) + 1)
    each = int(count) // int(callers)

    def work(caller: Caller) -> None:
        ready.wait()
        KINDS[kind](caller, each)

    with Service(int(callers)) as service:
        service.callers[0].configure("pipe 1 config")
        threads = [Thread(target=work, args=(caller,)) for caller in service.callers]
        for thread in threads:
            thread.start()
        ready.wait()
        began = time.monotonic_ns()
        for thread in threads:
            thread.join()
        print(f"{(time.monotonic_ns() - began) / (each * int(callers)):.1f}")


def printed(*words: object) -> str:
    return subprocess.run([str(word) for word in words], stdout=subprocess.PIPE, text=True, check=True).stdout


def by_mutex(program: str, count: int) -> dict[Case, float]:
    found = re.findall(r"(\w+), (\d+) callers: (\d+) ns", printed(program, count))
    return {(kind, int(callers)): float(ns) for kind, callers, ns in found}


def main(twin: str, in_c: str, rounds: str = "5", count: str = "400000") -> None:
    cases = [(kind, callers) for kind in KINDS for callers in CALLERS]
    took: dict[tuple[str, Case], list[float]] = defaultdict(list)
    for _ in range(int(rounds)):
        mutex = by_mutex(twin, int(count))
        for case in cases:
            took["plain Rust's mutex", case].append(mutex[case])
            took["C", case].append(float(printed(in_c, *case, count)))
            took["Python", case].append(float(printed(sys.executable, __file__, *case, int(count) // 10)))
    print(f"| | {' | '.join(f'{kind}, {callers}' for kind, callers in cases)} |\n|{'---|' * (len(cases) + 1)}")
    for name in ("plain Rust's mutex", "C", "Python"):
        rows = [(took[name, case], took["plain Rust's mutex", case]) for case in cases]
        cells = [f"{statistics.median(own):.0f}, {statistics.median(a / b for a, b in zip(own, mutex)):.2f}" for own, mutex in rows]
        print(f"| {name} | {' | '.join(cells)} |")


if __name__ == "__main__":
    (call if sys.argv[1] in KINDS else main)(*sys.argv[1:])
