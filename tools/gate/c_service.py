"""The service from C: threads make the calls of random scenarios, each through a caller, and `dummynet audit` judges their history.

    python3 tools/gate/c_service.py PROGRAM SEED COUNT

It takes the library of the present sources, as tools/release/library finds it. Each run has 1 to 15 threads. Each is made twice,
with the sanitizers for addresses and undefined behaviour, and with the one for threads. The latter sees only the program and the
header: the shared library isn't made for it, and orders its threads with atomics that it doesn't see. The history has to be valid,
and each caller's entries must match its thread's results in number and kind. A program with two threads, under the sanitizer for
threads and with the installed suppressions, reports only a race in the program itself. Entries are taken out meanwhile, and no memory
leaks; tools/gate/senders.py shows that it stays flat.
"""

import os
import shutil
import subprocess
from collections import Counter
from pathlib import Path
from random import Random
from typing import Iterator

from c_library import HEADER, SOURCES, library

from broken import bad_line
from config_lines import LineFault, parse_line
from link_library import SHARED
from model import Advance, Call, Configure, Show, Submit
from scenarios import STYLES, random_calls
from spelling import spell
from tally import Tally, judge, ran

MOST_CALLERS = 15
CALLS = 120  # of a caller
COMMON = ["-std=c99", "-Wall", "-Wextra", "-Werror", "-g", "-O1", "-fno-sanitize-recover=all", "-pthread"]
KINDS = {"queued": "queued", "lost": "lost", "full": "full", "no-target": "without target"}
KINDS.update(dict.fromkeys(("no-such-pipe", "pipe-has-queues", "no-such-queue"), "refused"))
SUPPRESSIONS = HEADER.parent / "hingetulip.tsan"
TOLD = ("calls", "queued", "lost", "full", "without target", "delivered", "refused", "shown")


def built(made: Path, source: str, words: list[str], *linked: str | Path, compiler: str = "gcc") -> Path:
    subprocess.run([compiler, *words, f"-I{HEADER}", "-o", made, SOURCES / source, *linked], check=True)
    return made


def faulty_line(rng: Random) -> str:
    while True:
        line = bad_line(rng, rng.choice(STYLES))
        try:
            parse_line(line)
        except LineFault:
            if not {"\n", "\0"}.intersection(line):
                return line


def line_of(rng: Random, call: Call) -> str:
    """Returns a call in the format of c_library/service.c."""
    if isinstance(call, Configure):
        return f"f {spell(rng, call.command)}"
    if isinstance(call, Submit):
        packet = call.packet
        is_queue = int(call.target.kind == "queue")
        return " ".join(map(str, ("p", call.moment, is_queue, call.target.number, *packet.tuple, packet.len, packet.word)))
    return "s" if isinstance(call, Show) else f"{'a' if isinstance(call, Advance) else 'c'} {call.moment}"


def lines(rng: Random) -> Iterator[str]:
    """The calls of a caller, and lines with a fault between them."""
    for _, call in random_calls(rng, rng.choice(STYLES), CALLS, 1, rng.random() < 0.7):
        if rng.random() < 0.05:
            yield f"f {faulty_line(rng)}\n"
        yield f"{line_of(rng, call)}\n"


def told_by(history: str) -> dict[int, Counter[str]]:
    """Returns the number of calls of each caller in a history, and the numbers of replies by kind."""
    counts: dict[int, Counter[str]] = {}
    caller = 0
    for line in history.splitlines():
        fields = line.split(",")
        if fields[0] == "c":
            caller = int(fields[1])
            counts.setdefault(caller, Counter())["calls"] += 1
        elif fields[0] == "r" and fields[1] == "delivered":
            counts[caller]["delivered"] += int(fields[3])
        elif fields[0] == "r" and fields[1] == "status":
            counts[caller]["shown"] += int(fields[2])
        elif fields[0] == "r" and fields[1] in KINDS:
            counts[caller][KINDS[fields[1]]] += 1
    return counts


def wanted(history: str, threads: int) -> str:
    """Returns the expected output of the program."""
    counts = told_by(history)
    return "".join(
        f"caller {number}: {', '.join(f'{counts.get(number, Counter())[word]} {word}' for word in TOLD)}\n"
        for number in range(threads)
    )


def tried(tally: Tally, name: str, made: Path, place: Path, audit: str, calls: list[Path]) -> int:
    """Makes a run; returns the number of entries in its history."""
    history = place / "history"
    done = ran(made, history, *calls, errors="replace")
    text = history.read_text()
    tally.ends(f"{name}: what the callers were told", done, 0, wanted(text, len(calls)))
    entries = sum(one["calls"] for one in told_by(text).values())
    judged = ran(audit, "audit", history)
    tally.equal(f"{name}: the audit", f"lawful {entries}", judged.stdout.strip())
    return entries


def races(tally: Tally, place: Path, compiler: str, linked: list[str | Path]) -> None:
    """Runs two threads. All reports are in the library, the suppressions cover them, and the program's own race is still reported."""
    for word, wanted in (("", (True, 0)), ("-DRACE", (True, 1))):
        words = [*COMMON, *word.split(), "-fsanitize=thread"]
        made = built(place / "service_races", "service_races.c", words, *linked, compiler=compiler)
        found = []
        for options in ("", f"suppressions={SUPPRESSIONS}"):
            done = ran(made, env={**os.environ, "TSAN_OPTIONS": options})
            found.append(done.stdout.count("WARNING: ThreadSanitizer: data race"))
        tally.equal(f"{compiler}, {linked[0]}, {word or 'no race'}: reports", wanted, (found[0] > wanted[1], found[1]))


def main(tally: Tally, audit: str, seed: str, count: str) -> None:
    rng, entries = Random(int(seed)), 0
    static = library()
    shared = static.parent / SHARED
    os.environ.update(ASAN_OPTIONS="detect_leaks=1", TSAN_OPTIONS="ignore_noninstrumented_modules=1")
    print(f"seed {seed}", flush=True)
    place = tally.place
    programs = {
        "addresses": built(place / "addresses", "service.c", [*COMMON, "-fsanitize=address,undefined"], static),
        "threads": built(place / "threads", "service.c", [*COMMON, "-fsanitize=thread"], shared, f"-Wl,-rpath,{shared.parent}"),
    }
    for number in range(int(count)):
        calls = [place / f"calls{thread}" for thread in range(rng.randint(1, MOST_CALLERS))]
        for one in calls:
            one.write_text("".join(lines(rng)))
        for name, made in programs.items():
            entries += tried(tally, f"run {number}, {name}", made, place, audit, calls)
    for compiler in filter(shutil.which, ("gcc", "clang")):
        races(tally, place, compiler, [static])
        races(tally, place, compiler, [shared, f"-Wl,-rpath,{shared.parent}"])
    print(f"{entries} entries of histories")


if __name__ == "__main__":
    judge(main)
