"""Audits from C: random histories and those of the examples, in parts, against the program.

    python3 tools/gate/c_audit.py PROGRAM SEED COUNT

It takes the library of the present sources, as tools/release/library finds it. The histories are COUNT random ones of
the reference, of all versions, lawful, changed and broken, then more until each kind of end has come, and those of the
examples' replays. c_library/audit.c audits each in parts of some length, with a limit of its length and of a byte less, and with each growth of memory refused in
turn. It is compiled with the sanitizers for addresses and undefined behaviour.
"""

import os
import subprocess
from collections import Counter
from pathlib import Path
from random import Random

from c_library import REFUSING, program
from random_histories import random_history
from scenarios import STYLES
from scenes import made_scenes
from tally import Tally, judge

STEPS = (1, 2, 7, 64, 1000, 65_536)
LIMIT = 268_435_456
TOO_LONG = ("history too long", 6)
KINDS, MOST = {"lawful", "differs", "history"}, 300  # of an end, and histories in which each has to come
# Histories by hand, and their ends.
FRONT, ADVANCED = b"dummynet-history,3\n", b"c,0,advance,5\nr,advanced,%d\n"
CASES = {
    "nothing": (b"", ("history record 1: bad", 4)),
    "no entry": (FRONT + b"end,0\n", ("lawful 0", 0)),
    "an entry": (FRONT + ADVANCED % 5 + b"end,1\n", ("lawful 1", 0)),
    "another reply": (FRONT + ADVANCED % 5 + ADVANCED % 6 + ADVANCED % 7 + b"end,3\n", ("differs 1", 1)),
    "no end": (FRONT + ADVANCED % 5, ("history record 4: bad", 4)),
    "a bad record, and another reply": (FRONT + ADVANCED % 6 + ADVANCED % 5 + b"end,3\n", ("history record 6: bad", 4)),
    "a transcript": (b"dummynet-live,1\n#,next\n" + ADVANCED % 5 + b"end,1\n", ("lawful 1", 0)),
}
End = tuple[str, int]


def replay(dummynet: str, config: Path, history: Path) -> bytes:
    words = [dummynet, "replay", config, config.with_suffix(".csv"), "--history", history]
    subprocess.run(words, stdout=subprocess.DEVNULL, check=True)
    return history.read_bytes()


def by_program(dummynet: str, history: Path) -> End:
    done = subprocess.run([dummynet, "audit", history], capture_output=True, text=True)
    return (done.stdout + done.stderr).strip(), done.returncode


def from_c(audit: Path, text: bytes, step: int, limit: int, *more: str) -> End:
    words = [audit, str(step), str(limit), *more]
    done = subprocess.run(words, input=text, stdout=subprocess.PIPE, stderr=subprocess.STDOUT)
    return done.stdout.decode(errors="replace").strip(), done.returncode


def audited(tally: Tally, name: str, audit: Path, rng: Random, text: bytes, wanted: End) -> None:
    step = rng.choice((*STEPS, len(text) + 1))
    tally.equal(f"{name}, parts of {step}", wanted, from_c(audit, text, step, LIMIT))
    tally.equal(f"{name}, as long as its limit", wanted, from_c(audit, text, step, len(text)))
    if text:
        tally.equal(f"{name}, too long", TOO_LONG, from_c(audit, text, step, len(text) - 1))


def main(tally: Tally, dummynet: str, seed: str, count: str) -> None:
    rng = Random(int(seed))
    ends, number = Counter[str](), 0
    os.environ["ASAN_OPTIONS"] = "detect_leaks=1"
    print(f"seed {seed}", flush=True)
    audit = program(tally.place, "audit", *REFUSING)
    file = tally.place / "history"
    for name, (text, wanted) in CASES.items():
        for step in range(1, len(text) + 2):
            tally.equal(f"{name}, parts of {step}", wanted, from_c(audit, text, step, LIMIT, "growths"))
    while number < int(count) or KINDS - {*ends} and number < MOST:
        text = random_history(rng, STYLES[number % len(STYLES)])
        file.write_bytes(text)
        wanted = by_program(dummynet, file)
        audited(tally, f"history {number}", audit, rng, text, wanted)
        tally.equal(f"history {number}, growths refused", wanted, from_c(audit, text, 512, LIMIT, "growths"))
        ends[wanted[0].split(" ")[0]] += 1
        number += 1
    for config in sorted(made_scenes(tally.place).glob("*.config")):
        history = tally.place / config.stem  # a replay replaces no file that isn't a history, as the random ones may be
        text = replay(dummynet, config, history)
        audited(tally, config.stem, audit, rng, text, by_program(dummynet, history))
    tally.note("each kind of end", "" if {*ends} == KINDS else str(ends))
    print(", ".join(f"{many} of {kind}" for kind, many in ends.items()))


if __name__ == "__main__":
    judge(main)
