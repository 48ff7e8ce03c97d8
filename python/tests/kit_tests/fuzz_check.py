"""Random configurations: the first fault that `hinge check` tells is where the program has it, and it tells none where the program
takes all. `python3 python/tests/kit_tests/fuzz_check.py FROM TO` compares those of the seeds from FROM to TO."""

import contextlib
import io
import random
import re
import subprocess
import sys
from pathlib import Path

sys.path.append(str(Path(__file__).resolve().parents[2]))

from hinge.checks.findings import Findings
from hinge.checks.lines import LineCheck
from hinge.program import dummynet

WORDS = (
    "pipe queue ipfw config delete bw delay plr weight buckets mask src-ip dst-ip proto all 1 2 0 70000 8Mbit/s 8Mbps "
    "1% 20us -1 /24 255.0.0.0 0xff red src-ip6 show ; , = loss é 8Mbit/s; eth0 5s 1e-3 .5 1.2.3 999.1.1.1 1/0 / % 0x mask"
).split()
BEGINNINGS = (["pipe", "1", "config"], ["queue", "1", "config", "pipe", "1"], ["pipe", "2", "config"], [])


def random_line(rng: random.Random) -> str:
    words = [*rng.choice(BEGINNINGS), *rng.choices(WORDS, k=rng.randint(0, 5))]
    if rng.random() < 0.1:
        words.insert(0, "ipfw")
    if rng.random() < 0.1:
        words.append("# c")
    return rng.choice([" ", "  ", "\t"]).join(words)


def random_configuration(seed: int) -> bytes:
    rng = random.Random(seed)
    lines = [random_line(rng) for _ in range(rng.randint(1, 12))]
    if rng.random() < 0.05:
        lines += ["c,0,collect,5", "next"]  # calls of a live session, which mean nothing in a configuration
    return "\n".join(lines).encode() + (b"\xff" if rng.random() < 0.05 else b"")


def compare(low: int, high: int) -> int:
    """Compares so many configurations, and returns how many lines they have."""
    count = 0
    for seed in range(low, high):
        data, out = random_configuration(seed), io.StringIO()
        with contextlib.redirect_stdout(out):
            LineCheck("f", data.split(b"\n"), Findings()).check()
        done = subprocess.run([dummynet(), "replay", "/dev/stdin", "/dev/null"], input=data, capture_output=True, text=False)
        faults = [line for line in out.getvalue().splitlines() if ": warning: " not in line]
        assert (done.returncode == 3) == bool(faults), (seed, done.stderr, faults, data)
        if faults:
            place = re.match(rb"config line (\d+)(?:, word (\d+))?", done.stderr)
            wanted = f"f:{int(place[1])}: " + (f"word {int(place[2])} " if place[2] else "")
            assert faults[0].startswith(wanted), (seed, wanted, faults[0], data)
        count += len(data.split(b"\n"))
    return count


if __name__ == "__main__":
    print(compare(*map(int, sys.argv[1:3])), "lines, each first fault where the program has it")
