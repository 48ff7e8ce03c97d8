"""The key for the flow table's hash: whatever key the system gives, the report and the history are the same, and without a key from
the system the program says so and writes nothing. The key reaches the hash in each form of the program: packets whose keys collide
where it is 0 cost much with that key and little with another.

    python3 tools/gate/hash_key.py PROGRAM

It needs cc, for a library that answers getentropy in the system's place. The cost is counted by valgrind, where that is there;
tools/hostile/known_key.py has the keys.
"""

import os
import subprocess
from pathlib import Path

from hostile import counted, inputs
from scenes import made_scenes
from tally import Tally, judge, lacks, stated

# Each byte is KEY, or there are none where KEY isn't set.
GIVEN = r"""
#include <errno.h>
#include <stdlib.h>
#include <string.h>
#include <sys/types.h>
int getentropy(void *bytes, size_t count) {
    const char *key = getenv("KEY");
    if (key == NULL) { errno = ENOSYS; return -1; }
    memset(bytes, atoi(key), count);
    return 0;
}
"""
KEYS = ("0", "1", "85", "255")
FLOWS = 2_000
LEAST = 3  # of a live session it is about 6, of the others 10 and more


def run(program: str, words: list[str], place: Path, key: dict[str, str]) -> tuple[int, bytes, bytes]:
    """The status and both streams, where getentropy is answered by the key."""
    env = {**{name: value for name, value in os.environ.items() if name != "KEY"}, "LD_PRELOAD": f"{place}/given.so", **key}
    done = subprocess.run([program, *words], capture_output=True, env=env, timeout=120)
    return done.returncode, done.stdout, done.stderr


def forms_of_flows(program: str, place: Path) -> dict[str, tuple[list[str], str]]:
    """Returns each form of the program that uses the key, over the chosen flows: its words and its input."""
    config, packets = f"{place}/config", f"{place}/packets"
    replay = ["replay", config, packets]
    history, calls, joined = (f"{place}/chosen.{end}" for end in ("history", "calls", "joined"))
    Path(joined).write_text(f"{Path(config).read_text()}--\n{Path(packets).read_text()}")
    subprocess.run([program, *replay, "--history", history], check=True, stdout=subprocess.DEVNULL)
    told = Path(history).read_text().splitlines(keepends=True)
    Path(calls).write_text("".join(line for line in told if line.startswith("c,")))
    new, none = f"{place}/new.history", "/dev/null"
    return {
        "two files": (replay, none),
        "two files and a history": ([*replay, "--history", new], none),
        "callers": ([*replay, "--callers", "1"], none),
        "a joined input": ([], joined),
        "an audit": (["audit", history], none),
        "a live session": (["live"], calls),
    }


def count_known_key(tally: Tally, program: str, place: Path) -> None:
    if lacks("the cost of a known key", "valgrind"):
        return
    inputs.write("known", FLOWS, place)
    stated(
        tally,
        "docs/TRUST.md",
        f"flows chosen for a known key cost at least {LEAST} times as much with it (`tools/gate/hash_key.py`)",
    )
    for name, (words, stdin) in forms_of_flows(program, place).items():
        known, other = (counted([program, *words], stdin, LD_PRELOAD=f"{place}/given.so", KEY=key) for key in ("0", "1"))
        print(f"{name}: {FLOWS} flows chosen for the key 0 take {known} instructions with it, and {other} with another", flush=True)
        tally.note(
            f"a known key, {name}",
            "" if known >= LEAST * other else f"the flows chosen for it cost less than {LEAST} times as much",
        )


def main(tally: Tally, program: str) -> None:
    scenes = made_scenes(tally.place)
    config, packets = (str(scenes / f"weights.{end}") for end in ("config", "csv"))
    report = (scenes / "weights.report").read_bytes()
    history = f"{tally.place}/history"
    words = ["replay", config, packets, "--history", history]
    subprocess.run(
        ["cc", "-O2", "-shared", "-fPIC", "-x", "c", "-o", f"{tally.place}/given.so", "-"], input=GIVEN.encode(), check=True
    )
    histories = set()
    for key in KEYS:
        tally.equal(f"the report with the key of bytes {key}", (0, report, b""), run(program, words, tally.place, {"KEY": key}))
        histories.add(Path(history).read_bytes())
    tally.equal("histories", 1, len(histories))
    Path(history).unlink()
    none = (6, b"", b"cannot read random numbers\n")
    for name, asked in ("a replay", words), ("an audit", ["audit", packets]), ("a joined input", []):
        tally.equal(f"{name} without random numbers", none, run(program, asked, tally.place, {}))
    tally.equal("a history without random numbers", False, Path(history).exists())
    tally.equal("help without random numbers", 0, run(program, ["--help"], tally.place, {})[0])
    count_known_key(tally, program, tally.place)


if __name__ == "__main__":
    judge(main)
