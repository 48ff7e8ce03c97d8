"""Replays random packet files by several callers, and judges each run by the independent reference.

    python3 tools/oracle/callers_checks.py PROGRAM SEED COUNT

In which order the calls of the callers fall is theirs. A run is right if its history is lawful, caller 0 made the
configuration's calls first and the Collect last, row i, from 1, was submitted by caller (i - 1) mod N, each caller's rows
in order, and the report is that of the history. N is 1 to 16. The count of runs whose rows came in another order than in
the file shows that callers overlapped.
"""

import subprocess
import sys
from pathlib import Path
from random import Random
from tempfile import TemporaryDirectory

sys.path.insert(0, str(Path(__file__).resolve().parents[1] / "gate"))

from fast import first_difference  # noqa: E402
from files import read_line, read_packets, report, split_lines  # noqa: E402
from history_reader import HistoryReader  # noqa: E402
from model import MAX_CALLERS, MAX_MOMENT, ORDERED, Collect, Configure, Entry, Submit  # noqa: E402
from program_cases import replay_input  # noqa: E402
from scenarios import STYLES  # noqa: E402
from tally import Tally, judge  # noqa: E402


def faults(config: bytes, submits: list[Submit], callers: int, text: bytes, rule: str, entries: list[Entry]) -> list[str]:
    """Returns the faults of a run, in a few words each."""
    commands = [c for c in (read_line(i, line) for i, line in enumerate(split_lines(config), 1)) if c is not None]
    head, rest, last = entries[: len(commands)], entries[len(commands) : -1], entries[-1]
    rights = {
        "the history is lawful by the rule Ordered": rule == ORDERED and first_difference(entries, rule) is None,
        "caller 0 configures first": [(e.caller, e.call) for e in head] == [(0, Configure(c)) for c in commands],
        "caller 0 collects last": (last.caller, last.call) == (0, Collect(MAX_MOMENT)),
        "each row is submitted once": len(rest) == len(submits),
        "the report is that of the history": report(entries, callers).encode() == text,
    }
    for k in range(callers):
        rights[f"caller {k} submits its rows"] = [e.call for e in rest if e.caller == k] == submits[k::callers]
    return [right for right, holds in rights.items() if not holds]


def main(tally: Tally, program: str, seed: str, count: str) -> None:
    rng, mixed = Random(int(seed)), 0
    for turn in range(int(count)):
        config, packets = replay_input(rng, rng.choice(STYLES))
        callers = rng.randint(1, MAX_CALLERS)
        with TemporaryDirectory() as folder:
            (Path(folder) / "config").write_bytes(config)
            (Path(folder) / "packets").write_bytes(packets)
            words = [str(Path(program).resolve()), "replay", "config", "packets", "--callers", str(callers), "--history", "history"]
            done = subprocess.run(words, cwd=folder, capture_output=True, check=True)
            rule, entries = HistoryReader((Path(folder) / "history").read_bytes()).read()
        submits = read_packets(packets)
        mixed += [e.call for e in entries if isinstance(e.call, Submit)] != submits
        wrong = faults(config, submits, callers, done.stdout, rule, entries)
        tally.note(f"run {turn} of {callers} callers", *(f"not so: {fault}" for fault in wrong))
    print(f"{mixed} of {count} runs had the rows in another order than the file")


if __name__ == "__main__":
    judge(main)
