"""The program with each memory growth refused in turn, by itself and with the next: status 5, or the outcome with ample memory.

    python3 tools/gate/memory.py PROGRAM

It needs cc, for the allocator that refuses (tools/gate/refused_growths.c). Before want of memory a report is written whole or not at
all, of a live session whole lines from its front, and an older history stays as it was.
"""

import os
import subprocess
from pathlib import Path

from command_line import CONFIG, FILES, HISTORY, OLDER, PACKETS, SESSION, laid
from tally import Tally, judge

SOURCE = Path(__file__).resolve().with_name("refused_growths.c")
REFUSED = b"refused\n"
WANT = b"out of memory\n"
Outcome = tuple[int, bytes, bytes, str]
LIVE = ["live"]
FORMS = {
    "joined input": [],
    "two files": ["replay", "c", "p"],
    "two files and a history": ["replay", "c", "p", "--history", "old"],
    "two callers": ["replay", "c", "p", "--callers", "2"],
    "two callers and a history": ["replay", "c", "p", "--callers", "2", "--history", "old"],
    "an audit": ["audit", "h"],
    "an audit of a changed history": ["audit", "changed"],
    "a live session": LIVE,
    "help": ["--help"],
    "the version": ["--version"],
    "a wrong command line": ["replay", "c"],
    "a history over the packets": ["replay", "c", "p", "--history", "p"],
}


def outcome(program: str, words: list[str], place: Path, refusing: str, growth: int, in_a_row: int) -> tuple[bool, Outcome]:
    """Whether a growth was refused, and then the status, both streams, and the older history."""
    files = {**FILES, "changed": HISTORY.replace("r,queued,0,0,0", "r,queued,0,0,1"), "old": OLDER}
    laid(place, files)
    env = {**os.environ, "LD_PRELOAD": refusing, "REFUSE": str(growth), "REFUSE_IN_A_ROW": str(in_a_row)}
    stdin = SESSION if words == LIVE else f"{CONFIG}--\n{PACKETS}"
    done = subprocess.run([program, *words], cwd=place, input=stdin.encode(), capture_output=True, env=env, timeout=120)
    told = done.returncode, done.stdout, done.stderr.replace(REFUSED, b""), (place / "old").read_text()
    return REFUSED in done.stderr, told


def fault_of(words: list[str], ample: Outcome, got: Outcome) -> str:
    """Returns the fault in an outcome with a refused growth."""
    status, stdout, stderr, old = got
    if got == ample:
        return ""
    if (status, stderr) != (5, WANT):
        return f"want status 5 or {ample[:3]}, got {got[:3]}"
    is_front = words == LIVE and ample[1].startswith(stdout) and stdout.endswith(b"\n")
    if stdout not in (b"", ample[1]) and not is_front:
        return f"a part was written: {stdout!r}"
    return "" if old == OLDER else "the older history is gone"


def faults_of_form(program: str, words: list[str], place: Path, refusing: str, in_a_row: int) -> tuple[list[str], int, int]:
    """Returns the faults in one form's runs, its number of growths, and the number of runs with status 5."""
    _, ample = outcome(program, words, place, refusing, 1_000_000_000, 1)
    growth, was_refused, faults, wants = 0, True, [], 0
    while was_refused:
        growth += 1
        was_refused, got = outcome(program, words, place, refusing, growth, in_a_row)
        fault = fault_of(words, ample, got)
        faults += [f"growth {growth} refused, {in_a_row} in a row: {fault}"] if fault else []
        wants += got[0] == 5
    return faults, growth - 1, wants


def main(tally: Tally, program: str) -> None:
    refusing = f"{tally.place}/refusing.so"
    subprocess.run(["cc", "-O2", "-shared", "-fPIC", "-DPRELOADED", "-o", refusing, SOURCE], check=True)
    for name, words in FORMS.items():
        for in_a_row in (1, 2):
            faults, growths, wants = faults_of_form(program, words, tally.place, refusing, in_a_row)
            tally.note(name, *faults, "" if wants else "no run ended with status 5")
            print(
                f"{name}: each of {growths} growths refused in turn, {in_a_row} in a row; {wants} runs ended with status 5",
                flush=True,
            )


if __name__ == "__main__":
    judge(main)
