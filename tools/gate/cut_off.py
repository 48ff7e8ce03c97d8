"""Programs that write a report, a history or a transcript, killed in each write: the file is then a front of the whole, and an
audit accepts it without the last entry, with an end.

    python3 tools/gate/cut_off.py PROGRAM

It needs cc, for the preload that kills (tools/gate/killed_writes.c). The program replays into two files and takes a live session, and
Python's service writes a history. A transcript of hinge-link, whose moments are a clock's, is audited alone.
"""

import itertools
import subprocess
import sys
from pathlib import Path
from typing import NamedTuple

from tally import TOP, Tally, judge
from testing import environment

SOURCE = TOP / "tools" / "gate" / "killed_writes.c"
ROWS, CALLS, DATAGRAMS = 30_000, 100, 3_000
CONFIG = "pipe 1 config bw 800Mbit/s queue 100\n"
HEADER = "moment,target,number,src,dst,proto,sport,dport,len,word\n"
ROW = "{at},pipe,1,10.0.0.1,10.0.0.2,17,1,2,1000,0\n"
CALL = "c,0,submit,pipe,1,10.0.0.1,10.0.0.2,17,1,2,1000,0,{at}\n"
SERVICE = """
from hingetulip import Service
service = Service(1)
service.history("h")
service.callers[0].configure("pipe 1 config bw 800Mbit/s")
for number in range(1, 2001):
    service.callers[0].submit(number, 100, pipe=1, word=0)
    if number % 100 == 0:
        service.take()
service.close()
"""
LINK = f"""
import socket
from linked import Linked, ip4
link = Linked("line pipe 1 config\\nline pipe 2 config\\nseed 0 1\\nseed 1 1\\n")
for number in range({DATAGRAMS}):
    link.near.send(ip4("10.8.0.1", "10.8.0.2", 17, number, 7, 100))
    link.far.recv(100)
open("h", "w").write(link.end().history)
"""


class Case(NamedTuple):
    """A command that writes, its standard input, and its output files: `out` is standard output, and `h` a history."""

    name: str
    words: list[str]
    stdin: str
    files: list[str]
    history: str
    repeats: bool = True


def cases(program: str) -> list[Case]:
    python = sys.executable
    calls = "".join(CALL.format(at=at) for at in range(1, CALLS))
    return [
        Case("a replay", [program, "replay", "c", "p", "--history", "h"], "", ["out", "h"], "h"),
        Case("a live session", [program, "live"], CONFIG + calls, ["out"], "out"),
        Case("a history of Python's service", [python, "-c", SERVICE], "", ["h"], "h"),
        Case("a transcript of hinge-link", [python, "-c", LINK], "", ["h"], "h", repeats=False),
    ]


def mended(history: bytes) -> bytes:
    """Returns the front of a history without its last entry, which may be incomplete, and with an end."""
    head, *entries = history.split(b"\nc,")
    return b"\nc,".join([head, *entries[:-1]]) + b"\nend,%d\n" % max(0, len(entries) - 1)


class Kills:
    """The cases in a folder, each killed in a write."""

    def __init__(self, program: str, place: Path) -> None:
        self.program, self.place, self.preload, self.env = program, place, place / "killing.so", environment(place)
        subprocess.run(["cc", "-O2", "-shared", "-fPIC", "-o", self.preload, SOURCE], check=True)
        (place / "c").write_text(CONFIG)
        (place / "p").write_text(HEADER + "".join(ROW.format(at=at) for at in range(1, ROWS)))

    def content(self, name: str) -> bytes:
        return (self.place / name).read_bytes() if (self.place / name).exists() else b""

    def made(self, case: Case, kill_at: int) -> int:
        """Runs a case, killed in a write, or (0) in none; returns its status."""
        for name in case.files:
            (self.place / name).unlink(missing_ok=True)
        env = {**self.env, "PYTHONPATH": f"{TOP / 'python'}:{TOP / 'python/tests/run'}", "DUMMYNET": self.program}
        env |= {"LD_PRELOAD": str(self.preload), "KILL_AT": str(kill_at)} if kill_at else {}
        with open(self.place / "out", "wb") as out:
            done = subprocess.run(
                case.words, cwd=self.place, input=case.stdin.encode(), stdout=out, stderr=subprocess.DEVNULL, env=env, timeout=120
            )
        return done.returncode

    def audit(self, history: bytes) -> str:
        (self.place / "mended").write_bytes(history)
        done = subprocess.run([self.program, "audit", "mended"], cwd=self.place, capture_output=True, text=True)
        return "" if done.returncode == 0 else f"its front isn't lawful: {done.stdout}{done.stderr}"

    def faults(self, case: Case, whole: dict[str, bytes]) -> list[str]:
        """Returns the faults in the files after a kill."""
        found = [
            f"{name} is no front of the whole"
            for name in case.files
            if case.repeats and not whole[name].startswith(self.content(name))
        ]
        history = self.content(case.history)
        return found + ([self.audit(mended(history))] if history.count(b"\nc,") > 1 else [])

    def try_each(self, case: Case, tally: Tally) -> None:
        """Each write in turn, until one isn't there."""
        status = self.made(case, 0)
        tally.equal(f"{case.name}, to its end", 0, status)
        if status:
            return
        whole = {name: self.content(name) for name in case.files}
        for kill_at in itertools.count(1):
            status = self.made(case, kill_at)
            if status == 0 and self.content(case.history).rstrip().rsplit(b"\n", 1)[-1].startswith(b"end,"):
                break
            tally.note(f"{case.name}, killed in write {kill_at}", *self.faults(case, whole))
        tally.note(f"{case.name} was killed in more than three writes", "" if kill_at > 4 else f"in {kill_at - 1}")


def main(tally: Tally, program: str) -> None:
    kills = Kills(str(Path(program).resolve()), tally.place)
    for case in cases(kills.program):
        kills.try_each(case, tally)


if __name__ == "__main__":
    judge(main)
