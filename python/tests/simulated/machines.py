"""Commands in simulated time for all tests of this folder, programs in C that are compiled once, and the packets of a transcript."""

import json
import os
import re
import shutil
import subprocess
import sys
import tempfile
import time
import unittest
from dataclasses import dataclass
from functools import lru_cache
from pathlib import Path
from typing import Any, Callable, Iterator, NamedTuple, TypeVar, Union

from hinge.program import dummynet
from with_folder import WithFolder

HERE = Path(__file__).resolve().parent
HINGE = [sys.executable, "-m", "hinge"]
SIMULATED = [*HINGE, "run", "--simulated"]
Word = Union[str, Path]
Test = TypeVar("Test")
LIMIT = "300s"  # of real time, after which a run is taken for one that never ends
LINK = ["--up", "10Mbit/s 20ms queue 100 loss 1%", "--down", "10Mbit/s 20ms loss 1%"]
COMPILED = ["cc", "-std=gnu17", "-O1", "-pthread", "-o"]


class Ran(NamedTuple):
    """A run: status, output, standard error, summary and transcript."""

    status: int
    out: str
    err: str
    summary: "dict[str, Any]"
    history: str


def needs(*programs: str) -> Callable[[Test], Test]:
    """Skips a test if this machine lacks a program."""
    lacking = [name for name in programs if shutil.which(name) is None]
    return unittest.skipIf(bool(lacking), f"there is no {', '.join(lacking)}")


@lru_cache(maxsize=None)
def scratch() -> "tempfile.TemporaryDirectory[str]":
    return tempfile.TemporaryDirectory()


@lru_cache(maxsize=None)
def probe() -> str:
    """Returns the path of the compiled probe.c."""
    made = f"{scratch().name}/probe"
    subprocess.run([*COMPILED, made, HERE / "probe.c"], check=True)
    return made


class Simulated(WithFolder):
    def compiled(self, text: str, *options: str) -> str:
        """Compiles a program in C into the test's folder; returns its path."""
        (self.folder / "it.c").write_text(text)
        subprocess.run([*COMPILED, self.folder / "it", *options, self.folder / "it.c"], check=True)
        return "./it"

    def hinge(self, *words: Word, **more: Any) -> "subprocess.CompletedProcess[str]":
        """Runs a command of `hinge` in the test's folder."""
        streams = {"stdin": subprocess.DEVNULL, "stdout": subprocess.PIPE, "stderr": subprocess.PIPE}
        how: dict[str, Any] = {**streams, "text": True, "cwd": self.folder, **more}
        return subprocess.run([*HINGE, *map(str, words)], **how)

    def started(self, *words: Word, **more: Any) -> "subprocess.CompletedProcess[str]":
        """Runs `hinge run --simulated` in the test's folder."""
        limit = [] if "--real-limit" in words else ["--real-limit", LIMIT]
        return self.hinge("run", "--simulated", *limit, *words, **more)

    def begun(self, line: str, *words: str, **more: str) -> "subprocess.Popen[str]":
        """Starts a run in the test's folder with additional variables; returns after the run printed this line."""
        streams = {"stdin": subprocess.DEVNULL, "stdout": subprocess.PIPE, "stderr": subprocess.DEVNULL}
        process = subprocess.Popen([*SIMULATED, "--", *words], cwd=self.folder, env=environment(**more), text=True, **streams)
        self.assertEqual(process.stdout.readline(), f"{line}\n")
        return process

    def net(self, text: str, seed: int, *words: Word) -> "subprocess.CompletedProcess[str]":
        """Runs `hinge net --simulated` on a net that must end well; `session` then contains the history and the summary."""
        (self.folder / "x.net").write_text(text)
        how = ["--simulated", "--seed", str(seed), "--real-limit", LIMIT, "--transcripts", "session"]
        done = self.hinge("net", "x.net", *how, *words)
        self.assertEqual(done.returncode, 0, done.stdout + done.stderr)
        return done

    def run_by(self, seed: int, *words: Word) -> Ran:
        """Runs a command in a new folder of a fixed name, with a transcript and a summary."""
        place = self.folder / "run"
        shutil.rmtree(place, ignore_errors=True)
        place.mkdir()
        done = self.started("--seed", str(seed), "--transcript", "h", "--json", "j", *words, cwd=place)
        summary = json.loads((place / "j").read_text()) if (place / "j").exists() else {}
        history = (place / "h").read_text() if (place / "h").exists() else ""
        return Ran(done.returncode, done.stdout, done.stderr, summary, history)

    def assert_lawful(self, history: str) -> None:
        path = self.folder / "audited"
        path.write_text(history)
        done = subprocess.run([dummynet(), "audit", str(path)], capture_output=True, text=True)
        self.assertRegex(done.stdout, r"^lawful \d+\n$")


class Repeated(Simulated):
    def promised(self, *words: str) -> Ran:
        """Returns a run that promises an equal second run. A busy machine may prevent the promise, so it tries again."""
        for _ in range(4):
            ran = self.run_by(7, *LINK, *words)
            self.assertEqual(ran.status, 0, ran.out + ran.err)
            if ran.summary["repeatable"]:
                return ran
        self.fail(ran.err)

    def twice(self, *words: str) -> Ran:
        """Runs a command twice by one seed. The second run doesn't see the files of the first."""
        one, other = self.promised(*words), self.promised(*words)
        self.assertEqual((one.out, one.summary["simulated"]), (other.out, other.summary["simulated"]), one.err + other.err)
        self.assertTrue(one.history == other.history, "the transcripts differ")
        self.assert_lawful(one.history)
        return one


def left(temporary: Path) -> "list[Path]":
    """Returns what machines with this TMPDIR left there, and in the memory to which a link in that folder leads."""
    links = Path("/dev/shm").glob(".hinge-*/kept")
    return [*temporary.iterdir(), *(link for link in links if temporary in link.readlink().parents)]


def below_of(process: int) -> "list[int]":
    """Returns the processes that a process and its threads started, and all processes below these."""
    texts = [path.read_text() for path in Path(f"/proc/{process}/task").glob("*/children")]
    children = [int(word) for text in texts for word in text.split()]
    return children + [below for child in children for below in below_of(child)]


def running(processes: "list[int]") -> "list[int]":
    """Returns the processes that still run after a minute. A killed process ends once it gets a processor."""
    until = time.monotonic() + 60
    while (found := [one for one in processes if Path(f"/proc/{one}").exists()]) and time.monotonic() < until:
        time.sleep(0.05)
    return found


def probed(text: str) -> "list[int]":
    """Returns the numbers that a probe printed."""
    return [int(word) for word in re.findall(r"\d+", text)]


def environment(**names: str) -> "dict[str, str]":
    return {**os.environ, **names}


@dataclass
class Packet:
    """A packet, with moments in ns. For a packet that was lost or met a full queue, start and due moment are 0."""

    target: "tuple[str, int]"
    size: int
    came: int
    fate: str
    start: int = 0
    due: int = 0


def packets_of(history: str) -> "list[Packet]":
    """Returns a transcript's packets in the order of their arrival."""
    packets: list[Packet] = []
    queued: dict[str, Packet] = {}
    call = [""]
    for line in history.splitlines():
        words = line.split(",")
        if words[0] == "c":
            call = words
        elif words[0] == "r" and call[2] == "submit":
            packets.append(Packet((call[3], int(call[4])), int(call[10]), int(call[12]), words[1]))
            if words[1] == "queued":
                queued[words[4]] = packets[-1]
        elif words[0] == "d":
            queued[words[1]].start, queued[words[1]].due = int(words[3]), int(words[4])
    return packets


def served(packets: "list[Packet]", pipe: int) -> "list[Packet]":
    """Returns the packets that a pipe served, in the order of their starts."""
    found = [packet for packet in packets if packet.target == ("pipe", pipe) and packet.due]
    return sorted(found, key=lambda packet: packet.start)


def idle(packets: "list[Packet]", rate: int) -> "Iterator[int]":
    """Returns how long a link of this bandwidth, in bit/s, was idle before each packet that it served, except before the first."""
    for before, after in zip(packets, packets[1:]):
        yield after.start - before.start - -(-before.size * 8 * 10**9 // rate)


def shares_of(history: str, begin: int, end: int) -> "list[float]":
    """Returns queue 1's share in each hundred packets of 1,500 bytes that start between two moments."""
    found = [packet for packet in packets_of(history) if packet.size == 1500 and begin < packet.start < end]
    order = [packet.target for packet in sorted(found, key=lambda packet: packet.start)]
    return [order[at : at + 100].count(("queue", 1)) / 100 for at in range(0, len(order) - 99, 100)]
