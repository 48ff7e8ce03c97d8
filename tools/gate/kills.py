"""Kills the kit's commands at random moments. A file that they write is as it was or as it shall be, and nothing else is left.

    python3 tools/gate/kills.py [--seed N] [KILLS]

KILLS of the commands that write are tried in all (40), one in two by SIGKILL, at moments of a command's time that the seed draws, and a quarter
as many of live links, all by SIGKILL. The seed follows from the sources of the kit, or is N, or a new one by `--seed fresh`. The next run removes
the temporary files, sockets and cgroups of a killed process, once the programs that the process had started have ended too, which they do by
themselves. Each command has to write the same bytes twice, since there is no telling else whether a file is whole.
"""

import argparse
import ctypes
import os
import random
import shutil
import signal
import subprocess
import sys
import tempfile
import time
from contextlib import suppress
from pathlib import Path

import seeds
from tally import TOP, Tally, judge

CAPTURE = TOP / "python" / "tests" / "kit_data" / "mixed.pcap"
HINGE = [sys.executable, str(TOP / "hinge")]
OLD = b"old\n"
PR_SET_CHILD_SUBREAPER = 36
INPUT = ["packets", str(CAPTURE), "-o", "p.csv", "--index", "i.csv"]
COMMANDS = {  # with what each writes
    "packets": (["packets", str(CAPTURE), "-o", "out.csv", "--index", "out.index"], ["out.csv", "out.index"]),
    "capture": (["look", "p.csv", "r", "--capture", str(CAPTURE), "--index", "i.csv", "-o", "out.pcap"], ["out.pcap"]),
    "look": (["look", "p.csv", "r", "-o", "out.html"], ["out.html"]),
    "picture": (["look", "p.csv", "r", "-o", "out.svg"], ["out.svg"]),
    "ipfw": (["ipfw", "s.sh", "-o", "out.config"], ["out.config"]),
}
HOST = f"host-{os.getpid()}"  # by whose name its cgroups are known
NETS = {
    "n.net": f"host {HOST} sleep 0.3\nhost b\nlink {HOST} b 1ms\n",
    "w.net": f"host {HOST} sleep 99\nhost b\nlink {HOST} b\nwait b port 7 99s\n",
}
CONTROL = ["--quiet", "--control", "socket"]
AFTER = ["net", "n.net", "--quiet", "--control", "socket"]
LIVE = {
    "a run": ["run", *CONTROL, "--link", "1ms", "--", "sleep", "0.3"],
    "a run with ways out": ["run", *CONTROL, "--link", "1ms", "--to", "8000", "--", "sleep", "0.3"],
    "a net": AFTER,
    "a net that waits in the background": ["up", "w.net", "--name", "killed"],
    "a path": ["udp", "0", "9", *CONTROL],
    "simulated time": ["run", "--simulated", "--quiet", "--seed", "1", "--link", "1ms", "--", "sleep", "1"],
}
KILLED = f"""import contextlib, os
from hinge.run.cgroups import name_of, own_folder
from hinge.simulated.room import Room
Room(0)
with contextlib.suppress(OSError):
    folder = own_folder()
    folder and (folder / name_of("0" * 12, {HOST!r})).mkdir()
os.kill(os.getpid(), 9)"""  # with a machine's folders, and a cgroup that it has just made
LONGEST_LEFT = 20.0  # s for which a process may outlive the one that was killed


class Place:
    """A folder with all commands' inputs, and one for temporary files."""

    def __init__(self, folder: Path, program: str) -> None:
        self.folder, self.temporary = folder / "work", folder / "temporary"
        self.folder.mkdir(), self.temporary.mkdir()
        self.environment = {
            **os.environ,
            "TMPDIR": str(self.temporary),
            "XDG_RUNTIME_DIR": str(folder / "runtime"),
            "DUMMYNET": program,
            "MPLCONFIGDIR": str(folder / "matplotlib"),
        }
        (self.folder / "d").write_text("pipe 1 config bw 1Mbit/s\n")
        (self.folder / "s.sh").write_text("ipfw pipe 1 config bw 1Mbit/s\n")
        (folder / "runtime").mkdir()
        for name, text in NETS.items():
            (self.folder / name).write_text(text)
        self.run(INPUT)
        with open(self.folder / "r", "wb") as report:
            subprocess.run([program, "replay", "d", "p.csv"], cwd=self.folder, stdout=report, check=True)

    def start(self, words: list[str]) -> subprocess.Popen[bytes]:
        return subprocess.Popen(
            [*HINGE, *words], cwd=self.folder, env=self.environment, stdout=subprocess.DEVNULL, stderr=subprocess.PIPE
        )

    def run(self, words: list[str]) -> float:
        """Runs a command; returns its seconds."""
        begun = time.monotonic()
        told = (process := self.start(words)).communicate()[1]
        assert process.returncode == 0, f"{' '.join(words)}: {told.decode()}"
        return time.monotonic() - begun

    def names(self) -> set[str]:
        return {str(path.relative_to(self.folder)) for path in self.folder.rglob("*")}

    def read(self, names: list[str]) -> list[bytes]:
        return [(self.folder / name).read_bytes() for name in names]

    def left(self) -> list[str]:
        """Returns the temporary files."""
        return sorted(os.listdir(self.temporary))

    def processes(self) -> list[str]:
        """Returns the programs that run with this place's folder for temporary files."""
        found = []
        for process in filter(str.isdecimal, os.listdir("/proc")):
            with suppress(OSError):
                if f"TMPDIR={self.temporary}".encode() in Path("/proc", process, "environ").read_bytes().split(b"\0"):
                    found.append(Path("/proc", process, "comm").read_text().strip())
        return found

    def left_live(self) -> list[str]:
        """Returns temporary files, sockets, cgroups and mounts."""
        names = [*self.temporary.iterdir(), *self.folder.glob("socket"), *self.temporary.parent.glob("runtime/hinge/*")]
        names += [path for path in Path("/dev/shm").glob(".hinge-*/kept") if self.temporary in path.resolve().parents]
        cgroups = [place for place in Path("/sys/fs/cgroup").glob(f"**/hinge-*-{HOST}")]
        mounts = [line for line in Path("/proc/self/mountinfo").read_text().splitlines() if str(self.folder.parent) in line]
        return [*map(str, names), *map(str, cgroups), *mounts]


def killed(place: Place, words: list[str], after: float, number: int) -> bool:
    """Returns whether the signal came before the command's end."""
    process = place.start(words)
    time.sleep(after)
    process.send_signal(number)
    process.communicate()
    wait_for_orphans()
    return process.returncode == -number


def wait_for_orphans() -> None:
    """Waits for what a killed process had started, which may yet make a file in a folder of that process."""
    with suppress(ChildProcessError):
        while True:
            os.wait()


def faults_of(place: Place, words: list[str], outputs: list[str], new: list[bytes], after: float, number: int) -> list[str]:
    for name in outputs:
        (place.folder / name).write_bytes(OLD)
    before = place.names()
    was_killed = killed(place, words, after, number)
    got, left = place.read(outputs), place.left()
    found = [f"{name}: neither old nor new" for name, one, whole in zip(outputs, got, new) if one not in (OLD, whole)]
    if place.names() != before:
        found.append(f"left: {', '.join(sorted(place.names() ^ before))}")
    if left and number == signal.SIGTERM and was_killed:
        found.append(f"left among the temporary files: {', '.join(left)}")
    elif left:
        place.run(words)
        found += [f"stays among the temporary files: {', '.join(again)}" for again in [place.left()] if again]
    return found


def live_faults(place: Place, words: list[str], after: float) -> list[str]:
    """Kills a live command, and looks for what stays: processes at once, and all else after the next command."""
    process = place.start(words)
    time.sleep(after)
    process.kill()
    until = time.monotonic() + LONGEST_LEFT
    while (programs := place.processes()) and time.monotonic() < until:
        with suppress(ChildProcessError):
            os.waitpid(-1, os.WNOHANG)
        time.sleep(0.02)
    process.communicate()
    if programs:
        return [f"processes stay: {' '.join(programs)}"]
    place.run(AFTER)
    return [f"stays: {one}" for one in place.left_live()]


def kill_live(place: Place, count: int, rng: random.Random, tally: Tally) -> None:
    if place.start(AFTER).wait() != 0:
        print("this user may make no namespaces here, so no live link was killed")
        return
    subprocess.run([sys.executable, "-c", KILLED], cwd=TOP / "python", env=place.environment)
    tally.note("planted: what a killed run leaves", "" if len(place.left_live()) > 1 else "it isn't seen")
    took = place.run(AFTER)
    tally.equal("what stays behind the next run", [], place.left_live())
    for at in range(count):
        name, words = list(LIVE.items())[at % len(LIVE)]
        after = rng.uniform(0.0, 1.5) * took
        tally.note(f"{name}, SIGKILL after {after:.3f} s", *live_faults(place, words, after))


def main(tally: Tally, *words: str) -> None:
    parser = argparse.ArgumentParser(description=__doc__, formatter_class=argparse.RawDescriptionHelpFormatter)
    parser.add_argument("--seed")
    parser.add_argument("kills", nargs="?", type=int, default=40)
    asked = parser.parse_args(words)
    seed = seeds.chosen(asked.seed, *seeds.KIT)
    rng = random.Random(seed)
    ctypes.CDLL(None).prctl(PR_SET_CHILD_SUBREAPER, 1, 0, 0, 0)  # so that orphans are this process's, which can wait for them
    folder = Path(tempfile.mkdtemp())
    try:
        place = Place(folder, os.environ.get("DUMMYNET", str(TOP / "dummynet")))
        for at, (name, (words, outputs)) in enumerate(COMMANDS.items()):
            took = place.run(words)
            new = place.read(outputs)
            place.run(words)
            tally.note(
                name, *(f"{one}: other bytes each time" for one, old, now in zip(outputs, new, place.read(outputs)) if old != now)
            )
            for count in range(asked.kills // len(COMMANDS) + (at < asked.kills % len(COMMANDS))):
                number = (signal.SIGTERM, signal.SIGKILL)[count % 2]
                after = took * rng.uniform(0.2, 1.0)
                found = faults_of(place, words, outputs, new, after, number)
                tally.note(f"{name}, {number.name} after {after:.3f} s, seed {seed}", *found)
        kill_live(place, asked.kills // 4, rng, tally)
    finally:
        shutil.rmtree(folder)


if __name__ == "__main__":
    judge(main)
