"""What the tests share: running commands of the kit and the program, in a folder of their own. Commands of the kit run in a fork of
the tests' process, which has numpy and the kit's modules already: no start of Python."""

import csv
import importlib
import os
import shutil
import subprocess
import sys
import tempfile
import traceback
import unittest
from contextlib import suppress
from functools import lru_cache
from pathlib import Path
from typing import IO, NoReturn

from hinge.program import dummynet
from hinge.replays.links import Parts, read_configuration
from hinge.replays.replay import read_packets, read_report

TOP = Path(__file__).resolve().parents[3]
DATA = Path(__file__).resolve().parents[1] / "kit_data"
MIXED = DATA / "mixed.pcap"
DRAWS = ("look",)  # commands that may import matplotlib
needs_tshark = unittest.skipUnless(shutil.which("tshark") and shutil.which("mergecap"), "tshark isn't there")


@lru_cache(maxsize=None)
def scratch() -> tempfile.TemporaryDirectory[str]:
    return tempfile.TemporaryDirectory()


def folder() -> Path:
    return Path(scratch().name)


def load(command: str) -> None:
    """Imports here what the command would import in each fork. What isn't there, the command tells."""
    names = ["hinge.__main__", f"hinge.commands.{command.replace('-', '_')}"]
    for name in [*names, *(["matplotlib.figure", "matplotlib.backends.backend_svg"] if command in DRAWS else [])]:
        with suppress(ImportError):
            importlib.import_module(name)


def ended(words: list[str]) -> int:
    """Runs the kit over the words, and answers its status."""
    sys.argv = [str(Path(sys.modules["hinge.__main__"].__file__ or "")), *words]
    try:
        sys.modules["hinge.__main__"].main()
        sys.stdout.flush()
    except SystemExit as end:
        if isinstance(end.code, str):
            print(end.code, file=sys.stderr)
        return end.code if isinstance(end.code, int) else int(end.code is not None)
    except BaseException:
        traceback.print_exc()
        return 1
    return 0


def child(where: Path, words: list[str], streams: list[IO[str]]) -> NoReturn:
    """The fork, in which the standard streams are these files. It ends without what the tests do at their end."""
    status = 1
    try:
        os.chdir(where)
        for number, file in enumerate(streams):
            os.dup2(file.fileno(), number)
        sys.stdin = open(0, closefd=False)
        for number, name in ((1, "stdout"), (2, "stderr")):
            own = getattr(sys, f"__{name}__")
            setattr(sys, name, open(number, "w", number - 1 or -1, encoding=own.encoding, errors=own.errors, closefd=False))
        status = ended(words)
        with suppress(OSError, ValueError):
            sys.stdout.flush()
            sys.stderr.flush()
    finally:
        os._exit(status)


def forked_in(where: Path, words: list[str], text: str) -> subprocess.CompletedProcess[str]:
    """Runs `hinge WORDS` in a folder, with a text as its standard input."""
    load(words[0])
    with tempfile.TemporaryFile("w+") as given, tempfile.TemporaryFile("w+") as out, tempfile.TemporaryFile("w+") as told:
        given.write(text)
        given.seek(0)
        sys.stdout.flush()
        sys.stderr.flush()
        process = os.fork()
        if process == 0:
            child(where, words, [given, out, told])
        status = os.waitstatus_to_exitcode(os.waitpid(process, 0)[1])
        out.seek(0)
        told.seek(0)
        return subprocess.CompletedProcess(["hinge", *words], status, out.read(), told.read())


def run(command: str, *words: object, **more: object) -> subprocess.CompletedProcess[str]:
    """Runs a command of the kit: in a fork of this process, whose modules are loaded, or in a separate process for more than an
    input."""
    if set(more) <= {"input"} and "coverage" not in sys.modules:  # which saves what it saw at the end of a process
        return forked_in(folder(), [command, *map(str, words)], str(more.get("input", "")))
    return subprocess.run(
        [sys.executable, "-m", "hinge", command, *map(str, words)], capture_output=True, text=True, cwd=folder(), **more
    )


def recorded(name: str, config: Path, packets: Path) -> str:
    """The history that the program writes of a replay."""
    path = folder() / f"{name}.history"
    subprocess.run([dummynet(), "replay", config, packets, "--history", path], stdout=subprocess.DEVNULL, check=True)
    return str(path)


def live(lines: list[str]) -> str:
    """The transcript of a session with these lines."""
    return subprocess.run([dummynet(), "live"], input="\n".join(lines) + "\n", capture_output=True, text=True, check=True).stdout


def replay(name: str, config: Path, packets: Path) -> Path:
    """The report that the program writes."""
    report = folder() / f"{name}.report"
    with open(report, "wb") as out:
        subprocess.run([dummynet(), "replay", str(config), str(packets)], stdout=out, check=True)
    return report


@lru_cache(maxsize=None)
def mixed(name: str) -> tuple[Path, Path, Path]:
    """Configuration, packets and report of mixed.pcap through one of the configurations."""
    packets, config = folder() / f"{name}.csv", DATA / f"{name}.config"
    maps = (
        ["--map", "udp => queue 1", "--map", "icmp => queue 7", "--map", "=> queue 2"]
        if name == "shared"
        else ["--from", "10.9.0.1"]
    )
    done = run("packets", MIXED, "-o", packets, "--mtu", 1500, "--index", folder() / f"{name}.index", *maps)
    assert done.returncode == 0, done.stderr
    return config, packets, replay(name, config, packets)


def history_of(name: str) -> str:
    config, packets, _ = mixed(name)
    return recorded(name, config, packets)


def parts_of(config: Path, packets: Path, report: Path) -> Parts:
    return Parts(read_report(str(report), read_packets(str(packets))), read_configuration(str(config))).check()


def rows_of(path: Path) -> list[dict[str, str]]:
    with open(path, newline="") as file:
        return list(csv.DictReader(file))


def write(name: str, text: str) -> Path:
    path = folder() / name
    path.write_text(text)
    return path
