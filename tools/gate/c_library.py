"""The C library from C: arguments of every kind, and each growth of memory refused or counted.

    python3 tools/gate/c_library.py

It takes the library of the present sources, as tools/release/library finds it: `rt ci` proves it and builds none. All is
compiled with the sanitizers for addresses and undefined behaviour, and with warnings as errors. That each reply is the
reference's is tried from Python, whose structs are the header's (python/tests/test_scenarios.py and test_header.py).
"""

import os
import subprocess
from pathlib import Path

from tally import TOOLS, Tally, judge

from link_library import STATIC

HEADER = TOOLS.parent / "crates" / "hingetulip_c" / "include"
SOURCES = Path(__file__).resolve().parent / "c_library"
FLAGS = ["-std=c99", "-g", "-O1", "-Wall", "-Wextra", "-Werror", "-fsanitize=address,undefined", "-fno-sanitize-recover=all"]
REFUSING = (TOOLS / "gate" / "refused_growths.c", "-Wl,--wrap=rattle_alloc,--wrap=rattle_realloc")


def library() -> Path:
    """Returns the static library of the present sources."""
    done = subprocess.run([TOOLS / "release" / "library"], stdout=subprocess.PIPE, text=True, check=True)
    return Path(done.stdout.strip()) / STATIC


def program(place: Path, name: str, *more: str | Path) -> Path:
    made = place / name
    subprocess.run(["gcc", *FLAGS, f"-I{HEADER}", "-o", made, SOURCES / f"{name}.c", *more, library()], check=True)
    return made


def ends_well(tally: Tally, place: Path, name: str, *more: str | Path) -> None:
    """Runs a program that prints its faults, and whose last line counts its work."""
    done = subprocess.run([program(place, name, *more)], stdout=subprocess.PIPE, stderr=subprocess.STDOUT)
    said = done.stdout.decode(errors="replace").strip()
    tally.note(name, "" if done.returncode == 0 else f"status {done.returncode}\n{said}")
    print(f"{name}: {said.splitlines()[-1] if said else 'no output'}")


def main(tally: Tally) -> None:
    os.environ["ASAN_OPTIONS"] = "detect_leaks=1"
    for name in ("arguments", "service_arguments"):
        ends_well(tally, tally.place, name)
    for name in ("growths", "reserved", "service_growths"):
        ends_well(tally, tally.place, name, *REFUSING)


if __name__ == "__main__":
    judge(main)
