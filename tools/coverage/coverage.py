#!/usr/bin/env python3
"""How much of the hosts in C and of python/ the tests reach: lines and branches by file, and the sums.

    python3 tools/coverage/coverage.py [--suites NAME,..] [--not-reached]
                              [--least-c-lines N] [--least-c-branches N] [--least-python N]

It builds the hosts by gcc for gcov into a folder of its own, and runs the suites of tests over them, with each Python
under coverage.py. It takes gcov and Debian's python3-coverage. With --not-reached each file is followed by the lines
that no test reaches. It exits 1 if a sum is below a given limit, in percent. A suite that fails counts too.
"""

import argparse
import json
import os
import shutil
import subprocess
import sys
from collections import Counter
from pathlib import Path
from tempfile import TemporaryDirectory
from typing import Any, Iterator, NamedTuple

HERE = Path(__file__).resolve().parent
TOP = HERE.parents[1]
HOSTS = {"link": "hinge-link", "packets": "hinge-packets", "clock": "hinge-clock.so"}
COUNTED = ["-std=gnu17", "-O0", "-g", "-w", "-fPIC", "-pthread", "--coverage"]
KEPT_AT_EXIT = """void __gcov_dump(void);
_Noreturn void __real__exit(int status);
_Noreturn void __wrap__exit(int status) { __gcov_dump(), __real__exit(status); }
"""
FOLDERS = {"run": "python/tests/run", "kit": "python/tests/kit_tests", "simulated": "python/tests/simulated"}
PYTEST = ["-m", "pytest", "-q", "-p", "no:cacheprovider"]
SUITES = {  # each by its words behind those of Python; PROGRAM is that of the repository
    "module": [*PYTEST, "python/tests", *(f"--ignore={folder}" for folder in FOLDERS.values())],
    **{name: [*PYTEST, folder] for name, folder in FOLDERS.items()},
    "examples": ["tools/gate/examples.py", "PROGRAM"],
}
FIGURES = ("num_statements", "covered_lines", "num_branches", "covered_branches")  # as coverage.py names them
LONGEST = 1800  # s of a suite
OPTIONS = """[run]
branch = true
parallel = true
data_file = {folder}/data/of
include = {top}/python/hinge*/*
disable_warnings = no-data-collected,module-not-imported,module-not-measured,already-imported
"""


class File(NamedTuple):
    """A source file: its lines and branches, how many of each are reached, and the lines that aren't."""

    name: str
    lines: int
    reached: int
    branches: int
    taken: int
    left: list[int]


def interpreter() -> str:
    """Returns a Python with coverage.py and the packages for the kit's tests."""
    for word in ("/usr/bin/python3", sys.executable):
        if subprocess.run([word, "-c", "import coverage, numpy"], cwd="/", capture_output=True).returncode == 0:
            return word
    sys.exit("coverage.py: no Python has coverage and numpy: apt-get install python3-coverage python3-numpy")


def build(name: str, folder: Path, library: Path) -> Path:
    """Builds a host whose objects write their counts beside themselves, even if it ends with _exit; returns its path."""
    place = folder / name
    place.mkdir()
    (place / "kept.c").write_text(KEPT_AT_EXIT)
    sources = sorted((TOP / "hosts" / name).glob("*.c")) or [TOP / "hosts" / f"{name}.c"]
    include = TOP / "crates" / "hingetulip_c" / "include"
    for source in sources:
        subprocess.run(["gcc", *COUNTED, "-I", include, "-c", source, "-o", place / f"{source.stem}.o"], check=True)
    subprocess.run(["gcc", "-c", place / "kept.c", "-fPIC", "-o", place / "kept.lo"], check=True)
    how: list[Any] = ["-shared"] if name == "clock" else [library / "libhingetulip.a"]
    made = place / HOSTS[name]
    objects = [*place.glob("*.o"), place / "kept.lo"]
    subprocess.run(["gcc", "--coverage", "-pthread", "-Wl,--wrap=_exit", *objects, *how, "-o", made], check=True)
    return made


def environment(folder: Path, python: str) -> dict[str, str]:
    """Builds the hosts for coverage and prepares `folder`. Returns the environment variables with which tests use these hosts
    and every Python process runs under coverage.py.
    """
    library = Path(
        subprocess.run([TOP / "tools" / "release" / "library"], stdout=subprocess.PIPE, text=True, check=True).stdout.strip()
    )
    hosts = {f"HINGE_{name.upper()}": str(build(name, folder, library)) for name in HOSTS}
    start = {**os.environ, "PYTHONUSERBASE": str(folder / "user")}
    asked = [python, "-c", "import coverage, site; print(site.getusersitepackages(), coverage.__path__[0])"]
    told = subprocess.run(asked, cwd="/", env=start, stdout=subprocess.PIPE, text=True, check=True).stdout.split()
    packages = Path(told[0])
    packages.mkdir(parents=True)
    (packages / "coverage").symlink_to(told[1])  # the system's packages come later on the path
    (folder / "data").mkdir()
    (folder / "data").chmod(0o777)  # tests run as other users too
    (folder / "bin").mkdir()
    (folder / "bin" / "python3").symlink_to(python)
    shutil.copy(HERE / "coverage_start.py", packages)
    (packages / "coverage_start.pth").write_text("import coverage_start\n")
    (folder / "options").write_text(OPTIONS.format(folder=folder, top=TOP))
    start["PATH"] = f"{folder / 'bin'}:{os.environ['PATH']}"
    named = {
        "HINGE_LONG": "yes",
        "COVERAGE_PROCESS_START": str(folder / "options"),
        "HINGETULIP_LIBRARY": f"{library}/libhingetulip.so.1",
    }
    return {**start, **hosts, **named, "DUMMYNET": os.environ.get("DUMMYNET", f"{TOP}/dummynet")}


def run(name: str, python: str, env: dict[str, str], folder: Path) -> None:
    """Runs a suite, and prints its last line; if it fails, also its output."""
    words = [env["DUMMYNET"] if word == "PROGRAM" else word for word in SUITES[name]]
    with open(folder / "said", "w+", errors="replace") as said:  # what a failed test left running would hold a pipe
        how: Any = {"stdin": subprocess.DEVNULL, "stdout": said, "stderr": subprocess.STDOUT}
        status = subprocess.run([python, *words], cwd=TOP, env=env, timeout=LONGEST, **how).returncode
        said.seek(0)
        lines = said.read().splitlines()
    print(*(lines[-200:-1] if status else []), f"{name}: {lines[-1] if lines else 'no line'}", sep="\n", flush=True)


def c_files(folder: Path) -> Iterator[File]:
    """Yields the figures of gcov, each line once."""
    counts: dict[str, Counter[int]] = {}
    taken: dict[str, dict[int, list[int]]] = {}
    for notes in sorted(folder.glob("*/*.gcno")):
        words = ["gcov", "--json-format", "--branch-probabilities", "--stdout", str(notes)]
        told = subprocess.run(words, cwd=folder, stdout=subprocess.PIPE, stderr=subprocess.DEVNULL, check=True)
        for file in json.loads(told.stdout)["files"]:
            if file["file"].startswith(str(TOP)):
                add(file["lines"], counts.setdefault(file["file"], Counter()), taken.setdefault(file["file"], {}))
    for path, lines in sorted(counts.items()):
        branches = [count for each in taken[path].values() for count in each]
        left = sorted(line for line, count in lines.items() if count == 0)
        name = str(Path(path).relative_to(TOP))
        yield File(name, len(lines), len(lines) - len(left), len(branches), sum(count > 0 for count in branches), left)


def add(lines: list[dict[str, Any]], counts: Counter[int], taken: dict[int, list[int]]) -> None:
    """Adds gcov's figures for a file's lines. The branches of a line in several objects, such as a header's, count once."""
    for line in lines:
        number = line["line_number"]
        branches = [branch["count"] for branch in line["branches"]]
        counts[number] += line["count"]
        before = taken.get(number, [])
        is_again = len(before) == len(branches)
        taken[number] = [sum(both) for both in zip(before, branches)] if is_again else before + branches


def python_files(folder: Path, python: str, env: dict[str, str]) -> Iterator[File]:
    """The figures of coverage.py. A file that no test imports is reached nowhere."""
    quiet = {name: value for name, value in env.items() if name != "COVERAGE_PROCESS_START"}
    sources = ",".join(str(TOP / "python" / name) for name in ("hinge", "hingetulip", "hingetulip_words"))
    (folder / "all").write_text((folder / "options").read_text().replace("include = ", f"source = {sources}\n# "))
    (folder / "nothing.py").touch()
    for words in ("run nothing.py", "combine -q", "json -q -i -o figures"):
        command, *rest = words.split()
        subprocess.run([python, "-m", "coverage", command, "--rcfile=all", *rest], cwd=folder, env=quiet, check=True)
    for path, file in sorted(json.loads((folder / "figures").read_text())["files"].items()):
        lines, reached, branches, taken = (file["summary"][word] for word in FIGURES)
        yield File(str(Path(path).relative_to(TOP)), lines, reached, branches, taken, file["missing_lines"])


def percent(part: int, whole: int) -> float:
    return 100.0 * part / whole if whole else 100.0


def sum_of(name: str, files: list[File]) -> File:
    lines, reached, branches, taken = (sum(column) for column in zip(*(file[1:5] for file in files)))
    return File(name, lines, reached, branches, taken, [])


def show(file: File, is_all: bool) -> None:
    shares = percent(file.reached, file.lines), percent(file.taken, file.branches)
    print(f"{file.name:45}{file.lines:7}{shares[0]:8.1f} %{file.branches:9}{shares[1]:8.1f} %")
    if is_all and file.left:
        print("    " + " ".join(map(str, file.left)))


def main() -> int:
    words = argparse.ArgumentParser(description=__doc__.splitlines()[0])
    words.add_argument("--suites", default=",".join(SUITES))
    words.add_argument("--not-reached", action="store_true")
    words.add_argument("--least-c-lines", type=float, default=0)
    words.add_argument("--least-c-branches", type=float, default=0)
    words.add_argument("--least-python", type=float, default=0)
    asked, python = words.parse_args(), interpreter()
    with TemporaryDirectory() as place:
        folder = Path(place)
        folder.chmod(0o755)
        env = environment(folder, python)
        for name in asked.suites.split(","):
            run(name, python, env, folder)
        in_c, in_python = list(c_files(folder)), list(python_files(folder, python, env))
    print(f"{'':45}{'lines':>7}{'reached':>10}{'branches':>9}{'taken':>10}")
    sums = sum_of("hosts", in_c), sum_of("python", in_python)
    for file in [*in_c, *in_python, *sums]:
        show(file, asked.not_reached)
    c, in_all = sums
    shares = [percent(c.reached, c.lines), percent(c.taken, c.branches), percent(in_all.reached, in_all.lines)]
    limits = [asked.least_c_lines, asked.least_c_branches, asked.least_python]
    return int(any(share < least for share, least in zip(shares, limits)))


if __name__ == "__main__":
    sys.exit(main())
