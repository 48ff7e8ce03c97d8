"""Builds the kernel of simulated machines from a source package of Linux."""

from __future__ import annotations

import os
import re
import shutil
import signal
from contextlib import ExitStack
from pathlib import Path
from typing import Any, Iterator, Optional

from hinge.border.programs import NOTHING, PIPE, SAME, Process, asked, begun
from hinge.border.scratch import scratch
from hinge.border.terminal import tell
from hinge.command import MISSING, Bar, Fault, say
from hinge.run.system import Missing, die_with_parent, exchange
from hinge.simulated.kernel import CONFIG, INIT, PATCH, BUILD_VERSION, Kernel, cache, folder_of
from hinge.simulated.opened_files import sha256_of

PACKAGES = Path("/usr/src")
PROGRAMS = "cc=gcc make flex bison bc tar xz=xz-utils patch strip=binutils"
NEEDED = {name: package or name for name, _, package in (word.partition("=") for word in PROGRAMS.split())}
ROOM = 2_000_000_000  # bytes that a build needs on the disk
STEP = re.compile(r"^  (?:CC|LD|AR|AS|GEN|HOSTCC|HOSTLD|LEX|YACC|UPD|LDS|OBJCOPY|MKCAP|CHK|SYSHDR|SYSTBL|WRAP)\s")
ABOUT = 1050  # the approximate number of make's lines about a step in a whole build
LAST_LINES = 30  # the number of a failed step's last lines that are printed
FAILED = 6


def source() -> Optional[Path]:
    """Returns the path of the newest installed source package of Linux, if any."""

    def by_version(path: Path) -> list[int]:
        return [int(word) for word in re.findall(r"\d+", path.name.partition(".tar")[0])]

    packages = sorted(PACKAGES.glob("linux-source-*.tar.xz"), key=by_version)
    return packages[-1] if packages else None


def has_static_library() -> bool:
    """Returns whether cc can link static programs. For a missing library, cc prints the bare name without a path."""
    words = ["cc", "-print-file-name=libc.a"]
    return shutil.which("cc") is not None and os.path.isabs(asked(words).text)


def missing_packages(place: Optional[Path]) -> dict[str, str]:
    """Returns the programs and files that a build from the source at `place` lacks, each with the Debian package that contains
    it."""
    names = {name: package for name, package in NEEDED.items() if shutil.which(name) is None}
    if not has_static_library():
        names["libc.a"] = "libc6-dev"
    if place is None:
        names["a source of Linux (or --source)"] = "linux-source-6.12"
    return names


class Build:
    """Builds a kernel in a temporary folder, from the packed source at `place`, with `jobs` compilers at a time."""

    def __init__(self, place: Optional[Path], jobs: int) -> None:
        """Checks that this system can build. Fault: a program or the source is missing. Missing: `place` isn't a file."""
        names = missing_packages(place)
        if place is None or names:
            raise Fault(f"needs {', '.join(names)}: apt-get install {' '.join(names.values())}", MISSING)
        if not place.is_file():
            raise Missing(f"{place}: there is no such file")
        self.packed = place.resolve()
        self.jobs = jobs

    def step(self, what: str, *words: "str | Path", where: Path) -> None:
        """Runs a command in the folder `where`; `what` names the step in messages. Fault: the command failed; its last lines are
        printed first."""
        names = {"PATH": os.environ["PATH"], "HOME": str(where), "TMPDIR": str(where), "LC_ALL": "C", "ARCH": "um", **BUILD_VERSION}
        bar = Bar(f"steps of the build ({what})", ABOUT)
        last = list[str]()
        how: dict[str, Any] = {"cwd": where, "env": names, "stdin": NOTHING, "stdout": PIPE, "stderr": SAME, "errors": "replace"}
        with begun([*map(str, words)], text=True, preexec_fn=begin_group, **how) as process, ExitStack() as behind:
            behind.callback(end_group, process)  # if a signal interrupts the loop
            for line in process.stdout or ():
                last = [*last[-LAST_LINES:], line]
                if STEP.match(line) and bar.done < ABOUT - 1:
                    bar.step()
            behind.pop_all()
        bar.clear()
        if process.returncode:
            tell("".join(last), "")
            raise Fault(f"{what}: {words[0]} ended with {process.returncode}", FAILED)

    def unpacked(self, folder: Path) -> Path:
        """Unpacks the source into the folder; returns the source tree. Fault: the package doesn't contain a source of Linux."""
        say(f"unpacks {self.packed}")
        self.step("unpacking", "tar", "-xf", self.packed, where=folder)
        trees = [path for path in folder.iterdir() if (path / "Kconfig").is_file()]
        if len(trees) != 1:
            raise Fault(f"{self.packed}: it isn't a source of Linux", FAILED)
        return trees[0]

    def configure(self, tree: Path) -> None:
        """Applies the patch and writes the configuration: the smallest one with the project's settings. Fault: the source doesn't
        support time travel."""
        self.step("our patch, which is for Linux 6.12", "patch", "-p1", "--forward", "-i", PATCH, where=tree)
        self.step("configuration", "make", "tinyconfig", where=tree)
        self.step("configuration", "scripts/kconfig/merge_config.sh", "-m", ".config", CONFIG, where=tree)
        self.step("configuration", "make", "olddefconfig", where=tree)
        if "\nCONFIG_UML_TIME_TRAVEL_SUPPORT=y\n" not in (tree / ".config").read_text():
            raise Fault("this source of Linux has no time travel", FAILED)

    def compile(self, tree: Path, into: Path) -> None:
        """Compiles the kernel of the tree, and writes the kernel and the files beside it (such as the checksum) to the folder
        `into`."""
        say(f"compiles Linux {version_of(tree)}, some 9 minutes of processor time, by {self.jobs} at a time")
        self.step("compilation", "make", f"-j{self.jobs}", "linux", where=tree)
        self.step("stripping", "strip", "-o", into / "linux", "linux", where=tree)
        add_init(Kernel(into))
        (into / "checksum").write_text(f"{sha256_of(into / 'linux')}\n")
        (into / "source").write_text("".join(f"{line}\n" for line in self.sources(tree)))
        shutil.copyfile(tree / "LICENSES" / "preferred" / "GPL-2.0", into / "COPYING")

    def sources(self, tree: Path) -> Iterator[str]:
        """Yields lines that name everything on which the kernel's bytes depend: Linux's version, checksums, and the tools'
        versions."""
        yield f"Linux {version_of(tree)}"
        for path in (self.packed, PATCH, CONFIG):
            yield f"{path.name}, SHA-256 {sha256_of(path)}"
        for words in (["cc", "--version"], ["ld", "--version"], ["ldd", "--version"]):
            yield asked(words).text.partition("\n")[0]

    def run(self) -> Iterator[Kernel]:
        """Yields the new kernel in a temporary folder, so that the caller can try it; then the same kernel in its final folder.
        Missing: the disk has too little room."""
        cache().mkdir(parents=True, exist_ok=True)
        with scratch() as place, scratch(cache()) as beside:
            if shutil.disk_usage(place).free < ROOM:
                raise Missing(f"{place}: a build takes {ROOM // 10**9} GB; the variable TMPDIR names another place")
            tree = self.unpacked(place)
            self.configure(tree)
            new = beside / "kernel"
            new.mkdir()
            self.compile(tree, new)
            yield Kernel(new)
            yield kept_as(new, folder_of(version_of(tree)))


def begin_group() -> None:
    os.setpgid(0, 0)
    die_with_parent()


def end_group(process: "Process[str]") -> None:
    """Kills a process and its group, and waits until all have stopped writing into the build's folder."""
    os.killpg(process.pid, signal.SIGKILL)
    assert process.stdout
    process.stdout.read()  # until the end, after the last process of the group has ended


def add_init(kernel: Kernel) -> None:
    """Compiles the program that is the first process in a kernel's machines. Fault: the compiler fails."""
    words = ["cc", "-std=c17", "-O2", "-static", "-s", "-o", str(kernel.init), *map(str, INIT)]
    with scratch() as place:  # contains the temporary files of a compiler that is killed
        answer = asked(words, statuses=(0, 1), env={**os.environ, "TMPDIR": str(place)})
    if answer.status:
        raise Fault(f"{INIT[0]} isn't compiled: {answer.told}", FAILED)


def version_of(tree: Path) -> str:
    """Returns the version of a Linux source tree, such as 6.12.1."""
    numbers = re.findall(r"^(?:VERSION|PATCHLEVEL|SUBLEVEL) = (\d+)$", (tree / "Makefile").read_text(), re.MULTILINE)
    return ".".join(numbers)


def kept_as(new: Path, folder: Path) -> Kernel:
    """Moves a new kernel's folder to its final name; returns the kernel. An older kernel with that name is removed, by an atomic
    exchange if the file system can do that."""
    if folder.exists():
        try:
            exchange(str(new), str(folder))
            return Kernel(folder)
        except OSError:  # the file system can't exchange folders
            shutil.rmtree(folder, ignore_errors=True)
    new.rename(folder)
    return Kernel(folder)
