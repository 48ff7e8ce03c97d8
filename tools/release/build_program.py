"""Proves and builds the program or the C library, crates that don't need one another side by side, and puts it into built/.

    python3 tools/release/build_program.py [--lib]

Two rt commands never work in a crate's folder at once, and a command that works on a crate holds the folders of all crates below.
So each crate is built in a separate folder outside the repository, which receives the built libraries of the crates below. What was
proved is given to the repository's crates/*/out in the end, so that the next build begins with it. The program stands in
built/SUM/dummynet, and the library in built/SUM/libhingetulip.a and libhingetulip.so.1, where SUM is the checksum of the sources
(tools/release/program_sources). A failed build leaves what was built before as it was, answers status 70, and names the log of the
crate that failed.
"""

import fcntl
import os
import shutil
import subprocess
import sys
import time
from concurrent.futures import FIRST_COMPLETED, Future, ThreadPoolExecutor, wait
from pathlib import Path
from tempfile import mkdtemp
from typing import Callable, NamedTuple

from link_library import STATIC, link

TOP = Path(__file__).resolve().parents[2]
BUILT = TOP / "built"
PROGRAM = "dummynet"
LIBRARY = "hingetulip_c"
FAILED = 70
USAGE = 2
LANES = max(1, min(4, len(os.sched_getaffinity(0))))


class BuildFault(Exception):
    """Why nothing was built. Its text is one line for the user."""


class Product(NamedTuple):
    """A product: its name, its crate, rt's output for that crate, the file that identifies it, and the way to install it."""

    called: str
    crate: str
    made: str
    known_by: str
    put: Callable[[Path, Path], None]


def say(text: str) -> None:
    print(f"{PROGRAM}: {text}", file=sys.stderr, flush=True)


def sources(*words: str) -> str:
    """Returns the checksum of a crate's sources, or its parts, lowest first, from tools/release/program_sources."""
    done = subprocess.run([TOP / "tools" / "release" / "program_sources", *words], capture_output=True, text=True)
    if done.returncode:
        raise BuildFault(f"the sources can't be read: {done.stderr.strip()}")
    return done.stdout.strip()


def crate_of(line: str) -> str:
    """Returns the crate of a line in crates.txt, or an empty text."""
    return (line.partition("#")[0].partition(":")[0].split() or [""])[0]


def dependencies(crate: str) -> dict[str, list[str]]:
    """Returns the crates of a product, lowest first, with their dependencies among them."""
    names = sources("--crates", crate).split()
    found: dict[str, list[str]] = {}
    for line in (TOP / "crates.txt").read_text().splitlines():
        below = line.partition("#")[0].partition(":")[2]
        found[crate_of(line)] = [word for word in below.split() if word in names]
    return {name: found[name] for name in names}


class Builder:
    """A build: its folder outside the repository, and its proofs."""

    def __init__(self, work: Path, below: dict[str, list[str]]) -> None:
        self.work, self.below = work, below
        self.logs = BUILT / "log"
        self.logs.mkdir(parents=True, exist_ok=True)

    def all_below(self, name: str) -> list[str]:
        """Returns the crates below a crate, directly or not."""
        found = {need for direct in self.below[name] for need in (*self.all_below(direct), direct)}
        return [other for other in self.below if other in found]

    def folder(self, name: str) -> Path:
        return self.work / name / "crates" / name

    def prepare(self, name: str) -> None:
        """Prepares the folder for a crate: its sources, the libraries below it, and earlier results."""
        place = self.work / name
        members = [*self.all_below(name), name]
        for member in members:
            for part in ("src", "specs", "proofs", "stdin", "stdout"):
                of = TOP / "crates" / member / part
                if of.is_dir():
                    shutil.copytree(of, place / "crates" / member / part)
                elif of.is_file():
                    shutil.copyfile(of, place / "crates" / member / part)
        lines = [line for line in (TOP / "crates.txt").read_text().splitlines() if crate_of(line) in members]
        (place / "crates.txt").write_text("".join(f"{line}\n" for line in lines))
        shutil.copyfile(TOP / "HANDLES", place / "HANDLES")
        for member in members[:-1]:
            copied(self.folder(member) / "out" / "rlib", place / "crates" / member / "out" / "rlib")
        for part in ("rlib", "incremental"):
            copied(TOP / "crates" / name / "out" / part, self.folder(name) / "out" / part)

    def build(self, name: str, jobs: int) -> bool:
        """Proves and builds a crate, and answers whether it could."""
        self.prepare(name)
        words = ["rt", "run", "--jobs", str(jobs), "--", "--version"] if name == PROGRAM else ["rt", "lib", "--jobs", str(jobs)]
        with open(self.logs / f"{name}.log", "w") as log:
            done = subprocess.run(words, cwd=self.folder(name), stdin=subprocess.DEVNULL, stdout=log, stderr=subprocess.STDOUT)
        return done.returncode == 0

    def build_all(self) -> None:
        """Builds each crate after those below it, in parallel on all processors."""
        begun, done = time.monotonic(), set[str]()
        running: dict[Future[bool], str] = {}
        with ThreadPoolExecutor(LANES) as pool:
            while len(done) < len(self.below):
                begun_ones = done.union(running.values())
                ready = [n for n in self.below if n not in begun_ones and done.issuperset(self.below[n])][: LANES - len(running)]
                jobs = max(1, LANES // max(1, len(running) + len(ready)))
                for name in ready:
                    running[pool.submit(self.build, name, jobs)] = name
                for ended in wait(running, return_when=FIRST_COMPLETED).done:
                    name = running.pop(ended)
                    if not ended.result():
                        raise BuildFault(f"{name} could not be built; what was said stands in {self.logs / name}.log")
                    done.add(name)
                    say(f"{len(done)} of {len(self.below)} crates built ({name}), {(time.monotonic() - begun) / 60:.1f} minutes")

    def give_back(self) -> None:
        """Gives proof results back to the repository for the next build, unless rt is working in the crate there."""
        for name in self.below:
            held = os.open(TOP / "crates" / name, os.O_RDONLY)
            try:
                fcntl.flock(held, fcntl.LOCK_EX | fcntl.LOCK_NB)
                for part in ("rlib", "incremental"):
                    made, to = self.folder(name) / "out" / part, TOP / "crates" / name / "out" / part
                    if made.is_dir():
                        shutil.rmtree(to, ignore_errors=True)
                        copied(made, to)
            except BlockingIOError:
                pass
            finally:
                os.close(held)


def link_or_copy(source: str, target: str) -> None:
    """Links proof results, which checks replace but never change; copies anything else, or onto another disk."""
    try:
        if source.endswith(".oantt"):
            os.link(source, target)
            return
    except OSError:
        pass
    shutil.copy2(source, target)


def copied(one: Path, other: Path) -> None:
    """Copies a folder, if it exists."""
    if one.is_dir():
        shutil.copytree(one, other, symlinks=True, copy_function=link_or_copy)


def put_program(made: Path, folder: Path) -> None:
    """Installs the new program atomically, and then removes those of older sources."""
    room = folder / f"new-{os.getpid()}"
    shutil.copyfile(made, room)
    room.chmod(0o755)
    room.replace(folder / PROGRAM)


PRODUCTS = {
    (): Product("program", PROGRAM, PROGRAM, PROGRAM, put_program),
    ("--lib",): Product("C library", LIBRARY, f"lib{LIBRARY}.a", STATIC, link),
}


def put_in_place(product: Product, made: Path, folder: Path) -> None:
    folder.mkdir(exist_ok=True)
    product.put(made, folder)
    for older in BUILT.glob(f"*/{product.known_by}"):
        if older.parent != folder:
            shutil.rmtree(older.parent)


def build(product: Product) -> None:
    """Builds a product, unless another build of the same sources ended meanwhile."""
    if shutil.which("rt") is None:
        raise BuildFault(f"the {product.called} can't be built: there is no `rt` on the path (Rattle's toolchain)")
    asked = time.time()
    with open(BUILT / "lock", "w") as lock:
        fcntl.flock(lock, fcntl.LOCK_EX)
        folder = BUILT / sources(product.crate)
        known = folder / product.known_by
        if known.exists() and known.stat().st_mtime > asked:
            return
        below = dependencies(product.crate)
        say(f"proving and building {len(below)} crates, logs in {BUILT / 'log'}")
        work = Path(mkdtemp(prefix="hingetulip-build-"))
        builder = Builder(work, below)
        try:
            builder.build_all()
            if BUILT / sources(product.crate) != folder:
                raise BuildFault(f"the sources changed while the {product.called} was built; build it again")
            put_in_place(product, builder.folder(product.crate) / "out" / product.made, folder)
        finally:
            builder.give_back()
            shutil.rmtree(work, ignore_errors=True)


def main(words: list[str]) -> int:
    product = PRODUCTS.get(tuple(words))
    if product is None:
        print("usage: ./build [--lib]", file=sys.stderr)
        return USAGE
    BUILT.mkdir(exist_ok=True)
    try:
        build(product)
    except BuildFault as fault:
        say(str(fault))
        return FAILED
    except OSError as error:
        say(f"the {product.called} could not be built: {error}")
        return FAILED
    return 0


if __name__ == "__main__":
    sys.exit(main(sys.argv[1:]))
