"""The prover for a copy of a crate with edits, and the libraries below it."""

from __future__ import annotations

import os
import re
import shutil
import signal
import subprocess
from collections.abc import Iterable
from functools import lru_cache
from hashlib import sha256
from pathlib import Path
from tempfile import TemporaryDirectory
from typing import Any, NamedTuple

TOP = Path(__file__).resolve().parent.parent.parent
CRATES = TOP / "crates"
PARTS = ("src", "specs", "proofs")
OUTPUT: "dict[str, Any]" = {"stdout": subprocess.PIPE, "stderr": subprocess.STDOUT}


class Checked(NamedTuple):
    """The output of a check. It contains a verdict if the check was completed."""

    status: int
    text: str

    def has_verdict(self) -> bool:
        return bool(re.match(r"only=|logic=", self.text.strip().rpartition("\n")[2])) and self.status in (0, 1)


@lru_cache(maxsize=None)
def kit() -> Path:
    """Returns the toolchain's folder."""
    return Path(subprocess.run(["rt", "doc"], stdout=subprocess.PIPE, text=True, check=True).stdout.strip()).parent


@lru_cache(maxsize=None)
def listed() -> "dict[str, tuple[list[str], list[str]]]":
    """Returns the words beside each crate's name in crates.txt, and its libraries."""
    lines = [line.partition("#")[0] for line in (TOP / "crates.txt").read_text().splitlines()]
    heads = [(head.split(), below.split()) for head, colon, below in (line.partition(":") for line in lines) if colon]
    return {head[0]: (head[1:], below) for head, below in heads}


def below(crate: str) -> list[str]:
    """Returns the repository's crates below a crate, each once, lowest first."""
    found: list[str] = []
    for name in listed()[crate][1]:
        if name in listed():
            found += [one for one in [*below(name), name] if one not in found]
    return found


def rlib(crate: str) -> Path:
    return CRATES / crate / "out" / "rlib" / f"{crate}.rlib"


def command(crate: str, of_kit: list[str], own: list[str], root: str = "src/lib.rt") -> list[str]:
    """Returns the prover's command for a crate over libraries of the toolchain and the repository's built ones."""
    logic = ["--antt-project", f"{kit()}/rattle/logic/antt-project.json", "--logic-built", f"{kit()}/logic_built"]
    libraries = [*(kit() / "rlibs" / f"{name}.rlib" for name in of_kit), *map(rlib, own)]
    named = [word for path in libraries for word in ("--extern", f"{path.stem}={path}")]
    places = dict.fromkeys([kit() / "rlibs", *(rlib(name).parent for one in own for name in [*below(one), one])])
    found = [word for place in places for word in ("-L", f"dependency={place}")]
    return [str(kit() / "bin" / "rattle"), "check", "--crate-name", crate, root, *named, *found, *logic, "--jobs", "1"]


def words(crate: str) -> list[str]:
    """The prover's command for one of the repository's crates."""
    root = "src/main.rt" if (CRATES / crate / "src" / "main.rt").exists() else "src/lib.rt"
    names = listed()[crate][1]
    own = [name for name in names if name in listed()]
    kind = ["--crate-type", "staticlib"] if "staticlib" in listed()[crate][0] else []
    return [*command(crate, ["std", *(name for name in names if name not in own)], own, root), *kind]


def build_below(crates: Iterable[str], is_built: bool) -> None:
    """Has `rt` build the libraries below crates, where they have changed, or takes those that `rt ci` left, which have no stamp."""
    if not is_built or any(CRATES.glob("*/out/rlib/stamp")):
        for crate in filter(below, crates):
            subprocess.run(["rt", "check", "--only", ""], cwd=CRATES / crate, stdout=subprocess.DEVNULL, stderr=subprocess.STDOUT)


def sum_of(crate: str) -> str:
    """Returns a checksum of everything that a check of the crate reads: its files, its libraries and the toolchain."""
    total = sha256(repr((listed()[crate], (kit() / "KIT-ID").read_bytes())).encode())
    files = [path for part in PARTS for path in sorted((CRATES / crate / part).rglob("*")) if path.is_file()]
    below_it = [rlib(name) / "format" for name in below(crate)]
    for path in [*files, *below_it]:
        total.update(repr((str(path.relative_to(CRATES)), path.read_bytes())).encode())
    return total.hexdigest()


class Room:
    """A folder for trying a crate's edits, with earlier checks' results."""

    def __init__(self, crate: str, place: Path) -> None:
        self.crate, self.place = crate, place
        self.kept = place / "kept"
        own = CRATES / crate / "out" / "incremental"
        if own.is_dir():
            shutil.copytree(own, self.kept, copy_function=linked)
        else:
            self.kept.mkdir()

    def check(self, texts: "dict[str, str]", only: list[str]) -> Checked:
        """Checks the crate with these texts in place of its own: the named functions or modules, or all."""
        with TemporaryDirectory(prefix="edits-", dir=self.place) as folder:
            copy = Path(folder)
            for part in PARTS:
                if (CRATES / self.crate / part).is_dir():
                    shutil.copytree(CRATES / self.crate / part, copy / part)
            for path, text in texts.items():
                (copy / path).write_text(text)
            asked = [word for name in only for word in ("--only", name)]
            command = [*words(self.crate), "--incremental", str(self.kept), *asked]
            for _ in range(2):
                done = subprocess.run(command, cwd=copy, stdin=subprocess.DEVNULL, **OUTPUT)
                if done.returncode != -signal.SIGKILL:  # by the system, most likely for memory: once more
                    break
            return Checked(done.returncode, done.stdout.decode(errors="replace"))


def linked(one: str, other: str) -> str:
    """Copies a file of kept results, or links it if no check writes into its kind; returns the path."""
    try:
        if one.endswith(".oantt"):
            os.link(one, other)
            return other
    except OSError:
        pass
    shutil.copy2(one, other)
    return other
