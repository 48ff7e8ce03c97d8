"""The kernel for simulated machines: ingredients and folder."""

from __future__ import annotations

import hashlib
import os
from pathlib import Path
from typing import Iterator, NamedTuple

from hinge.run.system import Missing

HERE = Path(__file__).resolve().parent
CONFIG, PATCH = HERE / "kernel.config", HERE / "kernel.patch"
INIT = [HERE / f"{name}.c" for name in ("init", "disks", "rooms", "children", "two_rooms", "net", "acts")]
INIT_HEADERS = [HERE / f"{name}.h" for name in ("init", "rooms", "net")]
# Where the released one is: beside this module where that was installed, and in a clone's release.
RELEASED = (HERE / "kernels", HERE.parents[2] / "release" / "kernels")
LETTERS = 16  # of a checksum in the name of a folder
# The kernel draws random numbers from its own version too. It is fixed, so that each build draws the same.
BUILD_VERSION = {
    "KBUILD_BUILD_TIMESTAMP": "2026-01-01",
    "KBUILD_BUILD_USER": "hinge",
    "KBUILD_BUILD_HOST": "hinge",
    "KBUILD_BUILD_VERSION": "1",
}


class Kernel(NamedTuple):
    """Describes a folder with a kernel and the program that is the first process in its machines. `hinge kernel` compiles a missing
    program without building the kernel again."""

    folder: Path

    @property
    def linux(self) -> Path:
        return self.folder / "linux"

    @property
    def init(self) -> Path:
        return self.folder / f"init-{checksum_of(*INIT, *INIT_HEADERS)}"

    @property
    def checksum(self) -> str:
        """Returns the kernel's SHA-256 checksum in hex, as the folder records it."""
        return (self.folder / "checksum").read_text(encoding="ascii").strip()

    @property
    def is_built(self) -> bool:
        return self.linux.is_file() and (self.folder / "checksum").is_file()

    @property
    def is_whole(self) -> bool:
        """Returns whether the folder also contains this version's first process."""
        return self.is_built and self.init.is_file()


def cache() -> Path:
    """Returns the folder for this user's kernels."""
    path = os.environ.get("XDG_CACHE_HOME", "")
    return Path(path if os.path.isabs(path) else os.path.expanduser("~/.cache")) / "hingetulip" / "kernels"


def checksum_of(*paths: Path, begin: str = "") -> str:
    """Returns the first digits of a SHA-256 checksum over the text `begin` and the files."""
    digest = hashlib.sha256(begin.encode())
    for path in paths:
        digest.update(path.read_bytes())
    return digest.hexdigest()[:LETTERS]


def checksum_of_inputs() -> str:
    """Returns a checksum of a kernel's ingredients, except for the Linux source."""
    return checksum_of(CONFIG, PATCH, begin=repr(sorted(BUILD_VERSION.items())))


def folder_of(version: str) -> Path:
    """Returns the folder of the kernel for a Linux version."""
    return cache() / f"{version}-{checksum_of_inputs()}"


def version_numbers(folder: Path) -> list[int]:
    return [int(part) if part.isdecimal() else 0 for part in folder.name.partition("-")[0].split(".")]


def current_kernels(*places: Path) -> Iterator[Kernel]:
    """Yields the built kernels with the current configuration and patch, in the order of the places; in a place, the newest Linux
    first."""
    for place in places:
        for folder in sorted(place.glob(f"*-{checksum_of_inputs()}"), key=version_numbers, reverse=True):
            if Kernel(folder).is_built:
                yield Kernel(folder)


def usable_kernel() -> Kernel:
    """Returns the kernel in the folder that HINGE_KERNEL names, or else that `hinge kernel` built, or else the released kernel.
    Missing: there is no such kernel."""
    path = os.environ.get("HINGE_KERNEL")
    if path:
        if not Kernel(Path(path)).is_whole:
            raise Missing(f"HINGE_KERNEL: {path} has no kernel and first process of this version of hinge")
        return Kernel(Path(path).resolve())
    for kernel in current_kernels(cache(), *RELEASED):
        if kernel.is_whole:
            return kernel
    raise Missing("there is no kernel for simulated time of this version: `hinge kernel` builds one")
