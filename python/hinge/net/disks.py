"""Disks of hosts in simulated time. If a host crashes, its disks lose all writes that weren't synced."""

from __future__ import annotations

import os
import re
import shutil
from itertools import count
from typing import TYPE_CHECKING, Iterable, NamedTuple

from hinge.border.asking import reply_to
from hinge.net.statements import Statement
from hinge.run.system import NEWNS, Missing, join, unshare
from hinge.run.words import Wrong

if TYPE_CHECKING:
    from hinge.net.parts import NetHost

DISK = "disk HOST PATH [SIZE]"
PLACE = "/run/disks"  # of the simulated machine's first process
USUAL, LEAST, MOST = 64, 16, 65_536  # MiB; the least that has a journal
MAKER, PACKAGE = "mkfs.ext4", "e2fsprogs"
MAKERS = os.pathsep.join((os.environ.get("PATH", ""), "/usr/sbin", "/sbin"))
IN_REAL_TIME = "hosts have disks that a crash can empty in simulated time alone; add --simulated"


class Disk(NamedTuple):
    """Describes a host's disk."""

    path: str  # where its host finds it
    size: int  # MiB


def read_disk(statement: Statement) -> Disk:
    """Reads a disk: `/data`, or `data 256M` relative to the net file's folder; returns the disk. Wrong: the size is wrong."""
    path = os.path.abspath(os.path.join(os.path.dirname(statement.path), statement.take(DISK)))
    word = statement.take(DISK) if statement.peek() else f"{USUAL}M"
    match = re.fullmatch(r"(\d{1,5})([MG])", word, re.ASCII)
    size = int(match[1]) if match else 0  # MiB
    if match and match[2] == "G":
        size <<= 10
    if not LEAST <= size <= MOST:
        raise statement.wrong(word, f"no size from {LEAST}M to {MOST >> 10}G: {DISK}")
    statement.done(DISK)
    return Disk(path, size)


def refuse_disks(path: str, hosts: Iterable[NetHost], simulated: bool) -> None:
    """Checks that the hosts' disks can be created, if any host has disks. Wrong: the net runs in real time. Missing: the program
    that creates disks isn't installed."""
    if any(host.disks for host in hosts):
        if not simulated:
            raise Wrong(f"{path}: disk: {IN_REAL_TIME}")
        if shutil.which(MAKER, path=MAKERS) is None:
            raise Missing(f"{path}: disk: there is no {MAKER}: apt-get install {PACKAGE}")


def opened_mounts() -> list[int]:
    """Returns descriptors of this process's root and mount namespace."""
    return [os.open("/", os.O_RDONLY | os.O_CLOEXEC), os.open("/proc/thread-self/ns/mnt", os.O_RDONLY | os.O_CLOEXEC)]


def enter_mounts(mounts: list[int]) -> None:
    """Moves this process into a mount namespace, and there into the folder with the path of its working directory."""
    folder = os.getcwd()
    root, namespace = mounts
    join(namespace, NEWNS)
    os.fchdir(root)
    os.chroot(".")
    os.chdir(folder)


class Disks:
    """Holds the disks of all hosts. Create it in the first process, before any thread starts.

    A host with disks uses a mount namespace that outlives the host's processes, so a process that ends writes nothing to the
    disk.
    """

    def __init__(self, hosts: Iterable[NetHost]) -> None:
        numbers = count(1)
        self.of = {host.name: [(next(numbers), disk) for disk in host.disks] for host in hosts if host.disks}
        self.mounts: dict[str, list[int]] = {}
        own = opened_mounts() if self.of else []
        for name in self.of:
            unshare(NEWNS)
            self.mounts[name] = opened_mounts()
            self.ask("make", name)
            enter_mounts(own)

    def ask(self, does: str, host: str) -> None:
        """Makes the simulated machine's first process create a host's disks (`make`), or drop their unsynced writes (`lose`).
        Missing: the request failed."""
        for number, disk in self.of[host]:
            answer = reply_to(PLACE, f"{does} {number} {disk.size} {self.mounts[host][1]} {disk.path}")
            if answer != "done":
                raise Missing(f"disk {host} {disk.path}: {answer}")

    def enter(self, host: str) -> None:
        """Moves this process into a host's mount namespace, if the host has disks."""
        if host in self.mounts:
            enter_mounts(self.mounts[host])
