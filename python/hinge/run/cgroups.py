"""Cgroups for hosts, if this user may create cgroups.

All processes in a cgroup are frozen or killed at the same moment, and no program notices through a signal."""

from __future__ import annotations

import binascii
import contextlib
import fcntl
import os
import re
import time
from pathlib import Path
from typing import Optional

from hinge.border.files import read_text
from hinge.border.scratch import held, holding
from hinge.run.system import write

MOUNT = re.compile(r"^\d+ \d+ \S+ (\S+) (\S+) .* - cgroup2 ", re.MULTILINE)  # the mounted part of the tree, and the mount's place
PATIENCE = 2.0  # s for an event of a cgroup
POLL = 0.001  # s between looks at the events
LINKS_FILES = ("cgroup.freeze", "cgroup.kill", "cgroup.events")  # the files that the process with the links uses for acts on hosts
FILES = (*LINKS_FILES, "cgroup.procs")  # `hinge exec` writes into the last file
NAME = re.compile("hinge-([0-9a-f]{12})[0-9a-f]{8}-(.*)")  # the name of a cgroup from the kit: a number, its checksum, and a host


def name_of(number: str, host: str) -> str:
    """Returns the name of a host's cgroup. A checksum in the name shows that the kit created the cgroup: a later mark would be
    missing if this process were killed before it set the mark."""
    return f"hinge-{number}{binascii.crc32(number.encode()):08x}-{host}"


def locked(folder: Path) -> int:
    """Creates a cgroup and locks its folder; returns the folder's descriptor. Another run may remove the cgroup before the lock,
    which then is created again."""
    while True:
        folder.mkdir()
        with contextlib.suppress(FileNotFoundError):
            lock = held(folder)
            fcntl.flock(lock, fcntl.LOCK_EX)
            if folder.exists():
                return lock
            os.close(lock)


class Cgroup:
    """Holds a host's cgroup. This process locks the cgroup's folder, so that later runs recognize cgroups of killed runs."""

    def __init__(self, folder: Path) -> None:
        self.folder = folder
        self.lock = locked(folder)
        self.reports_waits = (folder / "cpu.pressure").exists()
        self.descriptors: dict[str, int] = {}
        for name in FILES:
            flags = os.O_RDONLY if name == "cgroup.events" else os.O_WRONLY
            self.descriptors[name] = os.open(folder / name, flags)

    def write(self, name: str, text: str) -> bool:
        """Writes a text into a file of the cgroup; returns whether the kernel accepted the text."""
        try:
            write(str(self.folder / name), text)
            return True
        except OSError:
            return False

    def wait_for(self, event: str) -> bool:
        """Waits a short time until cgroup.events contains a line such as `populated 0`; returns whether the file contains the
        line."""
        until = time.monotonic() + PATIENCE
        while event not in read_text(self.folder / "cgroup.events").splitlines():
            if time.monotonic() > until:
                return False
            time.sleep(POLL)
        return True

    def has_nothing(self) -> bool:
        """Returns whether the cgroup contains no process now."""
        return "populated 0" in read_text(self.folder / "cgroup.events").splitlines()

    def hold(self) -> bool:
        """Freezes all processes; returns whether the kernel accepted this. Each process stops at the end of its current system
        call."""
        return self.write("cgroup.freeze", "1")

    def kill(self) -> bool:
        """Kills all processes; returns whether the kernel accepted this."""
        return self.write("cgroup.kill", "1")

    def is_empty(self) -> bool:
        """Waits a short time after a kill for the processes' ends; returns whether no process remains."""
        return self.wait_for("populated 0")

    def empty(self) -> None:
        """Kills all processes while they are frozen, so that no process sees another process end. Later processes are frozen only
        if the cgroup was frozen before."""
        if self.has_nothing():
            return  # since each write to a cgroup delays the links' acts
        earlier_state = read_text(self.folder / "cgroup.freeze").strip()
        if self.hold() and self.kill():
            self.is_empty()
        self.write("cgroup.freeze", earlier_state)

    def waited(self) -> Optional[float]:
        """Returns the time in ms for which processes waited for a processor, if the system reports it."""
        if not self.reports_waits:
            return None
        match = re.search(r"^some .*total=(\d+)$", read_text(self.folder / "cpu.pressure"), re.MULTILINE)
        return int(match[1]) / 1e3 if match else None

    def join(self) -> None:
        """Moves this process into the cgroup."""
        self.write("cgroup.procs", "0")

    def remove(self) -> None:
        """Kills the cgroup's processes, removes the cgroup unless something else remains there, and closes the descriptors."""
        self.kill()
        self.is_empty()
        with contextlib.suppress(OSError):  # another program made a cgroup there
            self.folder.rmdir()
        for descriptor in (self.lock, *self.descriptors.values()):
            os.close(descriptor)


def remove_left(folder: Path) -> None:
    """Removes the kit's empty cgroups in a folder that no process locks, since their runs were killed."""
    for path in folder.iterdir():
        match = NAME.fullmatch(path.name)
        if match and path.name == name_of(*match.groups()):
            with contextlib.suppress(OSError), holding(path) as place:
                fcntl.flock(place, fcntl.LOCK_EX | fcntl.LOCK_NB)
                path.rmdir()


def own_folder() -> Optional[Path]:
    """Returns the folder of this process's cgroup, or None if the folder isn't visible in this namespace."""
    mount = MOUNT.search(read_text("/proc/self/mountinfo"))
    if not mount:
        return None
    top, place = mount.groups()
    own = re.search(r"^0::(\S+)$", read_text("/proc/self/cgroup"), re.MULTILINE)
    if not own or not f"{own[1]}/".startswith(top.rstrip("/") + "/"):
        return None
    return Path(place) / os.path.relpath(own[1], top)


class Cgroups:
    """Holds a cgroup for each host, from the host's first command or act to the run's end."""

    def __init__(self) -> None:
        self.made: dict[str, Cgroup] = {}  # by hosts
        self.number = os.urandom(6).hex()  # in the names of this run's cgroups
        self.folder: Optional[Path] = None  # the folder of this process's cgroup, which contains the hosts' cgroups

    def of(self, host: str) -> Optional[Cgroup]:
        """Returns the host's cgroup, or None if this user can't create one."""
        if host not in self.made:
            try:
                if self.folder is None:
                    self.folder = own_folder()
                    if self.folder is None:
                        return None
                    remove_left(self.folder)
                self.made[host] = Cgroup(self.folder / name_of(self.number, host))
            except OSError:
                return None
        return self.made[host]

    def remove(self) -> None:
        """Kills the processes in all hosts' cgroups, and removes the cgroups."""
        for cgroup in self.made.values():
            cgroup.remove()
        self.made.clear()
