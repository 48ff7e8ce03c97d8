"""The doors to a run's rooms: descriptors of the first process's root and namespaces, and of a room's network.

Through these descriptors another process enters the room, and runs a command there like the run's commands."""

from __future__ import annotations

import os
import socket
from typing import Optional, Sequence

from hinge.border.scratch import held
from hinge.run.processes import Mask
from hinge.run.rooms import start
from hinge.run.system import NEWNET, NEWNS, NEWPID, NEWUSER, NEWUTS, die_with_parent, join, unshare

KINDS = (("user", NEWUSER), ("mnt", NEWNS), ("pid", NEWPID))  # the namespaces, in the order of entering
DOORS = len(KINDS) + 2  # with the root and a room's network; a last door may be cgroup.procs in a cgroup's folder


class Doors:
    """Holds the doors that all rooms share. Create this object in the first process."""

    def __init__(self) -> None:
        self.shared = [held("/"), *(held(f"/proc/thread-self/ns/{kind}") for kind, _ in KINDS)]

    def to(self, network: int, mounts: Optional[list[int]] = None) -> list[int]:
        """Returns the doors to the room with this network. `mounts` are the room's own root and mount namespace, if any."""
        root, users, mount_namespace, processes = self.shared
        if mounts:
            root, mount_namespace = mounts
        return [root, users, mount_namespace, processes, network]


def is_here(namespace: int, kind: str) -> bool:
    """Returns whether this process is already in the namespace. Linux refuses to enter it twice."""
    return os.fstat(namespace).st_ino == os.stat(f"/proc/self/ns/{kind}").st_ino


def started_behind(doors: Sequence[int], host: str, words: Sequence[str], mask: Mask) -> int:
    """Moves this process into a run's namespaces, and starts a command in the room behind `doors`, with the host's name; returns
    the command's process. This process's later children also run there, and end with the run."""
    folder = os.getcwd()
    root, *namespaces, network = doors[:DOORS]
    others = [(namespace, flag) for (kind, flag), namespace in zip(KINDS, namespaces) if not is_here(namespace, kind)]
    for namespace, flag in others:
        join(namespace, flag)
    os.fchdir(root)
    os.chroot(".")

    def enter_room() -> None:
        die_with_parent()
        for cgroup in doors[DOORS:]:
            os.write(cgroup, b"0")
        join(network, NEWNET)
        unshare(NEWUTS)
        socket.sethostname(host)
        os.chdir(folder)

    has_new_users = any(flag == NEWUSER for _, flag in others)
    return start(words, mask, enter_room, has_new_users)
