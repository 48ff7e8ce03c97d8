"""The users in a run's rooms: this process's user, and subordinate users if the system provides some (subuid(5)).

With subordinate users, servers find the groups to which they assign files, such as the group of terminals."""

from __future__ import annotations

import grp
import os
import pwd
import shutil
from contextlib import suppress
from typing import NamedTuple, Optional

from hinge.border.files import read_system
from hinge.border.programs import asked, forked
from hinge.border.terminal import silence
from hinge.run.system import BIND, NEWNS, mount, unshare, write

FILES = {"uid": "/etc/subuid", "gid": "/etc/subgid"}
PROGRAMS = {"uid": "newuidmap", "gid": "newgidmap"}
TERMINALS, TERMINAL_MAKER = "/dev/pts", "/dev/ptmx"


class Subordinate(NamedTuple):
    first: int
    length: int


def subordinate(path: str, user: int) -> Optional[Subordinate]:
    """Returns the first range of subordinate users for a user in a file such as /etc/subuid; None if there is no range. The file
    contains the user's name or number."""
    names = {str(user)}
    with suppress(KeyError):
        names.add(pwd.getpwuid(user).pw_name)
    try:
        rows = [line.strip().split(":") for line in read_system(path).splitlines()]
    except OSError:
        return None
    for row in rows:
        if len(row) == 3 and row[0] in names and row[1].isdecimal() and row[2].isdecimal():
            return Subordinate(int(row[1]), int(row[2]))
    return None


def mapping(own: int, span: Subordinate) -> list[str]:
    """Returns arguments for newuidmap or newgidmap: the user (or group) keeps the number `own`, and the subordinate users get the
    other numbers from 0 on."""
    below = min(own, span.length)  # how many numbers are below the user's own
    parts = [(own, own, 1)]  # each has a number inside, the same user's number outside, and a length
    if below:
        parts.insert(0, (0, span.first, below))
    if own < span.length:
        parts.append((own + 1, span.first + below, span.length - below))
    return [str(number) for part in parts for number in part]


class Users:
    """Maps the users of a new user namespace. Create this object before this process leaves the system's users.

    A child process stays there, and maps the new namespace's users on request."""

    def __init__(self) -> None:
        self.child = 0  # no process
        self.own = {"uid": os.geteuid(), "gid": os.getegid()}
        programs = list[list[str]]()  # with their arguments
        for kind, path in FILES.items():
            span = subordinate(path, os.geteuid())
            if span:
                programs.append([PROGRAMS[kind], str(os.getpid()), *mapping(self.own[kind], span)])
        if len(programs) < len(FILES) or not all(map(shutil.which, PROGRAMS.values())):
            return
        read_end, self.write_end = os.pipe()
        self.child = forked(lambda: self.map_on_request(read_end, programs))
        os.close(read_end)

    def map_on_request(self, read_end: int, programs: list[list[str]]) -> int:
        """Runs the programs that map users and groups, after a byte arrives. Returns 0, or 1 if no byte arrives."""
        os.close(self.write_end)
        silence(2)  # a program may refuse, and then there is only this user
        if not os.read(read_end, 1):
            return 1
        for words in programs:
            asked(words)
        return 0

    def map(self, is_new: bool) -> None:
        """Maps the users if there is a new user namespace; without subordinate users, only this user."""
        has_others = False
        if self.child:
            if is_new:
                os.write(self.write_end, b"!")
            os.close(self.write_end)
            has_others = os.waitpid(self.child, 0)[1] == 0
        if is_new and not has_others:
            self.map_own()

    def map_own(self) -> None:
        """Maps only this process's user and group. PermissionError: the system refuses."""
        write("/proc/self/setgroups", "deny")
        for kind, own in self.own.items():
            try:
                write(f"/proc/self/{kind}_map", f"{own} {own} 1")
            except PermissionError:
                if not self.child:
                    raise
                # newuidmap has mapped users before newgidmap failed


def make_terminals() -> None:
    """Gives this process a new set of terminals that belongs to the terminals' group, as a login requires.

    If the system refuses, the process keeps the system's terminals."""
    with suppress(KeyError, OSError):
        group = grp.getgrnam("tty").gr_gid
        unshare(NEWNS)
        mount("devpts", TERMINALS, "devpts", 0, f"newinstance,ptmxmode=0666,mode=0620,gid={group}")
        mount(f"{TERMINALS}/ptmx", TERMINAL_MAKER, "none", BIND)
