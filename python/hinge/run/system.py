"""Linux system calls that Python's standard library lacks before 3.12, for namespaces, mounts and capabilities."""

from __future__ import annotations

import ctypes
import errno
import os
import struct
from contextlib import suppress
from typing import Optional

from hinge.border.files import read_system
from hinge.border.scratch import held
from hinge.command import FILES, Fault
from hinge.run.steps import kept_as_step

# of unshare(2)
NEWNS = 0x00020000
NEWUTS = 0x04000000
NEWUSER = 0x10000000
NEWPID = 0x20000000
NEWNET = 0x40000000
BIND, REC, PRIVATE = 0x1000, 0x4000, 0x40000  # of mount(2)
DETACH = 2  # of umount2(2)
FROM_HERE, EXCHANGE = -100, 2  # of renameat2(2)
SET_PDEATHSIG, AMBIENT, AMBIENT_RAISE = 1, 47, 2  # of prctl(2)
KILL = 9
BIND_SERVICE, NET_ADMIN, NET_RAW = 10, 12, 13  # of capabilities(7)
CAPABILITY_VERSION = 0x20080522
CAPSET = {"x86_64": 126}.get(os.uname().machine, 91)  # 91 on aarch64 and riscv64
libc = ctypes.CDLL(None, use_errno=True)


class Missing(Fault):
    """Raised if the system lacks or refuses something; the message contains advice."""

    status = FILES


def is_simulated() -> bool:
    """Returns whether this process runs in a simulated machine, whose kernel alone has the file /proc/spun."""
    return os.path.exists("/proc/spun")


def must(result: int) -> None:
    """Checks the result of a system call. OSError: the result is negative; the error has the number from the C library."""
    if result < 0:
        number = ctypes.get_errno()
        raise OSError(number, os.strerror(number))


def exchange(first: str, second: str) -> None:
    """Swaps the names of two files or folders atomically."""
    must(libc.renameat2(FROM_HERE, os.fsencode(first), FROM_HERE, os.fsencode(second), EXCHANGE))


@kept_as_step
def unshare(flags: int) -> None:
    """Moves this process into new namespaces of the kinds in `flags`."""
    must(libc.unshare(flags))


def join(namespace: int, kind: int) -> None:
    """Joins a namespace of this kind through its descriptor."""
    must(libc.setns(namespace, kind))


@kept_as_step
def enter(network: int) -> None:
    """Enters a network namespace through its descriptor."""
    join(network, NEWNET)


def mount(source: str, target: str, kind: str, flags: int, more: Optional[str] = None) -> None:
    """Mounts a file system; `more` contains its options."""
    options = more.encode() if more else None
    must(libc.mount(os.fsencode(source), os.fsencode(target), kind.encode(), ctypes.c_ulong(flags), options))


def unmount(target: str) -> None:
    """Unmounts a file system, which remains until the last process stops using it."""
    must(libc.umount2(os.fsencode(target), DETACH))


def keep_mounts_to_itself() -> None:
    """Keeps this namespace's mounts from spreading to other namespaces.

    The kernel only accepts this at the root of a file system. A chroot's root usually isn't one; the call then uses the namespace's
    root, and returns to the chroot."""
    try:
        mount("none", "/", "none", REC | PRIVATE)
    except OSError as error:
        if error.errno != errno.EINVAL:
            raise
        root = held("/")
        folder = held(".")
        own_mounts = held("/proc/thread-self/ns/mnt")
        must(libc.setns(own_mounts, NEWNS))  # which also moves this process to the namespace's root
        mount("none", "/", "none", REC | PRIVATE)
        os.fchdir(root)
        os.chroot(".")
        os.fchdir(folder)


def die_with_parent(parent: int = 0, number: int = KILL) -> None:
    """Makes the kernel send this process a signal when the parent ends. If the process `parent` has already ended, sends the signal
    at once."""
    libc.prctl(SET_PDEATHSIG, number)
    if parent and os.getppid() != parent:
        os.kill(os.getpid(), number)


def keep_network_rights() -> None:
    """Lets later programs use raw sockets, ports below 1024 and the namespace's interfaces without root."""
    rights = (BIND_SERVICE, NET_ADMIN, NET_RAW)
    bits = sum(1 << right for right in rights)
    # The bits of the effective, permitted and inheritable rights, and then the higher bits of each.
    libc.syscall(CAPSET, struct.pack("Ii", CAPABILITY_VERSION, 0), struct.pack("6I", bits, bits, bits, 0, 0, 0))
    for right in rights:
        libc.prctl(AMBIENT, AMBIENT_RAISE, right, 0, 0)


def write(path: str, text: str) -> None:
    """Writes a text into a file."""
    with open(path, "w") as file:
        file.write(text)


@kept_as_step
def try_to_write(path: str, text: str) -> None:
    """Writes a kernel setting; does nothing if the setting doesn't exist or can't be written."""
    with suppress(OSError):
        write(path, text)


def setting(name: str) -> str:
    """Returns a kernel setting, or an empty text if it doesn't exist."""
    try:
        return read_system("/proc/sys/" + name).strip()
    except OSError:
        return ""
