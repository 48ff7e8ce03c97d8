"""Explains in a line why a machine ended before its job, from its kernel's last messages and this process's limits."""

from __future__ import annotations

import os
import re
import resource
from typing import Optional

GAP = 1 << 30  # bytes of addresses that a machine needs in addition to its memory
# Limits that programs share with their machine: the limit, its subject, ulimit's option, and the machine's least.
NEEDED = (
    (resource.RLIMIT_NOFILE, "open files", "-Hn", 64),
    (resource.RLIMIT_NPROC, "processes", "-Hu", 64),  # root has no such limit
)
TRACED = re.compile(r"ptrace: (?:Operation not permitted|Permission denied)|check_ptrace|PTRACE_\w+ failed|errno = 1\b")
NO_MEMORY = re.compile(r"errno = -12\b|Cannot allocate memory")
NO_ROOM = re.compile(r"No space left on device|errno = -28\b")


def system_limit(kind: int) -> Optional[int]:
    """Returns a limit on this process, if there is one."""
    soft, _ = resource.getrlimit(kind)
    return None if soft == resource.RLIM_INFINITY else soft


def raise_limits() -> None:
    """Raises the limits of this process as far as the system allows. The kernel's process opens all files of a machine's programs,
    and each program is a process of this system."""
    for kind, _, _, _ in NEEDED:
        _, most = resource.getrlimit(kind)
        resource.setrlimit(kind, (most, most))


def too_few() -> Optional[str]:
    """Returns a message about a limit that is too low for any machine, if any."""
    for kind, what, option, least in NEEDED:
        _, most = resource.getrlimit(kind)
        if most != resource.RLIM_INFINITY and most < least and (kind != resource.RLIMIT_NPROC or os.geteuid()):
            return f"the limit of {what} is {most}, and a machine needs {least} at least: ulimit {option} 1024, before"
    return None


def why(log: str, memory: int) -> Optional[str]:
    """Returns the cause of a machine's early end, if known. `memory` is the machine's memory in bytes."""
    size = system_limit(resource.RLIMIT_FSIZE)
    addresses = system_limit(resource.RLIMIT_AS)
    if TRACED.search(log):
        return (
            "the system keeps a process from tracing another one (ptrace), by which a machine runs programs: "
            "in a container, docker run --cap-add SYS_PTRACE, or --security-opt seccomp=unconfined"
        )
    if size is not None and size < memory + GAP:
        return f"the limit of a file's size is {size >> 10} KB, and a machine's memory is a file of some GB: ulimit -f unlimited"
    if addresses is not None and addresses < memory + GAP:
        return (
            f"the limit of addresses is {addresses >> 20} MB, and a machine takes {GAP >> 20} MB beside its memory of "
            f"{memory >> 20} MB: ulimit -v unlimited, or --memory with less"
        )
    if NO_MEMORY.search(log):
        return f"the system doesn't give it {memory >> 20} MB of memory: --memory asks for less"
    if NO_ROOM.search(log):
        return "the place of its memory is full: --memory asks for less"
    return None
