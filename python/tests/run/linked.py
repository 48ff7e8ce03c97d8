"""The host between two sockets, which needs no privilege, packets, and `hinge` itself, for all tests of this folder."""

import os
import re
import shutil
import signal
import socket
import struct
import subprocess
import sys
import tempfile
import time
import unittest
from contextlib import contextmanager
from functools import lru_cache
from pathlib import Path
from typing import Any, Callable, Iterator, Optional, Sequence, Union

from hinge.program import dummynet
from hinge.run.host import program
from hinge.run.host_lines import HostLines
from hinge.run.page import STARTING, Counts, Page
from hinge.run.plan import Plan
from hinge.run.summary import VOID
from hinge.run.system import Missing

HINGE = [sys.executable, "-m", "hinge"]
SEEDS = "seed 0 1\nseed 1 1\n"
AT_ONCE = 64  # packets that the host takes of a way before it looks round
Done = subprocess.CompletedProcess
Word = Union[str, Path]
CLIENT, SERVER = "10.8.0.1", "10.8.0.2"
AS_IN_A_CONTAINER = [
    *"unshare -m sh -c".split(),
    "mount --bind /proc/sys /proc/sys && mount -o remount,bind,ro /proc/sys && "
    'exec setpriv --bounding-set=-sys_admin --inh-caps=-sys_admin "$0" "$@"',
]  # root without its rights, and no setting to change


@lru_cache(maxsize=None)
def no_host() -> str:
    try:
        program()
        return ""
    except Missing as missing:
        return str(missing)


needs_host = unittest.skipIf(bool(no_host()), no_host())


def outcome(words: Sequence[object], **how: Any) -> Done[str]:
    """Runs a command, whose output is text."""
    return subprocess.run([*map(str, words)], capture_output=True, text=True, **{"timeout": 60, **how})


def hinge(command: str, *words: Word, seconds: float = 60, folder: Optional[Word] = None, **variables: str) -> Done[str]:
    how: dict[str, Any] = {"timeout": seconds, "stdin": subprocess.DEVNULL, "cwd": folder, "env": {**os.environ, **variables}}
    return outcome([*HINGE, command, *words], **how)


def run(*words: Word, seconds: float = 60) -> Done[str]:
    """Runs `hinge run`."""
    return hinge("run", *words, seconds=seconds)


@lru_cache(maxsize=None)
def no_rooms() -> str:
    """Returns why this machine or user can't create namespaces, or an empty text."""
    if no_host():
        return no_host()
    tried = run("--quiet", "--", "true")
    return "" if tried.returncode == 0 else tried.stderr.strip() or f"status {tried.returncode}"


def no_mounts() -> str:
    """Returns why a test can't mount what it needs, or an empty text."""
    if os.geteuid() != 0 or shutil.which("unshare") is None or shutil.which("setpriv") is None:
        return "only root can mount, and take its rights away, by unshare and setpriv"
    tried = subprocess.run(["unshare", "-m", "true"], capture_output=True, text=True)
    return tried.stderr.strip()


needs_rooms = unittest.skipIf(bool(no_rooms()), no_rooms())
needs_mounts = unittest.skipIf(bool(no_mounts()), no_mounts())
only_long = unittest.skipUnless(os.environ.get("HINGE_LONG"), "takes long: HINGE_LONG=yes tries it")


def needs(*programs: str) -> Callable[[type], type]:
    """Skips a test if this machine lacks a program."""
    lacking = [name for name in programs if shutil.which(name) is None]
    return unittest.skipIf(bool(lacking), f"there is no {', '.join(lacking)}")


def audited(path: Word) -> str:
    return subprocess.run([dummynet(), "audit", str(path)], capture_output=True, text=True).stdout.strip()


def ip4(src: str, dst: str, proto: int, sport: int, dport: int, length: int, tos: int = 0, fragment: int = 0) -> bytes:
    head = struct.pack("!BBHHHBBH4s4s", 0x45, tos, length, 0, fragment, 64, proto, 0, socket.inet_aton(src), socket.inet_aton(dst))
    return (head + struct.pack("!HH", sport, dport)).ljust(length, b"\0")


def udp(number: int, length: int = 40) -> bytes:
    return ip4(CLIENT, SERVER, 17, 1, number, length)


def ip6(src: str, dst: str, proto: int, body: bytes) -> bytes:
    ends = socket.inet_pton(socket.AF_INET6, src) + socket.inet_pton(socket.AF_INET6, dst)
    return struct.pack("!IHBB", 0x6 << 28, len(body), proto, 64) + ends + body


def until(holds: Callable[[], object], seconds: float = 60) -> None:
    end = time.monotonic() + seconds
    while not holds():
        if time.monotonic() > end:
            raise AssertionError(f"not so after {seconds} s")
        time.sleep(0.005)


def with_sigterm(process: int) -> bool:
    """Returns whether SIGTERM is pending for a process."""
    masks = re.findall(r"^S[a-z]+Pnd:\s+(\w+)$", Path(f"/proc/{process}/status").read_text(), re.M)
    return any(int(mask, 16) >> signal.SIGTERM - 1 & 1 for mask in masks)


@contextmanager
def web_server(folder: Word, address: str) -> Iterator[str]:
    """Returns the port of a server for this folder's files, outside all links."""
    words = [sys.executable, "-u", "-m", "http.server", "0", "--bind", address]
    with subprocess.Popen(words, cwd=folder, stdout=subprocess.PIPE, stderr=subprocess.DEVNULL, text=True) as server:
        try:
            yield found(r"port (\d+)", server.stdout.readline())[0]
        finally:
            server.terminate()


def state_of(process: int) -> str:
    """Returns a process's state as a letter: S while it sleeps, T while it is stopped."""
    return Path(f"/proc/{process}/stat").read_text().rpartition(")")[2].split()[0]


def matching(*words: str) -> list[int]:
    """Returns the processes that pgrep finds."""
    return [int(word) for word in subprocess.run(["pgrep", *words], stdout=subprocess.PIPE, text=True).stdout.split()]


@contextmanager
def crowded(process: int) -> Iterator[None]:
    """Makes a process share a processor with four programs that compute, at the lowest priority."""
    one = min(os.sched_getaffinity(0))
    os.sched_setaffinity(process, {one})
    os.setpriority(os.PRIO_PROCESS, process, 19)
    spins = [sys.executable, "-c", "while 1: pass"]
    loads = [subprocess.Popen(spins, preexec_fn=lambda: os.sched_setaffinity(0, {one})) for _ in range(4)]
    try:
        yield
    finally:
        for load in loads:
            load.kill(), load.wait()


@contextmanager
def stopped(process: int) -> Iterator[None]:
    """Stops a process during the block, so that its input waits."""
    os.kill(process, signal.SIGSTOP)
    try:
        until(lambda: state_of(process) == "T")
        yield
    finally:
        os.kill(process, signal.SIGCONT)


def plan_of(*lines: str) -> Plan:
    plan = Plan()
    for line in lines:
        plan.link(line)
    return plan


class Ended:
    """A link's result: its status, counts, transcript, and output."""

    def __init__(self, status: int, counts: Counts, history: str, said: str) -> None:
        self.status = status
        self.counts = counts
        self.history = history
        self.said = said


class Linked:
    """The host between two sockets, or between two sockets for each of several links, until `end`."""

    def __init__(
        self, plan: str, most: int = 10**9, carrier: Optional[str] = None, links: int = 1, descriptors: Sequence[int] = ()
    ) -> None:
        """With the carrier `tun` each packet follows a header. The plan names the additional descriptors, which the process
        inherits."""
        self.folder = tempfile.TemporaryDirectory()
        self.transcript = f"{self.folder.name}/session.history"
        pairs = [socket.socketpair(socket.AF_UNIX, socket.SOCK_SEQPACKET) for _ in range(2 * links)]
        self.ends = [own for own, _ in pairs]
        self.near, self.far = self.ends[:2]
        self.page = Page(2 * links)
        passed = [*(its.fileno() for _, its in pairs), self.page.descriptor]
        self.process = subprocess.Popen(
            [program(), *([carrier] if carrier else []), *map(str, passed)],
            pass_fds=[*passed, *descriptors],
            stdin=subprocess.PIPE,
            stderr=subprocess.PIPE,
        )
        self.process.stdin.write(f"transcript {most} {self.transcript}\n{plan}".encode())
        self.process.stdin.close()
        for _, its in pairs:
            its.close()
        until(lambda: self.page.head("state") != STARTING or self.process.poll() is not None)
        for own in self.ends:
            own.settimeout(60)

    def came(self) -> int:
        return self.page.read().ways[0]["came"]

    def ended(self) -> Ended:
        """Waits until the host ends by itself."""
        status = self.process.wait(60)
        with self.process.stderr as said, open(self.transcript) as history:
            return Ended(status, self.page.read(), history.read(), said.read().decode())

    def end(self) -> Ended:
        """Ends the host, and asserts that its transcript is lawful."""
        self.process.send_signal(signal.SIGTERM)
        ended = self.ended()
        assert re.fullmatch(r"lawful \d+", told := audited(self.transcript)), told
        return ended


def with_lines(plan: str, links: int = 1) -> tuple[Linked, HostLines]:
    """Returns a host that accepts lines while it runs."""
    lines = HostLines()
    os.set_inheritable(lines.descriptor(), True)
    return Linked(plan + lines.line(), links=links, descriptors=[lines.descriptor()]), lines


def run_in_time(case: unittest.TestCase, *words: Word) -> Done[str]:
    """Returns the first of several runs that was in time by its verdict; other runs' rates describe the machine, not the link."""
    for _ in range(4):
        done = run("--late", "5ms", *words)
        if done.returncode != VOID:
            return done
    case.skipTest(f"this machine is too busy: {done.stderr.splitlines()[-1]}")


def audited_as_lawful(case: unittest.TestCase, path: Word) -> None:
    case.assertRegex(audited(path), r"^lawful \d+$")


def found(pattern: str, text: str) -> list[str]:
    return re.findall(pattern, text, re.M)
