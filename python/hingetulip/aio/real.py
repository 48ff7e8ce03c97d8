"""Refuses or reports real calls during a run in simulated time. Python's audit events reveal some calls in advance, which are
refused in the run's threads; others are reported."""

from __future__ import annotations

import functools
import os
import select
import socket
import sys
import threading
import time
from collections import Counter
from contextlib import contextmanager
from importlib import import_module
from typing import TYPE_CHECKING, Any, Iterator

from hingetulip.aio.addresses import FLAGS
from hingetulip.aio.border import CLOCK_LIBRARY, calls
from hingetulip.aio.refusals import ALLOWED, NO_TCP, OF_C, SOCKET, RealTimeError
from hingetulip.aio.selecting import Selecting
from hingetulip.aio.switched import Either, Function, note_all, of_run, switched
from hingetulip.aio.thread_functions import ThreadFunctions

if TYPE_CHECKING:
    from hingetulip.aio.descriptors import Descriptors

UNWATCHED = ["what C code did wasn't watched, without hinge-clock.so"] if CLOCK_LIBRARY is None else []
REACHING = ("socket.connect", "socket.bind", "socket.sendto", "socket.sendmsg")  # audit events of calls that reach the network
OF_PROCESSES = ("subprocess.Popen", "os.system", "os.fork", "os.forkpty", "os.posix_spawn", "os.exec", "pty.spawn")
SPAWNED = "_posixsubprocess.fork_exec"
UNHEARD = (  # functions without an audit event
    SPAWNED,
    "posix.timerfd_create",
    *(f"_signal.{name}" for name in ("alarm", "setitimer", "pause", "sigwait", "sigwaitinfo", "sigtimedwait")),
)


class RealUses:
    """The real calls during a network's runs, for the report. Allowed are system sockets in other threads, processes, calls of C
    code, and system descriptors that the loop watches."""

    def __init__(self) -> None:
        self.threads: dict[str, None] = {}  # the names of other threads that used system sockets, in order
        self.descriptors: dict[int, None] = {}  # the system's descriptors that the loop watches, in order
        self.calls = Counter[str]()  # the calls, by function
        self.refused = Counter[str]()  # the refused calls, by reason
        self.has_threads_of_c = False
        install_hook()

    def count_event(self, event: str, arguments: Any) -> None:
        """Counts a call that Python's audit hook reports. RealTimeError: a thread of the run uses a system socket."""
        if event in OF_PROCESSES:
            self.calls[event] += 1
        elif arguments[0].family == socket.AF_UNIX:
            return  # reaches programs on this machine only, and counts as a call of C code
        elif threading.get_ident() in of_run:
            is_tcp = is_stream(arguments[0]) and arguments[0].family in (socket.AF_INET, socket.AF_INET6)
            why = NO_TCP if is_tcp else SOCKET + ALLOWED
            self.refused[why] += 1
            raise RealTimeError(why)
        else:
            self.threads[threading.current_thread().name] = None

    def has_processes(self) -> bool:
        """Returns whether the run started processes, and this process still has a child."""
        if not any(self.calls[name] for name in (*OF_PROCESSES, SPAWNED)):
            return False
        try:
            os.waitid(os.P_ALL, 0, os.WEXITED | os.WNOHANG | os.WNOWAIT)
        except ChildProcessError:
            return False
        return True

    def counted(self, name: str) -> Either:
        """Returns the maker of a version that counts calls, for a function without an audit event. Calls from the module
        `subprocess` don't count here, since an audit event of that module counts them."""

        def in_run(own: Function) -> Function:
            def call(*arguments: Any, **keywords: Any) -> Any:
                if name != SPAWNED or sys._getframe(2).f_globals.get("__name__") != "subprocess":
                    self.calls[name] += 1
                return own(*arguments, **keywords)

            return call

        return in_run

    def gather(self) -> None:
        """Adds the calls of C code so far, if a run of this network is under way."""
        if watches and watches[-1] is self:
            self.calls.update(calls())

    def all(self) -> Counter[str]:
        """Returns how often each real function was called. Each thread and each descriptor counts once."""
        self.gather()
        counts = Counter({f"the thread {name} used a socket of the system": 1 for name in self.threads})
        if self.descriptors:
            numbers = ", ".join(map(str, self.descriptors))
            counts[f"the loop waited for descriptors of the system ({numbers})"] = len(self.descriptors)
        return counts + self.calls

    def lines(self) -> list[str]:
        """Returns the report's lines, including refusals, since libraries may hide these errors."""
        lines = []
        for name, count in self.all().items():
            times = f", {count} calls" if count > 1 else ""
            lines.append(f"real: {name}{times}")
        lines += [f"real: {text}" for text in UNWATCHED]
        if self.has_threads_of_c:
            lines.append(OF_C)
        return lines + [f"refused, {count} calls: {why}" for why, count in self.refused.items()]


class Sum:
    """The real calls and refusals in all runs since the last reset, for a report on several runs."""

    def __init__(self) -> None:
        self.runs = 0
        self.calls = Counter[str]()
        self.refused = 0

    def add(self, calls: Counter[str], refused: int) -> None:
        """Adds a run's calls, and its number of refusals."""
        self.runs += 1
        self.calls = self.calls + calls
        self.refused += refused

    def taken(self) -> Sum:
        """Returns the sum so far, and resets this sum."""
        total = Sum()
        total.__dict__, self.__dict__ = self.__dict__, total.__dict__
        return total


OF_PROCESS = Sum()


def threads_of_c() -> set[str]:
    """Returns this process's threads that began in C code."""
    return set(os.listdir("/proc/self/task")) - {str(thread.native_id) for thread in threading.enumerate()}


def is_stream(sock: socket.socket) -> bool:
    """Returns whether a socket is a stream, as for TCP."""
    return sock.type & ~FLAGS == socket.SOCK_STREAM


def family_of(descriptor: int) -> int:
    """Returns the family of a system socket; AF_UNIX for other descriptors."""
    copy = os.dup(descriptor)
    try:
        sock = socket.socket(fileno=copy)
    except OSError:
        os.close(copy)
        return socket.AF_UNIX
    with sock:
        return sock.family


COUNTED = frozenset(REACHING + OF_PROCESSES)
watches: list[RealUses] = []  # the real uses of the run that is under way, if there is a run


def hook(event: str, arguments: Any) -> None:
    """Counts a call as Python's audit hook, and forgets the known C functions at an import."""
    if event == "import":
        note_all.cache_clear()
    if watches and event in COUNTED:
        watches[-1].count_event(event, arguments)


@functools.lru_cache(None)
def install_hook() -> None:
    """Adds the audit hook, once, since hooks can't be removed."""
    sys.addaudithook(hook)
    note_all.cache_clear()


@contextmanager
def real_refused(uses: RealUses, descriptors: Descriptors) -> Iterator[None]:
    """Watches calls that leave the simulated time, such as system sockets and new processes, while the context lasts. In the
    run's threads, system sockets are refused and `time.sleep`, `select` and `poll` are replaced; other calls are counted in
    `uses`."""
    selecting = Selecting(descriptors)
    functions: dict[tuple[Any, str], Either] = {
        (time, "sleep"): ThreadFunctions(descriptors.loop.baton).sleep,
        (select, "select"): selecting.select,
        (type(select.poll()), "poll"): selecting.poll,
        (select.epoll, "poll"): selecting.epoll,
        **descriptors.functions(),
    }
    for name in UNHEARD:
        module, _, function = name.partition(".")
        functions[import_module(module), function] = uses.counted(name)
    calls_before = uses.all()
    refused_before = sum(uses.refused.values())
    c_threads_before = threads_of_c()
    watches.append(uses)
    try:
        with switched(functions):
            yield
    finally:
        uses.gather()
        watches.pop()
        OF_PROCESS.add(uses.all() - calls_before, sum(uses.refused.values()) - refused_before)
        members = {member.native_id for member in descriptors.loop.baton.members.values()}
        uses.has_threads_of_c = bool(threads_of_c() - c_threads_before - members)
