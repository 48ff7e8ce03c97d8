"""Substitutes for the system's network during a run: datagram sockets and host names."""

from __future__ import annotations

import _multiprocessing  # type: ignore[import]
import _thread
import socket
import threading
from contextlib import ExitStack, contextmanager
from queue import SimpleQueue
from typing import TYPE_CHECKING, Any, Iterator
from unittest import mock

from hingetulip.aio.addresses import FLAGS
from hingetulip.aio.datagram_socket import DatagramSocket
from hingetulip.aio.libraries import libraries_adapted
from hingetulip.aio.real import real_refused
from hingetulip.aio.refusals import NO_COPY, RealTimeError
from hingetulip.aio.switched import Either, Function, of_run, switched
from hingetulip.aio.thread_functions import ThreadFunctions

if TYPE_CHECKING:
    from hingetulip.aio.baton import Baton
    from hingetulip.aio.network import Network

Lock: Any = _thread.LockType
LockAgain: Any = type(threading.RLock())
HANDLES = [getattr(_thread, name) for name in dir(_thread) if name == "_ThreadHandle"]  # the type of Python 3.13's threads
PROCESS_LOCKS = [_multiprocessing.SemLock] if hasattr(_multiprocessing, "SemLock") else []  # the type of locks between processes
VIRTUAL = (-1, socket.AF_INET, socket.AF_INET6)


def is_virtual(family: int, type: int, fileno: object) -> bool:
    """Returns whether a new socket belongs to a simulated host."""
    return fileno is None and family in VIRTUAL and type > 0 and type & ~FLAGS == socket.SOCK_DGRAM


def by_acquire(own: Function) -> Function:
    """Returns the run's version of another name for a lock's `acquire`, which calls the run's `acquire`."""
    return lambda *arguments, **keywords: getattr(own, "__objclass__").acquire(*arguments, **keywords)


def acquire_restore(own: Function) -> Function:
    """Returns the function by which a condition acquires a reentrant lock again, as often as before its wait."""

    def restore(lock: Any, state: Any) -> None:
        for _ in range(state[0]):
            lock.acquire()

    return restore


@contextmanager
def threads_held(baton: Baton) -> Iterator[None]:
    """Makes the run's threads yield instead of waiting, within the context."""
    in_run = ThreadFunctions(baton)
    functions: dict[Any, Either] = {
        (Lock, "acquire"): in_run.acquire,
        (LockAgain, "acquire"): in_run.acquire_again,
        **dict.fromkeys(((Lock, "acquire_lock"), (Lock, "__enter__"), (LockAgain, "__enter__")), by_acquire),
        (LockAgain, "_acquire_restore"): acquire_restore,
        (SimpleQueue, "get"): in_run.get,
        **{(kind, "acquire"): lambda own: in_run.acquire(own, is_of_process=True) for kind in PROCESS_LOCKS},
        **{(kind, "__enter__"): by_acquire for kind in PROCESS_LOCKS},
        **{(kind, "join"): in_run.join for kind in HANDLES},
        (_thread, "start_new_thread"): in_run.start_new_thread,
        (_thread, "start_new"): in_run.start_new_thread,
        (_thread, "start_joinable_thread"): in_run.start_joinable_thread,
        (_thread, "_set_sentinel"): in_run.set_sentinel,
    }
    of_run.update({threading.get_ident(), *baton.members})
    try:
        with switched(functions):
            yield
    finally:
        of_run.clear()


@contextmanager
def simulated_system(net: Network) -> Iterator[None]:
    """Lets this thread's new datagram sockets and host names belong to the network, and refuses real communication, within the
    context. RealTimeError, from a new socket: its descriptor is a simulated socket's."""
    own: Any = socket.socket.__new__

    def make(
        cls: type[socket.socket], family: int = -1, type: int = -1, proto: int = -1, fileno: Any = None, **more: Any
    ) -> socket.socket:
        if fileno in net.loop.descriptors.sockets:
            raise RealTimeError(NO_COPY)
        if cls is not socket.socket or threading.get_ident() not in of_run or not is_virtual(family, type, fileno):
            return own(cls)  # type: ignore[no-any-return]
        return own(type_of_socket)  # type: ignore[no-any-return]

    type_of_socket = type("DatagramSocket", (DatagramSocket,), {"net": net})
    with ExitStack() as stack:
        stack.enter_context(threads_held(net.loop.baton))
        stack.enter_context(real_refused(net.real_uses, net.loop.descriptors))
        stack.enter_context(mock.patch.object(socket.socket, "__new__", make))
        stack.enter_context(switched(net.names.functions()))
        stack.enter_context(libraries_adapted())
        yield
