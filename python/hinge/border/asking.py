"""The client's end of a control socket, through which other processes send orders to a run."""

from __future__ import annotations

import os
import socket
import stat
import struct
from contextlib import contextmanager
from dataclasses import replace
from itertools import count
from typing import Iterator

from hinge.border.messages import Lines, Order, Reply, Strange, message_line, read_message
from hinge.border.scratch import holding
from hinge.run.names import running, socket_of
from hinge.run.words import Wrong

CREDENTIALS = struct.Struct("3i")
PATIENCE = 20.0  # s to wait for a reply: longer than a run works on an order, so that the run's refusal comes first
LONGEST_REPLY = 1 << 26  # bytes: a status needs some thousand for each link
LONGEST_ANSWER = 8192  # bytes of a simulated machine's reply
MOST_DOORS = 8  # descriptors with a reply
NUMBERS = count(1)  # of orders


def process_and_user(connection: socket.socket) -> tuple[int, int]:
    """Returns the numbers of the process that created the connection's other end, and of the process's user, as the system
    reports."""
    process, user, _ = CREDENTIALS.unpack(connection.getsockopt(socket.SOL_SOCKET, socket.SO_PEERCRED, CREDENTIALS.size))
    return process, user


def is_own(connection: socket.socket) -> bool:
    """Returns whether a process of this user created the connection's other end."""
    return process_and_user(connection)[1] == os.geteuid()


def is_socket(path: str) -> bool:
    return os.path.exists(path) and stat.S_ISSOCK(os.stat(path).st_mode)


@contextmanager
def short_path(path: str) -> Iterator[str]:
    """Yields another path of a socket, which fits into the system's limit of 107 bytes even if the folder has a long name."""
    with holding(os.path.dirname(path) or ".") as folder:
        yield f"/proc/self/fd/{folder}/{os.path.basename(path)}"


@contextmanager
def connected(path: str, patience: float = PATIENCE) -> Iterator[socket.socket]:
    """Yields a connection to a run of this user; `path` is the run's name or its control socket's path. Wrong: no run listens
    there, the run is another user's, or a call on the connection fails or takes longer than `patience` seconds."""
    path = socket_of(path)
    with socket.socket(socket.AF_UNIX, socket.SOCK_STREAM) as connection:
        try:
            connection.settimeout(patience)
            with short_path(path) as name:
                connection.connect(name)
            if not is_own(connection):
                raise Wrong(f"{path}: another user's process answers there")
            yield connection
        except FileNotFoundError:
            raise Wrong(f"{path}: no run has this name{running()}") from None
        except OSError as error:
            if isinstance(error, ConnectionRefusedError) and is_socket(path):
                raise Wrong(f"{path}: its run was killed and left this socket, which may be removed") from None
            raise Wrong(f"{path}: {error.strerror or error}") from None


def asked_at(path: str, order: Order, patience: float = PATIENCE) -> tuple[Reply, list[int]]:
    """Sends an order to a run. Returns the reply and the descriptors that come with the reply, such as the doors of a host's room.
    Wrong: no run answers in time, the run refuses the order or ends, or the reply belongs to another order."""
    order = replace(order, number=next(NUMBERS))
    with connected(path, patience) as connection:
        connection.sendall(message_line(order))
        lines = Lines(connection, LONGEST_REPLY, MOST_DOORS)
        try:
            text = lines.next(patience)
            reply = None if text is None else read_message(Reply, text)
        except Strange as strange:
            raise Wrong(f"{path}: no run of hinge answers there: {strange}") from None
    if reply is None:
        raise Wrong(f"{path}: the run has ended")
    if reply.refused is not None:
        raise Wrong(reply.refused)
    if reply.number != order.number:
        raise Wrong(f"{path}: the reply is that of another order")
    return reply, lines.doors


def ask(path: str, patience: float = PATIENCE, *, change: str | None = None, status: bool = False, end: bool = False) -> Reply:
    """Sends a change, or a request for the run's status or end; returns the reply. Wrong: as for `asked_at`."""
    return asked_at(path, Order(change=change, status=status, end=end), patience)[0]


def process_at(path: str) -> int:
    """Returns a descriptor of the run's process, which becomes readable when the process ends."""
    with connected(path) as connection:
        return os.pidfd_open(process_and_user(connection)[0])


def reached(path: str) -> int:
    """Connects to a socket. Returns 0 if a process listens, otherwise the error's number: ECONNREFUSED if no process listens."""
    with socket.socket(socket.AF_UNIX, socket.SOCK_STREAM | socket.SOCK_NONBLOCK) as connection, short_path(path) as name:
        return connection.connect_ex(name)


def is_answered(path: str) -> bool:
    return reached(path) == 0


def reply_to(path: str, words: str) -> str:
    """Sends a line to a simulated machine's first process, which listens at `path`; returns the reply."""
    with socket.socket(socket.AF_UNIX, socket.SOCK_STREAM) as connection:
        connection.connect(path)
        connection.sendall(os.fsencode(f"{words}\n"))
        return connection.recv(LONGEST_ANSWER).decode(errors="replace")
