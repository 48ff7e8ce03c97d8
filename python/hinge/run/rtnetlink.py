"""Requests to the kernel about the current network namespace through rtnetlink(7), singly or as batches in a few messages."""

from __future__ import annotations

import fcntl
import os
import socket
import struct
from contextlib import contextmanager
from typing import Iterable, Iterator, NamedTuple

from hinge.run.steps import kept_as_step

REQUEST, ACKNOWLEDGED, CREATE = 1, 4, 0x400  # NLM_F_REQUEST, NLM_F_ACK and NLM_F_CREATE
OF_NETLINK, SHORT_ANSWERS = 270, 10  # SOL_NETLINK, NETLINK_CAP_ACK: an error's reply doesn't repeat the request
SIOCGIFINDEX = 0x8933
MOST_AT_ONCE = 8192  # bytes of a batch, so that the socket has room for the replies to all requests
HEADER = struct.Struct("IHHII")  # struct nlmsghdr: length, kind, flags, number, port
SHARED = list[socket.socket]()  # the socket for all requests in a `one_socket` block, if any


class Request(NamedTuple):
    """Describes a request to the kernel."""

    kind: int
    body: bytes
    may_fail: bool = False  # for example because the system has no IPv6


def packed(attributes: Iterable[tuple[int, bytes]]) -> bytes:
    """Returns the bytes of attributes, each of which has a number and data."""
    return b"".join(struct.pack("HH", 4 + len(data), number) + data + bytes(-len(data) % 4) for number, data in attributes)


@contextmanager
def kernel_socket() -> Iterator[socket.socket]:
    """Yields a socket to the kernel: the shared socket in a `one_socket` block, otherwise a new one."""
    if SHARED:
        yield SHARED[0]
        return
    with socket.socket(socket.AF_NETLINK, socket.SOCK_RAW, 0) as sock:
        sock.setsockopt(OF_NETLINK, SHORT_ANSWERS, 1)
        yield sock


@contextmanager
def one_socket() -> Iterator[None]:
    """Uses a single socket for all requests in the block, which must stay in the current namespace."""
    with kernel_socket() as sock:
        SHARED.append(sock)
        try:
            yield
        finally:
            SHARED.clear()


@kept_as_step
def index_of(name: str) -> int:
    """Returns the kernel's number for an interface."""
    with kernel_socket() as sock:
        request = struct.pack("16s24x", name.encode())
        return int(struct.unpack_from("i", fcntl.ioctl(sock, SIOCGIFINDEX, request), 16)[0])


def answers(sock: socket.socket, last: int) -> Iterator[tuple[int, int]]:
    """Yields the number of the request and the error's number for each reply, up to the reply to request `last`."""
    number = 0
    while number != last:
        data = sock.recv(1 << 16)
        while data:
            length, _, _, number, _ = HEADER.unpack_from(data)
            yield number, -struct.unpack_from("i", data, HEADER.size)[0]
            data = data[length + -length % 4 :]


def messages(requests: list[Request]) -> bytes:
    """Returns the bytes of messages for requests, which are numbered from 1. The kernel replies to a request that fails, and to the
    last."""
    parts = []
    for number, (kind, body, _) in enumerate(requests, 1):
        flags = REQUEST | CREATE
        if number == len(requests):
            flags |= ACKNOWLEDGED
        parts += [HEADER.pack(HEADER.size + len(body), kind, flags, number, 0), body]
    return b"".join(parts)


@kept_as_step
def send_batch(data: bytes, requests: list[Request]) -> None:
    """Sends the messages for requests, and waits for the reply to the last request. OSError: a request failed, and wasn't allowed
    to fail."""
    with kernel_socket() as sock:
        sock.send(data)
        errors = [error for number, error in answers(sock, len(requests)) if error and not requests[number - 1].may_fail]
    if errors:
        raise OSError(errors[0], os.strerror(errors[0]))


def ask_many(requests: Iterable[Request]) -> None:
    """Sends requests in order, in batches. OSError: a request failed, and wasn't allowed to fail; later batches aren't sent."""
    batch = list[Request]()
    size = 0  # bytes
    for request in requests:
        batch.append(request)
        size += HEADER.size + len(request.body)
        if size >= MOST_AT_ONCE:
            send_batch(messages(batch), batch)
            batch = []
            size = 0
    if batch:
        send_batch(messages(batch), batch)


def ask_kernel(kind: int, body: bytes, attributes: Iterable[tuple[int, bytes]]) -> None:
    """Sends a single request. An ioctl in place of it would need root in some cases."""
    ask_many([Request(kind, body + packed(attributes))])
