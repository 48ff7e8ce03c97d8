"""Ports of this system behind the link, for --to: the client's `localhost:8000` leads over the link to the server's room, and from
there to this system's port 8000. Commands keep their addresses, no other program is needed, and only these ports lead out."""

from __future__ import annotations

import array
import errno
import socket
from contextlib import suppress
from typing import TYPE_CHECKING, Optional, Sequence

from hinge.border.programs import forked
from hinge.command import say
from hinge.run.system import Missing, die_with_parent, enter

if TYPE_CHECKING:
    from asyncio import StreamReader, StreamWriter

    from hinge.run.rooms import Rooms

WAITING = 128  # the most connections that a socket hasn't accepted yet
CHUNK = 1 << 16  # bytes
LOOPBACK = {socket.AF_INET: "127.0.0.1", socket.AF_INET6: "::1"}


async def carried(reader: StreamReader, writer: StreamWriter) -> None:
    """Copies a connection's bytes from `reader` to `writer` until the end of the bytes; breaks off the writer if either connection
    breaks off."""
    try:
        while data := await reader.read(CHUNK):
            writer.write(data)
            await writer.drain()
        writer.write_eof()
    except OSError:
        writer.transport.abort()


def relay(doors: Sequence[socket.socket], hosts: Sequence[str], why: str = "") -> None:
    """Forwards connections at each door (a listening socket) to the same port on the first host that accepts, forever. If no host
    accepts, breaks the connection off and prints `why`."""
    import asyncio  # which a run without such ports doesn't load

    async def forward(reader: StreamReader, writer: StreamWriter) -> None:
        port = writer.get_extra_info("sockname")[1]
        for host in hosts:
            with suppress(OSError):
                far_reader, far_writer = await asyncio.open_connection(host, port)
                await asyncio.gather(carried(reader, far_writer), carried(far_reader, writer))
                far_writer.close()
                writer.close()
                return
        if why:
            say(f"--to {port}: {why}")
        writer.transport.abort()

    async def serve() -> None:
        servers = [await asyncio.start_server(forward, sock=door) for door in doors]
        await asyncio.gather(*(server.serve_forever() for server in servers))

    asyncio.run(serve())


def door(family: socket.AddressFamily, address: str, port: int) -> Optional[socket.socket]:
    """Returns a socket that listens in the current network, or None if this is impossible for IPv6. Missing: the port is in use, or
    the system refuses it for IPv4."""
    sock = socket.socket(family, socket.SOCK_STREAM)
    sock.setsockopt(socket.SOL_SOCKET, socket.SO_REUSEADDR, 1)
    try:
        sock.bind((address, port))
    except OSError as error:
        if family == socket.AF_INET6:
            return None
        is_taken = error.errno == errno.EADDRINUSE
        reason = "the server listens at this port too; write another one for one of them" if is_taken else error.strerror
        raise Missing(f"--to {port}: {reason}") from None
    sock.listen(WAITING)
    return sock


class Ports:
    """Carries connections to ports of this system through the link. Create this object before this process leaves the system's
    network: a child process stays there, and forwards the connections that arrive in the server's room."""

    def __init__(self, ports: Sequence[int]) -> None:
        self.ports = ports
        self.front, back = socket.socketpair(socket.AF_UNIX, socket.SOCK_STREAM)
        forked(lambda: self.stay(back))
        back.close()

    def stay(self, back: socket.socket) -> None:
        """Receives the sockets that listen in the server's room, and forwards their connections to this system's ports, forever."""
        die_with_parent()
        self.front.close()
        descriptors = array.array("i")
        _, ancillary, _, _ = back.recvmsg(1, socket.CMSG_SPACE(len(self.ports) * descriptors.itemsize))
        for _, _, data in ancillary:
            descriptors.frombytes(data[: len(data) - len(data) % descriptors.itemsize])
        doors = [socket.socket(fileno=descriptor) for descriptor in descriptors]
        relay(doors, [*LOOPBACK.values()], "nothing listens at this system's port")

    def silent(self) -> list[int]:
        """Returns the ports at which no program of this system listens."""
        return [port for port in self.ports if not any(listens(family, port) for family in LOOPBACK)]

    def put_doors(self, rooms: Rooms) -> None:
        """Opens listening sockets in the server's room, and at the client's loopback addresses. Call this in the first process."""
        enter(rooms.server)
        server_doors = opened([door(socket.AF_INET, rooms.ends.server, port) for port in self.ports])
        descriptors = array.array("i", [sock.fileno() for sock in server_doors])
        self.front.sendmsg([b"!"], [(socket.SOL_SOCKET, socket.SCM_RIGHTS, descriptors)])
        enter(rooms.client)
        client_doors = opened([door(family, address, port) for port in self.ports for family, address in LOOPBACK.items()])
        forked(lambda: relay(client_doors, [rooms.ends.server]))
        for sock in (*server_doors, *client_doors):
            sock.close()
        enter(rooms.server)


def opened(doors: Sequence[Optional[socket.socket]]) -> list[socket.socket]:
    """Returns the doors without None."""
    return [sock for sock in doors if sock]


def listens(family: socket.AddressFamily, port: int) -> bool:
    """Returns whether a program listens at a port of this network's loopback."""
    with socket.socket(family, socket.SOCK_STREAM) as sock:
        return sock.connect_ex((LOOPBACK[family], port)) == 0
