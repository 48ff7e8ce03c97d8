"""Two hosts that exchange datagrams in simulated time, and their sockets, for the tests of hingetulip.aio."""

import asyncio
import os
import socket
import subprocess
from pathlib import Path
from typing import Any, Awaitable, Optional

from hingetulip import aio

TOP = Path(__file__).resolve().parents[2]
PROGRAM = os.environ.get("DUMMYNET") or str(TOP / "dummynet")
ONE, OTHER = "10.0.0.1", "10.0.0.2"
ONE_OF_6, OTHER_OF_6 = "fd00::1", "fd00::2"


class Ends(asyncio.DatagramProtocol):
    """Keeps the arrivals with their moments, and sends them back on request."""

    def __init__(self, echoes: bool = False) -> None:
        self.echoes, self.got, self.faults = echoes, [], []

    def connection_made(self, transport: aio.Transport) -> None:
        self.transport = transport

    def datagram_received(self, data: bytes, source: aio.Address) -> None:
        self.got.append((data, source, self.transport.host.net.loop.clock.now))
        if self.echoes:
            self.transport.sendto(data, source)

    def error_received(self, error: Exception) -> None:
        self.faults.append(error)


async def opened(echoes: bool = False, local: aio.Address = ("0.0.0.0", 0), remote: Optional[aio.Address] = None) -> Ends:
    loop = asyncio.get_running_loop()
    return (await loop.create_datagram_endpoint(lambda: Ends(echoes), local, remote))[1]


async def exchange(net: aio.Network, count: int, pause: float) -> Ends:
    """The first host asks the second `count` times, and the second sends each question back."""
    one, other = list(net.hosts.values())[:2]

    async def ask() -> Ends:
        ends = await opened(remote=(other.address, 7))
        for number in range(count):
            ends.transport.sendto(b"%d" % number)
            await asyncio.sleep(pause)
        return ends

    await other.create_task(opened(True, ("0.0.0.0", 7)))
    return await one.create_task(ask())


def audited(history: Path) -> str:
    """What the program prints of a history."""
    return subprocess.run([PROGRAM, "audit", history], capture_output=True, text=True).stdout


def network(options: str, **more: object) -> aio.Network:
    net = aio.Network(**more)
    net.path(net.host("10.0.0.1"), net.host("10.0.0.2"), options)
    return net


def udp(family: int = socket.AF_INET) -> socket.socket:
    made = socket.socket(family, socket.SOCK_DGRAM)
    made.setblocking(False)
    return made


def on(net: aio.Network, address: str, what: Awaitable[Any]) -> Any:
    """What a coroutine returns that runs on a host."""

    async def main() -> Any:
        return await net.hosts[address].create_task(what)

    found = net.run(main())
    net.run(asyncio.sleep(1))
    assert net.faults == [], net.faults
    return found


def both(options: str = "8Mbit/s 20ms", **more: Any) -> aio.Network:
    net = aio.Network(**more)
    net.path(net.host(ONE, ONE_OF_6, name="one"), net.host(OTHER, OTHER_OF_6, name="other"), options)
    return net
