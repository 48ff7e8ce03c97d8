"""asyncio in simulated time: hosts whose datagrams pass emulated links, and a clock that jumps to the next event.

    import asyncio
    from hingetulip import aio

    async def main():
        net = aio.network()
        client, server = net.host("10.0.0.1"), net.host("10.0.0.2")
        net.path(client, server, "8Mbit/s 20ms plr 0.05")
        server.create_task(serve())      # the task, and its child tasks, run on the host `server`
        return await client.create_task(ask())

    print(aio.run(main(), seed=1))

Timers, datagram endpoints and datagram sockets are those of asyncio and Python, so that protocols run unchanged. Nothing waits: a
simulated minute lasts only as long as its computation. In a run's thread `time` and `datetime` return the simulated time, and
`random`, `secrets` and `os.urandom` depend on the seed. Equal seeds give equal runs, unless C code other than OpenSSL asks for the
time; preload the library that `hinge kernel --clock` names for such code.

There is no TCP. `hinge run --simulated` runs real programs with the kernel's TCP in simulated time.
"""

from __future__ import annotations

from hingetulip.aio import private_names
from hingetulip.aio.clock import Stuck
from hingetulip.aio.datagram import Address, Datagram, Dropped, Refusal
from hingetulip.aio.datagram_socket import DatagramSocket
from hingetulip.aio.disturbances import Disturbance, Unmet
from hingetulip.aio.host import Host, current_host
from hingetulip.aio.link import Link, Words
from hingetulip.aio.loop import Loop
from hingetulip.aio.network import Network, network, run
from hingetulip.aio.refusals import RealTimeError
from hingetulip.aio.task import Task
from hingetulip.aio.transport import Transport

private_names.check()

__all__ = [
    "Address",
    "Datagram",
    "DatagramSocket",
    "Disturbance",
    "Dropped",
    "Host",
    "Link",
    "Loop",
    "Network",
    "RealTimeError",
    "Refusal",
    "Stuck",
    "Task",
    "Transport",
    "Unmet",
    "Words",
    "current_host",
    "network",
    "run",
]
