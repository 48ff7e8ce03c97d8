"""A handshake as QUIC has it, over a link that loses a fifth of its packets: 200 seeds in a second, and the slowest of them told.

The client sends 1,200 bytes, and the server three packets in answer to each. The client is done when it has all three, and repeats after
1, 2, 4 .. 8 s. One round trip without loss is 100 ms.
"""

import asyncio

from hingetulip import aio

PARTS = (b"initial", b"certificate", b"finished")


class Server(asyncio.DatagramProtocol):
    def connection_made(self, transport):
        self.transport = transport

    def datagram_received(self, data, source):
        for part in PARTS:
            self.transport.sendto(part.ljust(1200), source)


class Client(asyncio.DatagramProtocol):
    def __init__(self):
        self.missing, self.done = set(PARTS), asyncio.Event()

    def datagram_received(self, data, source):
        self.missing.discard(data.rstrip())
        if not self.missing:
            self.done.set()


async def handshake():
    net, loop = aio.network(), asyncio.get_running_loop()
    client, server = net.host("10.0.0.1"), net.host("10.0.0.2")
    net.path(client, server, "10Mbit/s 50ms plr 0.2")

    async def connect():
        transport, mine = await loop.create_datagram_endpoint(Client, remote_addr=("10.0.0.2", 443))
        for wait in (1, 2, 4, *[8] * 9):
            transport.sendto(bytes(1200))
            try:
                await asyncio.wait_for(mine.done.wait(), wait)
                return loop.time()
            except asyncio.TimeoutError:
                pass
        raise ConnectionError(f"parts that never came: {mine.missing}")

    await server.create_task(loop.create_datagram_endpoint(Server, ("0.0.0.0", 443)))
    return await client.create_task(connect())


def test_200_seeds(tmp_path):
    took = {seed: aio.run(handshake(), seed=seed, history=tmp_path / f"seed{seed}.history") for seed in range(1, 201)}
    fast = [seed for seed in took if took[seed] < 0.2]
    slowest = max(took, key=took.get)
    print(f"{len(fast)} of 200 took one round trip; seed {slowest} took {took[slowest]:.3f} s: hinge look {tmp_path}")
    assert 60 <= len(fast) <= 104  # 0.8^4 of 200 are 82, and 22 three deviations
    assert took[slowest] == aio.run(handshake(), seed=slowest)
