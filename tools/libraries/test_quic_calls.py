"""aioquic's calls to open its sockets: an IPv6 socket that also accepts IPv4, bound and passed to the loop."""

import asyncio
import socket

import pytest


class Echo(asyncio.DatagramProtocol):
    def connection_made(self, transport):
        self.transport = transport

    def datagram_received(self, data, source):
        self.transport.sendto(data, source)


class Asks(asyncio.DatagramProtocol):
    def __init__(self):
        self.answer = None

    def datagram_received(self, data, source):
        if self.answer is not None and not self.answer.done():
            self.answer.set_result(source)


async def serve(loop):
    await loop.create_datagram_endpoint(Echo, local_addr=("::", 4433))


async def connect(loop, family):
    address = (await loop.getaddrinfo("server.test", 4433, family=family, type=socket.SOCK_DGRAM))[0][4]
    if len(address) == 2:
        address = ("::ffff:" + address[0], address[1], 0, 0)
    own = socket.socket(socket.AF_INET6, socket.SOCK_DGRAM)
    own.setsockopt(socket.IPPROTO_IPV6, socket.IPV6_V6ONLY, 0)
    own.bind(("::", 0, 0, 0))
    transport, asks = await loop.create_datagram_endpoint(Asks, sock=own)
    for _ in range(30):
        asks.answer = loop.create_future()
        while not asks.answer.done():
            transport.sendto(bytes(1200), address)
            await asyncio.wait({asks.answer}, timeout=0.2)
        assert asks.answer.result() == address
    transport.close()


@pytest.mark.link("8Mbit/s 20ms plr 0.1")
async def test_it(sim_net, pair, link_seed):
    (client, server), loop = pair, asyncio.get_running_loop()
    await server.create_task(serve(loop))
    await client.create_task(connect(loop, socket.AF_INET6 if link_seed % 2 else 0))
