"""twisted: DatagramProtocol over its reactor of asyncio, one for each host, and 60 questions."""

import asyncio

import pytest

pytest.importorskip("twisted.internet.asyncioreactor", reason="no python3-twisted")
from twisted.internet.asyncioreactor import AsyncioSelectorReactor  # noqa: E402
from twisted.internet.protocol import DatagramProtocol  # noqa: E402


class Echo(DatagramProtocol):
    def datagramReceived(self, data, source):
        self.transport.write(data, source)


class Asks(DatagramProtocol):
    def __init__(self, reactor):
        self.reactor = reactor
        self.asked = 0
        self.answers = 0
        self.refused = 0

    def startProtocol(self):
        self.transport.connect("10.0.0.2", 7)
        self.ask()

    def ask(self):
        self.transport.write(b"%d" % self.asked)
        self.asked += 1
        if self.asked < 60:
            self.reactor.callLater(1, self.ask)

    def datagramReceived(self, data, source):
        self.answers += 1

    def connectionRefused(self):
        self.refused += 1


async def serve(loop):
    AsyncioSelectorReactor(loop).listenUDP(7, Echo())


async def ask(loop):
    reactor = AsyncioSelectorReactor(loop)
    asks = Asks(reactor)
    port = reactor.listenUDP(0, asks)
    await asyncio.sleep(90)
    await port.stopListening().asFuture(loop)
    return asks


@pytest.mark.real("descriptors of the system")  # a reactor of Twisted wakes itself through a pair of sockets
@pytest.mark.link("8Mbit/s 20ms plr 0.1")
async def test_it(sim_net, pair, link_seed):
    (client, server), loop = pair, asyncio.get_running_loop()
    begins_late = link_seed % 2
    if not begins_late:
        await server.create_task(serve(loop))
    asking = client.create_task(ask(loop))
    await asyncio.sleep(10.5)
    if begins_late:
        await server.create_task(serve(loop))
    asks = await asking
    assert 20 < asks.answers <= 60 - 11 * begins_late
    assert asks.refused in (range(1, 12) if begins_late else [0])
