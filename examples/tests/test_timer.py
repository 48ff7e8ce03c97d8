"""A retransmission timer that a link finds wrong: on a satellite it fires before an answer can be there.

A sender repeats each message until it is acknowledged. Over 20 ms both timers do. Over 270 ms each way the fixed one sends each message
three times, though the link loses none.
"""

import asyncio

import pytest


class Receiver(asyncio.DatagramProtocol):
    def connection_made(self, transport):
        self.transport = transport

    def datagram_received(self, data, source):
        self.transport.sendto(data, source)


class Sender(asyncio.DatagramProtocol):
    def __init__(self, kind):
        self.kind, self.answers, self.smooth, self.variation = kind, {}, None, 0

    def datagram_received(self, data, source):
        self.answers[data].set()

    def note(self, trip):  # RFC 6298
        self.variation = trip / 2 if self.smooth is None else 0.75 * self.variation + 0.25 * abs(self.smooth - trip)
        self.smooth = trip if self.smooth is None else 0.875 * self.smooth + 0.125 * trip

    def timer(self):
        return 0.2 if self.kind == "fixed" else 1 if self.smooth is None else max(self.smooth + 4 * self.variation, 0.2)


async def send(kind, count):
    loop, sent = asyncio.get_running_loop(), 0
    transport, sender = await loop.create_datagram_endpoint(lambda: Sender(kind), remote_addr=("10.0.0.2", 7))
    for message in (b"%d" % number for number in range(count)):
        begun, answer = loop.time(), sender.answers.setdefault(message, asyncio.Event())
        while not answer.is_set():
            transport.sendto(message)
            sent += 1
            await asyncio.wait([loop.create_task(answer.wait())], timeout=sender.timer())
        sender.note(loop.time() - begun)
    return sent


@pytest.mark.parametrize("line", ["8Mbit/s 20ms", "8Mbit/s 270ms"])
@pytest.mark.parametrize("kind", ["fixed", "adaptive"])
async def test_no_message_is_sent_twice(sim_net, kind, line, request):
    if (kind, line) == ("fixed", "8Mbit/s 270ms"):
        request.node.add_marker(pytest.mark.xfail(strict=True, reason="each message is sent three times"))
    client, server = sim_net.host("10.0.0.1"), sim_net.host("10.0.0.2")
    sim_net.path(client, server, line)
    await server.create_task(asyncio.get_running_loop().create_datagram_endpoint(Receiver, ("0.0.0.0", 7)))
    assert await client.create_task(send(kind, 50)) == 50
