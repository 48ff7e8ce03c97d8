"""Libraries whose calls block, in threads of the run: ntplib, dnslib with its server, python-can, and trio's timers."""

import asyncio
import struct

import pytest

STAMP = 2_208_988_800  # s from 1900 to 1970
LINK = pytest.mark.link("8Mbit/s 20ms")


def on(host, call):
    return host.create_task(asyncio.to_thread(call))


def now():
    return round(asyncio.get_running_loop().time(), 3)


class Clock(asyncio.DatagramProtocol):
    def connection_made(self, transport):
        self.transport = transport

    def datagram_received(self, data, source):
        self.transport.sendto(struct.pack("!B47x", 0x24), source)


@LINK
async def test_ntplib(pair, link_seed):
    ntplib = pytest.importorskip("ntplib", reason="no python3-ntplib")
    client, server = pair
    with pytest.raises(ntplib.NTPException):
        await on(client, lambda: ntplib.NTPClient().request("server.test", timeout=5))
    assert now() == 5
    await server.endpoint(Clock, 123)
    answer = await on(client, lambda: ntplib.NTPClient().request("server.test"))
    assert (now(), round(answer.dest_timestamp - STAMP - 1_700_000_000, 3)) == (5.04, 5.04)


@LINK
async def test_dnslib(pair, link_seed):
    dnslib = pytest.importorskip("dnslib", reason="no python3-dnslib")
    from dnslib.server import BaseResolver, DNSServer

    class Resolver(BaseResolver):
        def resolve(self, request, handler):
            reply = request.reply()
            reply.add_answer(*dnslib.RR.fromZone("a.test 60 A 192.0.2.1"))
            return reply

    client, server = pair
    await on(server, DNSServer(Resolver(), address="10.0.0.2", port=53).start_thread)
    data = await on(client, lambda: dnslib.DNSRecord.question("a.test").send("10.0.0.2", 53, timeout=2))
    assert (dnslib.DNSRecord.parse(data).short(), now()) == ("192.0.2.1", 0.04)


@LINK
async def test_can(pair, link_seed):
    can = pytest.importorskip("can", reason="no python3-can")
    client, server = pair

    def bus():
        return can.Bus(interface="udp_multicast", channel="239.74.163.2", port=43113)

    far, near = await on(server, bus), await on(client, bus)
    message = on(server, lambda: far.recv(5.0))
    await asyncio.sleep(1)
    await on(client, lambda: near.send(can.Message(arbitration_id=1, data=b"x")))
    assert (bytes((await message).data), now()) == (b"x", 1.02)


async def test_trio(pair, link_seed):
    trio = pytest.importorskip("trio", reason="no python3-trio")
    await on(pair[0], lambda: trio.run(trio.sleep, 3.5))
    assert now() == 3.5
