"""Look-ups by dnspython, unchanged, while a fifth of the packets is lost each way."""

import asyncio

import pytest

dns = pytest.importorskip("dns", reason="no python3-dnspython")
import dns.asyncresolver  # noqa: E402
import dns.exception  # noqa: E402
import dns.message  # noqa: E402
import dns.rrset  # noqa: E402


class Server(asyncio.DatagramProtocol):
    def connection_made(self, transport):
        self.transport = transport

    def datagram_received(self, data, source):
        asked = dns.message.from_wire(data)
        answer = dns.message.make_response(asked)
        answer.answer.append(dns.rrset.from_text(asked.question[0].name, 60, "IN", "A", "192.0.2.1"))
        self.transport.sendto(answer.to_wire(), source)


async def look_ups(count):
    loop, took = asyncio.get_running_loop(), []
    resolver = dns.asyncresolver.Resolver(configure=False)
    resolver.nameservers, resolver.timeout, resolver.lifetime = ["10.0.0.53"], 2, 30
    for number in range(count):
        begun = loop.time()
        try:
            await resolver.resolve(f"host{number}.example.")
            took.append(loop.time() - begun)
        except dns.exception.Timeout:
            took.append(None)
    return took


@pytest.mark.link("64Kbit/s 30ms plr 0.2")
async def test_look_ups_go_on_under_loss(sim_net):
    client, server = sim_net.host("10.0.0.1"), sim_net.host("10.0.0.53")
    sim_net.path(client, server)
    await server.create_task(asyncio.get_running_loop().create_datagram_endpoint(Server, ("0.0.0.0", 53)))
    took = await client.create_task(look_ups(100))
    assert None not in took
    assert 0.06 < min(took) < 0.1  # two transmissions and two delays
    assert sum(it < 0.1 for it in took) in range(45, 83)  # 0.8^2 of 100 are 64
