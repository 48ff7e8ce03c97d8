"""dnspython: 20 names, while a fifth of the packets is lost each way."""

import asyncio

import pytest

dns = pytest.importorskip("dns.asyncresolver", reason="no python3-dnspython")
import dns.message  # noqa: E402
import dns.rrset  # noqa: E402


class Server(asyncio.DatagramProtocol):
    def connection_made(self, transport):
        self.transport = transport

    def datagram_received(self, data, source):
        asked = dns.message.from_wire(data)
        answer = dns.message.make_response(asked)
        answer.answer.append(dns.rrset.from_text(asked.question[0].name, 60, "IN", "A", "192.0.2.1"))
        self.transport.sendto(answer.to_wire(), source)


async def look_up():
    resolver = dns.asyncresolver.Resolver(configure=False)
    resolver.nameservers, resolver.cache = ["10.0.0.2"], None
    for number in range(20):
        found = await resolver.resolve(f"host{number}.test.", "A", lifetime=60)
        assert [str(it) for it in found] == ["192.0.2.1"]


@pytest.mark.link("8Mbit/s 20ms plr 0.2")
async def test_it(sim_net, pair, link_seed):
    client, server = pair
    await server.endpoint(Server, 53)
    await client.create_task(look_up())
