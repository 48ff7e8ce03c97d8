"""zeroconf: one host registers a service, and another one of three finds it by multicast DNS."""

import asyncio
import socket

import pytest

pytest.importorskip("zeroconf.asyncio", reason="no python3-zeroconf")
from zeroconf import ServiceInfo, ServiceStateChange  # noqa: E402
from zeroconf.asyncio import AsyncServiceBrowser, AsyncServiceInfo, AsyncZeroconf  # noqa: E402

KIND = "_http._tcp.local."


async def register():
    own = AsyncZeroconf()
    info = ServiceInfo(KIND, f"printer.{KIND}", addresses=[socket.inet_aton("10.0.0.2")], port=80, server="printer.local.")
    await (await own.async_register_service(info))
    return own


async def find():
    own = AsyncZeroconf()
    found = asyncio.get_running_loop().create_future()

    def changed(zeroconf, service_type, name, state_change):
        if state_change is ServiceStateChange.Added and not found.done():
            found.set_result(name)

    browser = AsyncServiceBrowser(own.zeroconf, [KIND], handlers=[changed])
    info = AsyncServiceInfo(KIND, await asyncio.wait_for(found, 3600))
    assert await info.async_request(own.zeroconf, 60_000)
    await browser.async_cancel()
    await own.async_close()
    return info.parsed_addresses()


@pytest.mark.link("8Mbit/s 5ms plr 0.2")
async def test_it(sim_net, pair, link_seed):
    client, server = pair
    third = sim_net.host("10.0.0.3")
    for other in pair:
        sim_net.path(third, other)
    registered = await server.create_task(register())
    assert await client.create_task(find()) == ["10.0.0.2"]
    await server.create_task(registered.async_close())
