"""aioice: two ends find one another by ICE, while a fifth of the packets is lost each way."""

import asyncio

import pytest

aioice = pytest.importorskip("aioice.ice", reason="no python3-aioice")


@pytest.mark.link("8Mbit/s 20ms plr 0.2")
async def test_it(sim_net, pair, link_seed):
    ends = [aioice.Connection(ice_controlling=first) for first in (True, False)]
    for host, end in zip(pair, ends):
        await host.create_task(end.gather_candidates())
    for own, other in (ends, ends[::-1]):
        for candidate in other.local_candidates:
            await own.add_remote_candidate(candidate)
        await own.add_remote_candidate(None)
        own.remote_username, own.remote_password = other.local_username, other.local_password
    await asyncio.gather(*[host.create_task(end.connect()) for host, end in zip(pair, ends)])
    for host, end in zip(pair, ends):
        await host.create_task(end.close())
