"""anyio: 50 questions over its sockets, each again after 0.3 s."""

import pytest

anyio = pytest.importorskip("anyio", reason="no python3-anyio")


async def serve():
    async with await anyio.create_udp_socket(local_host="10.0.0.2", local_port=7) as own:
        async for data, (host, port) in own:
            await own.sendto(data, host, port)


async def ask():
    answers = 0
    async with await anyio.create_connected_udp_socket("10.0.0.2", 7) as own:
        while answers < 50:
            await own.send(b"%d" % answers)
            with anyio.move_on_after(0.3):
                await own.receive()
                answers += 1


@pytest.mark.link("8Mbit/s 20ms plr 0.1")
async def test_it(sim_net, pair, link_seed):
    client, server = pair
    serving = server.create_task(serve())
    await client.create_task(ask())
    serving.cancel()
