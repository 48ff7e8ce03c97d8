"""WebRTC by aiortc, unchanged: ICE, DTLS and SCTP over 8 Mbit/s, 20 ms and 5 % loss.

aiortc asks OpenSSL when DTLS has to repeat what was lost, and OpenSSL has simulated time. Host addresses are asked of the system, so the
test says which there are.
"""

import asyncio

import pytest

from hingetulip import aio

aiortc = pytest.importorskip("aiortc", reason="no python3-aiortc")
import aioice.ice  # noqa: E402

COUNT = 200


async def offers(offer, answer, done):
    peer = aiortc.RTCPeerConnection(aiortc.RTCConfiguration(iceServers=[]))
    channel = peer.createDataChannel("messages")
    channel.on("open", lambda: [channel.send(b"%06d" % number + bytes(994)) for number in range(COUNT)])
    channel.on("message", done.set_result)
    await peer.setLocalDescription(await peer.createOffer())
    offer.set_result(peer.localDescription)
    await peer.setRemoteDescription(await answer)
    got = await done
    await peer.close()
    return got


async def answers(offer, answer, done):
    peer, got = aiortc.RTCPeerConnection(aiortc.RTCConfiguration(iceServers=[])), []

    @peer.on("datachannel")
    def opened(channel):
        @channel.on("message")
        def came(data):
            got.append(int(data[:6]))
            if len(got) == COUNT:
                channel.send(" ".join(map(str, got)))

    await peer.setRemoteDescription(await offer)
    await peer.setLocalDescription(await peer.createAnswer())
    answer.set_result(peer.localDescription)
    await done
    await peer.close()


@pytest.mark.link("8Mbit/s 20ms plr 0.05 queue 50")
async def test_messages_come_in_order(sim_net, monkeypatch):
    monkeypatch.setattr(aioice.ice, "get_host_addresses", lambda use_ipv4, use_ipv6: [aio.current_host().address])
    one, other = sim_net.host("10.0.0.1"), sim_net.host("10.0.0.2")
    sim_net.path(one, other)
    futures = [asyncio.get_running_loop().create_future() for _ in range(3)]
    answering = other.create_task(answers(*futures))
    got = await asyncio.wait_for(one.create_task(offers(*futures)), 60)
    await answering
    assert got == " ".join(map(str, range(COUNT)))
