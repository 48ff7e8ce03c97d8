#!/usr/bin/env python3
"""Times of hingetulip.aio, by the processor's time: the least of some rounds.

    bench/aio.py [ROUNDS [SECONDS]]     (HINGETULIP_LIBRARY may name the library)

A datagram of 100 bytes goes over a link of 8 Mbit/s and 20 ms, 100 times in each of SECONDS simulated seconds (1,000), without a history
and with one. Beside it is asyncio alone, on a clock that jumps: a timer and a callback for each. Then stars of 100 and of 3,000
hosts, 16,000 endpoints of a host, and what a small test of pytest takes more than an empty one, with its processes.
"""

import asyncio
import os
import resource
import subprocess
import sys
import tempfile
import time
from pathlib import Path
from typing import Callable, Optional

TOP = Path(__file__).resolve().parent.parent
sys.path.insert(0, str(TOP / "python"))

from hingetulip import aio  # noqa: E402

A_SECOND = 100
LENGTH = 100
HOSTS = (100, 3000)
ENDPOINTS = 16_000
TESTS = 40
OF_A_STAR = 3000  # datagrams
TEST = """
import pytest
@pytest.mark.parametrize("number", range({count}))
@pytest.mark.link("20ms")
{kind} test_it({fixture}number):
    {body}
"""
BODY = """one, other = sim_net.host("10.0.0.1"), sim_net.host("10.0.0.2")
    sim_net.path(one, other)
    import asyncio
    class Take(asyncio.DatagramProtocol):
        def datagram_received(self, data, source):
            pass
    await other.endpoint(Take, 7)
    transport, _ = await one.endpoint(asyncio.DatagramProtocol, remote=("10.0.0.2", 7))
    transport.sendto(b"x")
    await asyncio.sleep(1)"""


class Take(asyncio.DatagramProtocol):
    def datagram_received(self, data: bytes, source: object) -> None:
        pass


def floor(seconds: int) -> None:
    """asyncio's own part: a timer, and a callback that is due at once."""

    async def main() -> None:
        loop = asyncio.get_running_loop()
        for _ in range(seconds * A_SECOND):
            loop.call_soon(int)
            await asyncio.sleep(1 / A_SECOND)

    aio.run(main())


def datagrams(seconds: int, history: Optional[Path] = None) -> None:
    async def main() -> None:
        net = aio.network()
        one, other = net.host("10.0.0.1"), net.host("10.0.0.2")
        net.path(one, other, "8Mbit/s 20ms")
        await other.endpoint(Take, 7)
        transport, _ = await one.endpoint(asyncio.DatagramProtocol, remote=("10.0.0.2", 7))
        data = bytes(LENGTH)
        for _ in range(seconds * A_SECOND):
            transport.sendto(data)
            await asyncio.sleep(1 / A_SECOND)

    aio.run(main(), history=history)


def star(count: int) -> float:
    """us a datagram between the leaves of a star, after it was made."""

    async def main() -> float:
        net = aio.network()
        middle, *leaves = [net.host(f"10.{n >> 16}.{n >> 8 & 255}.{n & 255}") for n in range(1, count + 2)]
        for leaf in leaves:
            net.path(leaf, middle, "1ms")
        ends = [(await leaf.endpoint(Take, 7))[0] for leaf in leaves]
        begun = time.process_time_ns()
        for number in range(OF_A_STAR):
            ends[number * 7 % count].sendto(b"x", (leaves[number * 13 % count].address, 7))
            await asyncio.sleep(0.001)
        return (time.process_time_ns() - begun) / OF_A_STAR / 1000

    return aio.run(main())


def endpoints(count: int) -> float:
    """s in which a host opens them."""

    async def main() -> float:
        host = aio.network().host("10.0.0.1")
        begun = time.process_time_ns()
        for _ in range(count):
            await host.endpoint(Take)
        return (time.process_time_ns() - begun) / 1e9

    return aio.run(main())


def pytest_run(folder: Path, text: str) -> float:
    """Processor s of pytest over a file, with its processes."""
    file = folder / "test_it.py"
    file.write_text(text)
    words = [
        sys.executable,
        *"-m pytest -q -p hinge.pytest_plugin -p no:cacheprovider".split(),
        f"--basetemp={folder}/t",
        str(file),
    ]
    begun = resource.getrusage(resource.RUSAGE_CHILDREN)
    env = {**os.environ, "PYTHONPATH": str(TOP / "python"), "PYTEST_DISABLE_PLUGIN_AUTOLOAD": "1"}
    done = subprocess.run(words, cwd=folder, env=env, capture_output=True, text=True)
    ended = resource.getrusage(resource.RUSAGE_CHILDREN)
    assert f"{TESTS} passed" in done.stdout, done.stdout + done.stderr
    return ended.ru_utime + ended.ru_stime - begun.ru_utime - begun.ru_stime


def least(rounds: int, call: Callable[[], object]) -> float:
    """Makes a call in each of some rounds, and returns the shortest processor time of a call in seconds."""
    found = []
    for _ in range(rounds):
        begun = time.process_time_ns()
        call()
        found.append((time.process_time_ns() - begun) / 1e9)
    return min(found)


def main() -> None:
    rounds, seconds = (int(word) for word in (*sys.argv[1:], *("3", "1000")[len(sys.argv) - 1 :]))
    count = seconds * A_SECOND
    with tempfile.TemporaryDirectory() as name:
        folder = Path(name)
        for what, call in (
            ("asyncio alone", lambda: floor(seconds)),
            ("without a history", lambda: datagrams(seconds)),
            ("with a history", lambda: datagrams(seconds, folder / "h")),
        ):
            print(f"us a datagram, {what}: {least(rounds, call) / count * 1e6:.1f}", flush=True)
        for hosts in HOSTS:
            print(f"us a datagram in a star of {hosts} hosts: {min(star(hosts) for _ in range(rounds)):.1f}", flush=True)
        print(f"s for {ENDPOINTS} endpoints of a host: {min(endpoints(ENDPOINTS) for _ in range(rounds)):.2f}", flush=True)
        empty = TEST.format(count=TESTS, kind="def", fixture="", body="pass")
        small = TEST.format(count=TESTS, kind="async def", fixture="sim_net, ", body=BODY)
        took = [min(pytest_run(folder, text) for _ in range(rounds)) for text in (empty, small)]
        print(f"ms of a small test: {(took[1] - took[0]) / TESTS * 1000:.1f}")


if __name__ == "__main__":
    main()
