"""Runs of pytest with the plugin, and the counts of their last lines."""

import importlib.util
import os
import re
import subprocess
import sys
from textwrap import dedent
from typing import Optional

from simulated_hosts import PROGRAM, TOP
from with_folder import WithFolder

COMMON = """
import asyncio
import socket
import threading
import pytest

class Echo(asyncio.DatagramProtocol):
    def connection_made(self, transport):
        self.transport, self.got = transport, []
    def datagram_received(self, data, source):
        self.got.append(data)
        if not self.transport.get_extra_info("peername"):
            self.transport.sendto(data, source)

async def session(net, count=60):
    loop = asyncio.get_running_loop()
    one, other = net.host("10.0.0.1"), net.host("10.0.0.2")
    if not net.links:
        net.path(one, other)
    async def there():
        await loop.create_datagram_endpoint(Echo, ("0.0.0.0", 9))
    async def here():
        transport, echo = await loop.create_datagram_endpoint(Echo, remote_addr=("10.0.0.2", 9))
        for number in range(count):
            transport.sendto(b"%d" % number)
            await asyncio.sleep(1)
        return len(echo.got)
    await other.create_task(there())
    return await one.create_task(here())
"""


def lacking(*names: str) -> Optional[str]:
    missing = [name for name in names if importlib.util.find_spec(name) is None]
    return f"no {' and no '.join(missing)}" if missing else None


class Done:
    """A run of pytest: its text, and the counts of its last line."""

    def __init__(self, text: str, status: int) -> None:
        self.text, self.status = text, status
        last = text.strip().splitlines()[-1] if text.strip() else ""
        self.counts = {word: int(count) for count, word in re.findall(r"(\d+) (passed|failed|errors?|skipped|warnings?)", last)}


class Runs(WithFolder):
    def run_pytest(self, body: str, *words: str) -> Done:
        file = self.folder / "test_it.py"
        python = str(TOP / "python")
        file.write_text(COMMON + dedent(body))
        own = {"DUMMYNET": PROGRAM, "PYTHONPATH": python, "PYTHONDONTWRITEBYTECODE": "1", "PYTEST_DISABLE_PLUGIN_AUTOLOAD": "1"}
        options = f"-m pytest -p hinge.pytest_plugin -p no:cacheprovider --basetemp={self.folder}/tmp".split()
        command = [sys.executable, *options, *words, str(file)]
        done = subprocess.run(command, capture_output=True, text=True, env={**os.environ, **own}, cwd=self.folder)
        return Done(done.stdout + done.stderr, done.returncode)
