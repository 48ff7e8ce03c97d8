"""The plugin of pytest beside other plugins, and with real programs and hosts."""

import functools
import os
import re
import shutil
import subprocess
import sys
import unittest

from pytest_runs import Runs, lacking
from simulated_hosts import PROGRAM, TOP


@functools.lru_cache(maxsize=None)
def no_rooms() -> str:
    """Why this machine or this user can't have hosts, or nothing."""
    command = [sys.executable, "-m", "hinge", "run", "--quiet", "--", "true"]
    tried = subprocess.run(
        command, capture_output=True, text=True, env={**os.environ, "DUMMYNET": PROGRAM, "PYTHONPATH": str(TOP / "python")}
    )
    return "" if tried.returncode == 0 else tried.stderr.strip()


class Beside(Runs):
    @unittest.skipIf(lacking("xdist"), "no python3-pytest-xdist")
    def test_under_xdist(self) -> None:
        done = self.run_pytest(
            """
            @pytest.mark.parametrize("link_seed", range(1, 13))
            @pytest.mark.link("40ms plr 0.05")
            async def test_minutes(sim_net, link_seed):
                assert await session(sim_net) >= 60
            """,
            *"-p xdist -n 2".split(),
        )
        self.assertGreater(done.counts.get("failed", 0), 5, done.text)
        self.assertEqual(sum(done.counts.values()), 12)
        self.assertEqual(len(re.findall(r"^seed \d+, lawful \d+: hinge look ", done.text, re.M)), done.counts["failed"])

    @unittest.skipIf(lacking("pytest_asyncio"), "no python3-pytest-asyncio")
    def test_beside_pytest_asyncio(self) -> None:
        body = """
            @pytest.mark.asyncio
            async def test_real():
                assert not hasattr(asyncio.get_running_loop(), "net")
                await asyncio.sleep(0.001)

            @pytest.mark.link("40ms")
            async def test_simulated(sim_net):
                assert await session(sim_net) == 60

            @pytest.mark.asyncio
            async def test_real_again():
                await asyncio.sleep(0.001)
            """
        for mode in ("strict", "auto"):
            done = self.run_pytest(body, "-p", "pytest_asyncio.plugin", f"--asyncio-mode={mode}")
            self.assertEqual((done.counts.get("passed"), done.status), (3, 0), done.text)

    @unittest.skipUnless(
        os.environ.get("HINGE_LINK") or any((TOP / folder / "hinge-link").exists() for folder in ("built", "release")),
        "no hinge-link: tools/release/hosts builds it",
    )
    def test_udp_paths(self) -> None:
        done = self.run_pytest(
            """
            @pytest.fixture
            def echo():
                made = socket.socket(socket.AF_INET, socket.SOCK_DGRAM)
                made.bind(("127.0.0.1", 0))
                def run():
                    while (it := made.recvfrom(2000))[0] != b"end":
                        made.sendto(*it)
                thread = threading.Thread(target=run)
                thread.start()
                yield made.getsockname()[1]
                made.sendto(b"end", made.getsockname())
                thread.join()
                made.close()

            def exchange(path, count):
                got = 0
                with socket.socket(socket.AF_INET, socket.SOCK_DGRAM) as made:
                    made.connect(path.address)
                    made.settimeout(1)
                    for number in range(count):
                        made.send(b"%d" % number)
                    try:
                        while made.recv(100):
                            got += 1
                    except OSError:
                        return got

            @pytest.mark.link("8Mbit/s 20ms plr 1", back="20ms")
            def test_none(udp_path, echo):
                assert exchange(udp_path(echo), 5) == 0

            def test_some(udp_path, echo):
                assert exchange(udp_path(f"127.0.0.1:{echo}", "plr 0.5", "1ms", seed=5), 100) == 100
            """
        )
        self.assertEqual(done.counts, {"failed": 1, "passed": 1}, done.text)
        section = done.text.partition("emulated link")[2]
        self.assertRegex(section, r"up: 100 came, \d+ delivered, \d+ lost")
        self.assertRegex(section, r"(?m)^  row  *\d+, \d+\.\d{9} s, 127\.0\.0\.1:\d+ > 127\.0\.0\.1:\d+, (29|30) bytes: lost$")
        self.assertRegex(section, r"(?m)^seed 5, lawful \d+: hinge look /.*/link1\.history$")

    def test_nets(self) -> None:
        if no_rooms() or shutil.which("ping") is None:
            self.skipTest(no_rooms() or "no ping")
        done = self.run_pytest(
            """
            def two(net, *link):
                net.host("a", "echo what a says")
                net.host("b")
                net.link("a", "b", *link)

            @pytest.mark.link("5ms", back="7ms")
            def test_pass(net):
                two(net)
                assert "1 received" in net.run("b", "ping -c 1 a").stdout

            def test_fail(net):
                two(net, "1ms plr 0.999999")
                net.change("a", "b", "2ms plr 0.999999")
                net.run("b", "echo what b says; ping -c 1 -W 1 a")

            def test_never_begun(net):
                two(net, "1mss")

            def test_no_word(net):
                net.describe("hots a")
                net.start()
            """,
            "--strict-markers",
            "--link-seed=4",
        )
        self.assertEqual(done.counts, {"failed": 3, "passed": 1}, done.text)
        failed, never, word = re.split(r"\n_{4,}", done.text)[1:]
        self.assertRegex(failed, r"CommandFailed: b: echo what b says; ping -c 1 -W 1 a: status 1\nE +what b says\n")
        section = failed.partition("emulated link")[2]
        self.assertRegex(section, r"(?m)^b > a: 1 came, 0 delivered, 1 lost, 0 met a full queue, 0 under way$")
        self.assertRegex(section, r"(?m)^  \d+\.\d{6} s, changed: pipe 1 config delay 2 plr 0\.99999\d+$")
        self.assertRegex(section, r"(?m)^  row  *1, \d+\.\d{9} s, b:0 > a:0, 84 bytes: lost$")
        self.assertRegex(section, r"(?m)^a printed last \(/.*/net/logs/a\.log\):\n  what a says$")
        self.assertRegex(section, r"(?m)^seed 4, lawful \d+: hinge look /.*/net/net\.history$")
        self.assertIn("NetError: the link: '1mss': ", never)
        self.assertRegex(word, r"NetError: /.*/described\.net line 1: 'hots': not a word of a net; did you mean 'host'\?")
        self.assertNotIn("def run(self", done.text)  # a test's own line is shown
