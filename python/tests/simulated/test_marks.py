"""pytest's mark `simulated` runs a test in a machine of its own and brings back the test's report."""

import os
import re
import shutil
import subprocess
import sys
from pathlib import Path

from machines import Simulated

PYTHON = str(Path(__file__).resolve().parents[2])
TESTS = """
import shutil, socket, time, urllib.request
import pytest

SERVES = "exec python3 -m http.server 8000 2>/dev/null"

@pytest.mark.simulated(server=SERVES, real_limit="300s")
@pytest.mark.link("8Mbit/s 20ms", back="20ms")
def test_a_download():
    with urllib.request.urlopen("http://server:8000/", timeout=30) as page:
        assert page.status == 200

@pytest.mark.simulated
@pytest.mark.link("20ms loss 100%")
def test_that_fails():
    begun = time.monotonic()
    time.sleep(3600)
    socket.socket(socket.AF_INET, socket.SOCK_DGRAM).sendto(b"text", ("server", 9))
    assert time.monotonic() - begun < 3600

@pytest.mark.simulated
def test_that_is_skipped():
    pytest.skip("not here")

@pytest.mark.simulated
@pytest.mark.parametrize("link_seed", [1, 2, 1])
def test_by_seeds(link_seed):
    with open("/dev/urandom", "rb") as file:
        print("drawn", link_seed, file.read(8).hex())

@pytest.mark.simulated
@pytest.mark.link("20ms")
@pytest.mark.skipif(shutil.which("ping") is None, reason="no ping")
def test_a_net(net):
    net.host("a"), net.host("b"), net.link("a", "b")
    net.cut("a")
    begun = time.monotonic()
    assert net.run("b", "ping -c 1 -W 600 a", check=False).returncode == 1
    assert 600 <= time.monotonic() - begun < 700
    net.heal("a")
    assert "time=40.0 ms" in net.run("b", "ping -c 1 a").stdout
    assert net.audit().startswith("lawful")

def test_outside():
    assert time.time() > 1767225600 + 100000
"""


NETS = """
import shutil
import pytest

pytestmark = pytest.mark.skipif(shutil.which("ping") is None, reason="no ping")

def two(net):
    net.host("a", "echo what a says")
    net.host("b")
    net.link("a", "b")

@pytest.mark.parametrize("link_seed", [1, 2, 1])
@pytest.mark.link("1Mbit/s 20ms loss 30%")
def test_by_seeds(simulated_net, link_seed, tmp_path):
    two(simulated_net)
    ran = simulated_net.run("b", "date +%s%N; ping -c 20 -i 1 a", check=False)
    print("told", link_seed, tmp_path, ran.stdout.split())

@pytest.mark.link("20ms")
def test_a_cut(simulated_net):
    two(simulated_net)
    simulated_net.cut("a", 3600)
    simulated_net.run("b", "ping -c 1 -W 9 a")
"""


class OfMarks(Simulated):
    def run_pytest(self, tests: str, **more: str) -> "subprocess.CompletedProcess[str]":
        (self.folder / "test_them.py").write_text(tests)
        names = {**os.environ, "PYTHONPATH": PYTHON, "PYTEST_DISABLE_PLUGIN_AUTOLOAD": "1", **more}
        words = [sys.executable, "-m", "pytest", "-p", "hinge.pytest_plugin", "-q", "-rsP", "test_them.py"]
        return subprocess.run(words, cwd=self.folder, env=names, stdin=subprocess.DEVNULL, capture_output=True, text=True)

    def test_reports(self) -> None:
        done = self.run_pytest(TESTS)
        self.assertRegex(done.stdout, r"1 failed, 6 passed, 1 skipped in ", done.stdout + done.stderr)
        self.assertIn("assert (4600.", done.stdout)
        self.assertRegex(done.stdout, r"-+ simulated run -+\nhinge run: up: 1 came, 0 delivered, 1 lost, ")
        self.assertRegex(done.stdout, r"10\.8\.0\.1:\d+ > 10\.8\.0\.2:9, 32 bytes: lost\nseed 1, lawful \d+: hinge ")
        drawn = [line.split() for line in done.stdout.splitlines() if line.startswith("drawn ")]
        self.assertEqual([seed for _, seed, _ in drawn], ["1", "2", "1"])
        self.assertEqual(drawn[0], drawn[2])
        self.assertNotEqual(drawn[0][2], drawn[1][2])

    def test_a_machine_that_never_began_leaves_no_folder(self) -> None:
        place = self.folder / "temporary"
        place.mkdir()
        done = self.run_pytest("import pytest\n@pytest.mark.simulated(sed=3)\ndef test_it(): pass\n", TMPDIR=str(place))
        self.assertIn("--sed; did you mean --seed?\n", done.stdout)
        self.assertEqual([path.name for path in place.iterdir() if path.name.startswith("hinge-test-")], [])

    def test_nets(self) -> None:
        """One seed determines the run of a test's hosts, in folders of equal names. The report of a failed test names its net."""
        done = self.run_pytest(NETS)
        self.assertRegex(done.stdout, r"1 failed, 3 passed in ", done.stdout + done.stderr)
        told = [line.split(maxsplit=2)[2] for line in done.stdout.splitlines() if line.startswith("told ")]
        folders = [line.partition(" ")[0] for line in told]
        runs = [line.partition(" ")[2] for line in told]
        self.assertEqual((len(told), runs[0]), (3, runs[2]))
        self.assertNotEqual(runs[0], runs[1])
        self.assertRegex(folders[0], r"^/.*/kept/tmp/test_by_seeds_10_0$")
        self.assertRegex(done.stdout, r"CommandFailed: b: ping -c 1 -W 9 a: status 1\n")
        section = done.stdout.partition(" emulated link ")[2]
        self.assertRegex(section, r"(?m)^b > a: 1 came, 0 delivered, 1 lost, ")
        found = re.search(r"(?m)^seed 1, lawful \d+: hinge look (/.*/kept/tmp/test_a_cut0/net/net\.history)$", section)
        assert found, done.stdout
        self.addCleanup(shutil.rmtree, found[1].partition("/kept/")[0])
        self.assert_lawful(Path(found[1]).read_text())
        self.assertRegex(section, r"-+ simulated run -+\nhinge run: simulated \d+\.\d+ s in .*; a second run by seed ")
