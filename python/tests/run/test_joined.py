"""`hinge run --netns`: a link inside an existing network, such as a container's."""

import os
import re
import shlex
import subprocess
import sys
import time
import unittest
from unittest import mock

from hinge.run.joined import process_of
from hinge.run.system import Missing
from hinge.run.words import Wrong
from linked import HINGE, Done, audited_as_lawful, needs, needs_rooms, run, until
from with_folder import WithFolder

OUTSIDE, INSIDE = "172.31.253.1", "172.31.253.2"
RULES = "0: from all lookup local 32766: from all lookup main 32767: from all lookup default"
DELAY = 0.05  # s, of both ways


def ip(*words: str) -> str:
    return subprocess.run(["ip", *words], capture_output=True, text=True, check=True).stdout


@needs_rooms
@needs("ip", "ping", "curl")
@unittest.skipIf(os.geteuid() != 0, "only root can make a network that others enter")
class OfNetworks(WithFolder):
    """A network with an interface towards another network, like a container and its machine."""

    def setUp(self) -> None:
        super().setUp()
        self.name, self.outer = (f"hinge-{os.getpid()}-{time.monotonic_ns()}-{place}" for place in ("in", "out"))
        for name in (self.name, self.outer):
            ip("netns", "add", name)
            self.addCleanup(ip, "netns", "del", name)
            ip("-n", name, "link", "set", "lo", "up")
        ip("-n", self.name, "link", "add", "eth0", "type", "veth", "peer", "name", "eth0", "netns", self.outer)
        for name, address in ((self.name, INSIDE), (self.outer, OUTSIDE)):
            ip("-n", name, "addr", "add", f"{address}/24", "dev", "eth0")
            ip("-n", name, "link", "set", "eth0", "up")
        ip("-n", self.name, "route", "add", "default", "via", OUTSIDE)
        self.path = f"/run/netns/{self.name}"

    def inside(self, *words: str) -> Done[str]:
        return subprocess.run(["ip", "netns", "exec", self.name, *words], capture_output=True, text=True)

    def outside(self, *words: str) -> Done[str]:
        return subprocess.run(["ip", "netns", "exec", self.outer, *words], capture_output=True, text=True)

    def state(self) -> list[str]:
        """Returns the rules, routes, interfaces and settings."""
        settings = self.inside(
            "sh", "-c", "cd /proc/sys/net/ipv4/conf; grep . */rp_filter */accept_local */forwarding */proxy_arp ../ip_early_demux"
        ).stdout
        return [
            " ".join(ip("-n", self.name, *words).split())
            for words in (("rule",), ("-4", "route", "show", "table", "all"), ("-br", "link"))
        ] + [settings]

    def took(self, done: Done[str]) -> float:
        """Returns the time of the fastest ping, in s."""
        return float(re.findall(r"min/avg/max/mdev = ([0-9.]+)/", done.stdout)[0]) / 1000

    def test_a_command_there_goes_through_the_link(self) -> None:
        before = self.state()
        links = ["--up", "10Mbit/s 20ms", "--down", "30ms", "--transcript", self.folder / "h"]
        done = run("--quiet", "--netns", self.path, *links, "--", *"ping -c 3 -i 0.1".split(), OUTSIDE)
        self.assertEqual((done.returncode, self.took(done) >= DELAY, self.state()), (0, True, before), done.stderr)
        audited_as_lawful(self, self.folder / "h")
        self.assertEqual((self.folder / "h").read_text().count(f"c,0,submit,pipe,1,{INSIDE},{OUTSIDE},1,"), 3)
        self.assertTrue(before[0] == RULES, before[0])

    def test_what_runs_there_is_reached_through_the_link(self) -> None:
        (self.folder / "data").write_bytes(os.urandom(200_000))
        words = ["ip", "netns", "exec", self.name, sys.executable, "-m", "http.server", "8000"]
        server = subprocess.Popen(words, cwd=self.folder, stdout=subprocess.DEVNULL, stderr=subprocess.DEVNULL)
        self.addCleanup(server.wait)
        self.addCleanup(server.kill)
        ask = ["curl", "-s", "-m", "20", "-o", str(self.folder / "got"), f"http://{INSIDE}:8000/data"]
        until(lambda: self.outside(*ask).returncode == 0)
        before = self.state()
        words = shlex.split(f"--up '2Mbit/s 20ms' --down 30ms --control {self.folder}/c --quiet")
        begun = subprocess.Popen([*HINGE, "run", "--netns", str(server.pid), *words])
        try:
            until((self.folder / "c").exists)
            until(lambda: self.took(self.outside("ping", "-c", "1", INSIDE)) >= DELAY)
            at = time.monotonic()
            self.assertEqual(self.outside(*ask).returncode, 0)
            self.assertGreater(time.monotonic() - at, 0.8 + DELAY)  # 1.6 Mbit at 2 Mbit/s
            self.assertEqual((self.folder / "got").read_bytes(), (self.folder / "data").read_bytes())
        finally:
            begun.terminate()
        self.assertEqual((begun.wait(60), self.state()), (0, before))

    def test_after_a_kill_all_goes_as_before(self) -> None:
        before = self.state()
        begun = subprocess.Popen([*HINGE, "run", "--netns", self.path, "--up", "5000ms", "--quiet"])
        until(lambda: "hinge-up" in self.state()[2] and "0: from all lookup local" not in self.state()[0])
        begun.kill()
        begun.wait()
        until(lambda: "hinge-up" not in self.state()[2])
        self.assertLess(self.took(self.inside("ping", "-c", "3", "-i", "0.1", OUTSIDE)), 5)
        self.assertEqual(self.outside("ping", "-c", "1", "-W", "2", INSIDE).returncode, 0)
        self.assertEqual(run("--quiet", "--netns", self.path, "--", "true").returncode, 0)
        self.assertEqual(self.state()[:3], before[:3])

    def test_what_is_refused(self) -> None:
        for words, status, wanted in (
            (["--netns", "99999999"], 2, "--netns 99999999: No such file or directory: it is a process, or a path"),
            (["--netns", "/etc/passwd"], 6, "it isn't a network"),
            (["--netns", str(os.getpid())], 2, "it is this system's own network"),
            (["--netns", self.path, "--server", "x"], 2, "--server: there is no such thing"),
            (["--netns", self.path, "--simulated"], 2, "--simulated: there is no such thing"),
        ):
            done = run(*words, "--", "true")
            self.assertEqual((done.returncode, wanted in done.stderr), (status, True), done.stderr)
        ip("-n", self.name, "route", "del", "default")
        done = run("--netns", self.path, "--", "true")
        self.assertEqual((done.returncode, "this network has no way out" in done.stderr), (6, True), done.stderr)


ENGINE = """#!/bin/sh
case "$*" in
*ancestor=nginx) echo web ;;
*ancestor=redis) printf 'one\\ntwo\\n' ;;
*ancestor=*) ;;
ps*) printf 'web localhost/box:1\\none docker.io/library/pg:latest\\ntwo docker.io/library/pg:latest\\n' ;;
*inspect*web) echo 4711 ;;
*inspect*old) echo 0 ;;
*) echo "no such container" >&2; exit 125 ;;
esac
"""
NO_DAEMON = "#!/bin/sh\necho no daemon >&2; exit 1\n"


class Containers(WithFolder):
    """Containers through the command lines of docker and podman; scripts print the answers of these programs."""

    def of(self, name: str, **engines: str) -> str:
        for engine in ("docker", "podman"):
            (self.folder / engine).unlink(missing_ok=True)
        for engine, text in engines.items():
            (self.folder / engine).write_text(text)
            (self.folder / engine).chmod(0o755)
        with mock.patch.dict(os.environ, {"PATH": f"{self.folder}"}):
            try:
                return process_of(name)
            except (Wrong, Missing) as refused:
                return str(refused).removeprefix(f"--container {name}: ")

    def test_each_name(self) -> None:
        for name, wanted in (
            ("web", "4711"),
            ("nginx", "4711"),
            ("box:1", "4711"),
            ("redis", "several containers of this image run; write one of one, two"),
            ("pg", "several containers of this image run; write one of one, two"),
            ("old", "it doesn't run; write podman start old before it"),
            ("x", "no container or image of this name runs; write one of web, one, two"),
        ):
            self.assertEqual(self.of(name, podman=ENGINE), wanted)
            self.assertEqual(self.of(name, docker=NO_DAEMON, podman=ENGINE), wanted)
        self.assertEqual(self.of("web", docker=NO_DAEMON), "no daemon")
        self.assertIn("write --netns PID", self.of("web"))
