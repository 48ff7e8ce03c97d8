"""Downloads behind `hinge run`, from servers inside and from the world outside."""

import os
import re
import shlex
import shutil
import subprocess
import sys
import tempfile
import unittest

from in_a_folder import Behind
from hinge.run.interfaces import leads_out_in_ipv6
from hinge.run.outside import GATEWAY, GATEWAY6
from linked import AS_IN_A_CONTAINER, HINGE, audited_as_lawful, found, needs, needs_mounts, needs_rooms, outcome, run, web_server


@needs_rooms
class OfDownloads(Behind):
    @needs("curl")
    def test_a_download_from_a_server_beside_it(self) -> None:
        """1,000,000 bytes and headers take 1.036 s at 8 Mbit/s, after two round trips of 40 ms. The content is unchanged."""
        data = os.urandom(10**6)
        (self.folder / "data").write_bytes(data)
        serve = f"cd {self.folder} && exec {sys.executable} -m http.server 8080 2>/dev/null >&2"
        done = run(
            *shlex.split("--up 20ms --down '8Mbit/s 20ms queue 100' --server"),
            serve,
            *shlex.split(f"-- curl -s -o {self.folder}/got -w '%{{time_total}}' http://server:8080/data"),
        )
        self.assertEqual(done.returncode, 0, done.stderr)
        self.assertTrue((self.folder / "got").read_bytes() == data)
        self.assertGreaterEqual(float(done.stdout), 1.036 + 0.08)

    @needs("curl")
    def test_a_fast_download_comes_as_packets_of_the_link(self) -> None:
        """The kernel's large segments are cut to packets of the interface's greatest length, in both families, and the content is
        complete."""
        data = os.urandom(2 * 10**7)
        (self.folder / "data").write_bytes(data)
        serve = f"cd {self.folder} && exec {sys.executable} -m http.server 8080 --bind :: 2>/dev/null >&2"
        for name in ("10.8.0.2", "[fd08::2]"):
            done, told = self.summary(
                *shlex.split(f"--up 1ms --down 1ms --mtu 1400 --transcript {self.folder}/h --server"),
                serve,
                *shlex.split(f"-- curl -s -o {self.folder}/got http://{name}:8080/data"),
            )
            self.assertEqual(done.returncode, 0, done.stderr)
            self.assertTrue((self.folder / "got").read_bytes() == data)
            history = (self.folder / "h").read_text()
            lengths = [int(text) for text in found(r"^c,0,submit,pipe,2,(?:[^,]*,){5}(\d+),", history)]
            self.assertEqual((max(lengths), len(lengths)), (1400, told["down"]["came"]))
            audited_as_lawful(self, f"{self.folder}/h")

    @needs("dnsmasq", "dig")
    def test_a_name_is_asked_for(self) -> None:
        """dig's clock has a resolution of 4 ms."""
        serve = (
            "exec dnsmasq -k --port=5353 --no-resolv --no-hosts --conf-file=/dev/null --pid-file= --user="
            " --address=/here.test/10.1.2.3"
        )
        done = run(
            "--up", "30ms", "--down", "40ms", "--server", serve, "--", "dig", "+tries=1", "-p", "5353", "@server", "here.test"
        )
        self.assertIn("10.1.2.3", done.stdout, done.stderr)
        self.assertGreaterEqual(int(found(r"Query time: (\d+) msec", done.stdout)[0]), 70 - 4)

    @needs("openssl")
    def test_tls_handshakes_under_losses(self) -> None:
        """Of twenty handshakes with a loss of 5 %, those without a lost packet take two round trips."""
        key, certificate = self.certificate()
        serve = f"exec openssl s_server -quiet -accept 4433 -key {key} -cert {certificate}"
        ask = (
            "for i in 1 2 3 4 5 6 7 8 9 10 11 12 13 14 15 16 17 18 19 20; do openssl s_client -connect server:4433"
            " </dev/null 2>/dev/null | grep -c '^New, TLSv1.3'; done"
        )
        done, told = self.summary(
            "--up", "10ms loss 5%", "--down", "10ms loss 5%", "--seed", "3", "--server", serve, "--", "sh", "-c", ask, seconds=120
        )
        self.assertEqual(done.stdout.split(), ["1"] * 20, done.stderr)
        self.assertGreater(told["up"]["lost"] + told["down"]["lost"], 0)

    @needs("gtlsserver", "gtlsclient", "openssl")
    def test_quic(self) -> None:
        key, certificate = self.certificate()
        (self.folder / "got").mkdir()
        (self.folder / "data").write_bytes(bytes(10**5))
        serve = f"exec gtlsserver -q -d {self.folder} 10.8.0.2 4433 {key} {certificate}"
        done, told = self.summary(
            *shlex.split("--up 20ms --down '8Mbit/s 20ms' --loss down:list:20,40-42 --server"),
            serve,
            *shlex.split(
                f"-- gtlsclient -q --exit-on-all-streams-close --download={self.folder}/got 10.8.0.2 4433 " "https://server/data"
            ),
        )
        self.assertEqual(done.returncode, 0, done.stdout + done.stderr)
        self.assertEqual(os.path.getsize(f"{self.folder}/got/data"), 10**5)
        self.assertEqual(told["down"]["lost"], 4)

    @needs("mosh-server", "mosh-client", "script")
    def test_mosh(self) -> None:
        """A line typed through the link returns: the server's shell prints a text that the client can't know."""
        inside = f"{self.folder}/inside"
        serve = (
            "LC_ALL=C.UTF-8 mosh-server new -i 10.8.0.2 -p 60001 -- sh -c 'echo $((6 * 7))-there; sleep 3' >"
            f" {inside} 2>&1; sleep 40"
        )
        ask = (
            f"until grep -q '^MOSH CONNECT' {inside}; do sleep 0.05; done; MOSH_KEY=$(sed -n 's/^MOSH CONNECT 60001"
            f" //p' {inside} | tr -d '\\r') LC_ALL=C.UTF-8 TERM=xterm timeout 30 script -qec 'stty rows 24 cols 80;"
            " mosh-client 10.8.0.2 60001' /dev/null </dev/null"
        )
        done, told = self.summary("--up", "30ms", "--down", "30ms", "--server", serve, "--", "sh", "-c", ask)
        self.assertIn("42-there", done.stdout, re.sub(r"[^ -~]", "", done.stdout + done.stderr))
        self.assertGreater(told["down"]["sent"], 2)


@needs_rooms
@needs("curl")
class OfOutside(Behind):
    """Both programs map an address to the system's loopback interface."""

    def asked(self, path: str, own: str, gateway: str, *before: str) -> None:
        """Asserts that the command reaches the system's loopback only with the option that opens it."""
        self.assertEqual("", self.answer(path, own, gateway, "--outside", *before).partition(" ")[0])
        answer = self.answer(path, own, gateway, "--outside-loopback", *before)
        self.assertRegex(answer, r"^from outside \d+\.\d+$")
        self.assertGreaterEqual(float(answer.split()[-1]), 0.12)  # two round trips

    def answer(self, path: str, own: str, gateway: str, option: str, *before: str) -> str:
        (self.folder / "data").write_text("from outside")
        with web_server(self.folder, own) as port:
            ask = ["curl", "-s", "-m", "9", "-w", " %{time_total}", f"http://{gateway}:{port}/data"]
            words = [*before, *HINGE, "run", "--quiet", option, "--up", "30ms", "--down", "30ms", "--", *ask]
            done = outcome(words, stdin=subprocess.DEVNULL, env={**os.environ, "PATH": path})
        self.assertEqual(done.stderr, "")
        return done.stdout

    def in_ipv4(self, path: str) -> None:
        self.asked(path, "127.0.0.1", GATEWAY)

    def in_ipv6(self, path: str) -> None:
        if not leads_out_in_ipv6():
            self.skipTest("the system has no way out in IPv6")
        self.asked(path, "::1", f"[{GATEWAY6}]")

    def with_pasta_alone(self) -> str:
        alone = tempfile.TemporaryDirectory()
        self.addCleanup(alone.cleanup)
        for name in ("pasta", "curl"):
            os.symlink(str(shutil.which(name)), f"{alone.name}/{name}")
        return alone.name

    @needs("slirp4netns")
    def test_by_slirp4netns(self) -> None:
        self.in_ipv4(os.environ["PATH"])

    @needs_mounts
    @needs("slirp4netns")
    def test_by_slirp4netns_as_in_a_container(self) -> None:
        self.asked(os.environ["PATH"], "127.0.0.1", GATEWAY, *AS_IN_A_CONTAINER)

    @needs("slirp4netns")
    def test_ipv6_by_slirp4netns(self) -> None:
        self.in_ipv6(os.environ["PATH"])

    @needs("pasta")
    @unittest.skipIf(os.geteuid() == 0, "pasta doesn't serve root")
    def test_by_pasta(self) -> None:
        self.in_ipv4(self.with_pasta_alone())

    @needs("pasta")
    @unittest.skipIf(os.geteuid() == 0, "pasta doesn't serve root")
    def test_ipv6_by_pasta(self) -> None:
        self.in_ipv6(self.with_pasta_alone())
