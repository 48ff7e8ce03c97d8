"""Real programs behind `hinge run`, against the link's theory: a test is skipped if its program is missing. `--to` places a port of this
system behind the link, at the command's own address and at `server`."""

import json
import os
import pwd
import shlex
import shutil
import subprocess
import sys
import time
import unittest

from in_a_folder import Behind
from linked import audited_as_lawful, found, hinge, needs, needs_rooms, run_in_time, web_server
from with_folder import WithFolder

PAYLOAD = 1448 / 1500  # of a TCP packet's bytes, with time stamps
TOLERANCE = 0.05
SSHD = shutil.which("sshd", path=f"{os.environ['PATH']}:/usr/sbin")  # users lack that folder on their paths


def megabits(text: str) -> float:
    """Returns the Mbit/s at the receiver from iperf3's JSON."""
    return float(json.loads(text)["end"]["sum_received"]["bits_per_second"]) / 1e6


@needs_rooms
@needs("iperf3")
class OfTcp(Behind):
    def rate(self, control: str) -> float:
        """Returns the rate through 10 Mbit/s and 2 x 20 ms. 34 packets are under way and 100 may wait, so the link is never
        idle."""
        words = ["--up", "10Mbit/s 20ms queue 100", "--down", "20ms", "--server", "iperf3 -s -1 >/dev/null"]
        done = run_in_time(self, *words, "--", *"iperf3 -c server -t 4 -O 1 -J -C".split(), control)
        if "congestion control" in done.stdout or "Congestion" in done.stdout and "error" in done.stdout:
            self.skipTest(f"the system has no {control} for this user")
        self.assertEqual(done.returncode, 0, done.stdout + done.stderr)
        return megabits(done.stdout)

    def test_reno_and_cubic_fill_the_link(self) -> None:
        for control in ("reno", "cubic"):
            with self.subTest(control):
                self.assertAlmostEqual(self.rate(control) / (10 * PAYLOAD), 1, delta=TOLERANCE)


@needs_rooms
@needs("ssh", "ssh-keygen")
@unittest.skipIf(SSHD is None, "there is no sshd")
class OfSsh(Behind):
    USER = pwd.getpwuid(os.getuid())

    def key(self, name: str) -> str:
        subprocess.run(["ssh-keygen", "-q", "-t", "ed25519", "-N", "", "-f", f"{self.folder}/{name}"], check=True)
        return f"{self.folder}/{name}"

    def server(self) -> str:
        """Starts a server on port 2222 for this user only, with separate keys. As root, sshd needs a folder below /run, as in the
        rooms."""
        options = {
            "AuthorizedKeysFile": f"{self.key('user')}.pub",
            "StrictModes": "no",
            "UsePAM": "no",
            "PidFile": "none",
            "PasswordAuthentication": "no",
        }
        given = " ".join(f"-o {name}={value}" for name, value in options.items())
        begun = "mount -t tmpfs none /run && mkdir /run/sshd && " if os.getuid() == 0 else ""
        return f"{begun}exec {SSHD} -D -e -f /dev/null -p 2222 -h {self.key('host')} {given} 2>{self.folder}/log"

    @unittest.skipIf(os.path.basename(USER.pw_shell) in ("nologin", "false"), "this user may not log in")
    def test_a_login_and_a_file(self) -> None:
        """100,000 bytes take 0.4 s at 2 Mbit/s, after at least two round trips of 70 ms. The shell prints a text that the client
        can't know."""
        with open(f"{self.folder}/data", "wb") as file:
            file.write(os.urandom(10**5))
        serve = self.server()
        known = f"-o UserKnownHostsFile={self.folder}/known -o StrictHostKeyChecking=no -o BatchMode=yes"
        ask = (
            f"ssh -F none -p 2222 -i {self.folder}/user {known} {self.USER.pw_name}@server 'echo $((6 * 7))-there; wc"
            f" -c' <{self.folder}/data"
        )
        begun = time.monotonic()
        words = shlex.split(f"--up '2Mbit/s 30ms' --down '2Mbit/s 40ms' --transcript {self.folder}/h --server")
        done, told = self.summary(*words, serve, "--", "sh", "-c", ask)
        with open(f"{self.folder}/log") as log:
            self.assertEqual((done.returncode, done.stdout.split()), (0, ["42-there", "100000"]), done.stderr + log.read())
        self.assertGreater(time.monotonic() - begun, 0.4 + 2 * 0.07)
        self.assertGreater(told["up"]["sent_bytes"], 10**5)
        audited_as_lawful(self, f"{self.folder}/h")


@needs_rooms
class Ports(WithFolder):
    def run_to(self, address: str, script: str, *words: str) -> list[str]:
        (self.folder / "page").write_bytes(bytes(range(256)) * 4000)
        (self.folder / "far").write_text("far\n")
        with web_server(self.folder, address) as port:
            done = hinge(
                "run", "--json", self.folder / "json", "--to", port, *words, "--", "sh", "-c", script.replace("PORT", port)
            )
        self.assertEqual(done.returncode, 0, done.stderr)
        return done.stdout.splitlines()

    def test_what_a_page_has_comes_whole_by_each_address(self) -> None:
        for address in ("127.0.0.1", "::1"):
            script = "for host in localhost server; do curl -s http://$host:PORT/page | md5sum; curl -s http://$host:PORT/far; done"
            one, far, *other = self.run_to(address, script, "--link", "1ms")
            self.assertEqual((far, other), ("far", [one, "far"]))

    def test_it_is_by_the_link(self) -> None:
        """The answer arrives a round trip after the connection, which is made behind the link, and immediately for localhost."""
        told = self.run_to(
            "127.0.0.1", "curl -s -o /dev/null -w '%{time_connect} %{time_total}\\n' http://server:PORT/far", "--link", "60ms"
        )
        connected, total = map(float, told[0].split())
        self.assertGreater(connected, 0.12)
        self.assertGreater(total, 0.24)
        told = self.run_to("127.0.0.1", "curl -s -o /dev/null -w '%{time_total}\\n' http://localhost:PORT/far", "--link", "60ms")
        self.assertGreater(float(told[0]), 0.24)
        self.assertNotEqual(found(r'"came": (\d+)', (self.folder / "json").read_text())[0], "0")

    def test_a_link_that_loses_all_lets_nothing_through(self) -> None:
        self.assertEqual(self.run_to("127.0.0.1", "curl -s -m 1 http://localhost:PORT/far; echo $?", "--up", "loss 100%"), ["28"])

    def test_a_port_at_which_nothing_listens_is_told(self) -> None:
        done = hinge("run", "--quiet", "--link", "1ms", "--to", "9", "--", "true")
        self.assertEqual((done.returncode, done.stderr), (0, "hinge run: --to 9: nothing listens at this system's port 9 now\n"))

    def test_a_server_at_the_same_port_is_told(self) -> None:
        serve = f"{sys.executable} -m http.server 8765"
        done = hinge("run", "--quiet", "--to", "8765", "--server", serve, "--server-wait", "60s", "--", "true")
        self.assertIn("--to 8765: the server listens at this port too; write another one for one of them", done.stderr)
        self.assertEqual(done.returncode, 6)

    @needs("curl", "nc", "ping")
    def test_an_address_of_its_own_is_told_of(self) -> None:
        for command, wanted in (
            ("curl http://localhost:8000/", "--to 8000 brings this system's port 8000 behind it"),
            ("ping -c 1 127.0.0.1", "--to PORT brings a port of this system behind it"),
            ("nc ::1 25", "--to 25 brings"),
        ):
            done = hinge("run", "--link", "1ms", "--", *command.split())
            self.assertIn(wanted, done.stderr)
        self.assertNotIn("--to", hinge("run", "--link", "1ms", "--", "ping", "-c", "1", "server").stderr)
