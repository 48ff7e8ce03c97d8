"""`hinge run` in namespaces, on machines and for users that can create them."""

import contextlib
import errno
import json
import os
import re
import shlex
import shutil
import signal
import socket
import subprocess
import sys
import threading
import unittest
from pathlib import Path

import pytest

from linked import AS_IN_A_CONTAINER, HINGE, audited, audited_as_lawful, found, hinge
from linked import matching, needs, needs_mounts, needs_rooms, run, until
from with_folder import WithFolder

from hinge.border.files import read_system
from hinge.run.rooms import put_over
from hinge.run.steps import Steps

NO_MODEL = "none of gilbert:P,R[,B[,G]] and list:N,N-M (examples: gilbert:0.01,0.3 and list:3,17-20)"


CHROOTED = """mount --make-rshared / && cd "$0" || exit 99
for each in /*; do
    if [ -L $each ]; then cp -d $each .; elif [ -d $each ]; then mkdir .$each && mount --rbind $each .$each; fi
done
before=$(wc -l </proc/self/mountinfo)
chroot . "$@"
status=$?
[ "$before" = "$(wc -l </proc/self/mountinfo)" ] || echo 'mounts came out'
exit $status
"""


@needs_rooms
class OfCommands(WithFolder):
    def test_status_and_user(self) -> None:
        got = run("--", "sh", "-c", "id -u; exit 7")
        assert (got.returncode, got.stdout.strip()) == (7, str(os.getuid()))
        assert got.stderr.splitlines()[:2] == [
            "hinge run: no link is given, so nothing is slowed or lost: --link '10Mbit/s 20ms loss 1%' or --preset lte gives one",
            "hinge run: up: nothing came; down: nothing came",
        ]
        assert run("--", "/nix").returncode == 127
        assert run("--", "/").returncode == 126
        assert run("--", "sh", "-c", "kill -9 $$").returncode == 137

    def test_what_a_command_may_do(self) -> None:
        """The command reaches programs outside only through sockets with a name, and sees none of their processes."""
        inside = (
            "import os, socket, sys\n"
            "for place in (sys.argv[1], ('127.0.0.1', int(sys.argv[2]))):\n"
            "    with socket.socket(socket.AF_UNIX if place == sys.argv[1] else socket.AF_INET) as line:\n"
            "        print(line.connect_ex(place))\n"
            "print([name for name in os.listdir('/proc') if name.isdecimal() and int(name) > 99])"
        )
        with socket.socket(socket.AF_UNIX) as named, socket.create_server(("127.0.0.1", 0)) as port:
            named.bind(f"{self.folder}/named"), named.listen()
            done = run("--quiet", "--", sys.executable, "-c", inside, self.folder / "named", port.getsockname()[1])
        assert (done.returncode, done.stdout.split("\n")) == (0, ["0", str(errno.ECONNREFUSED), "[]", ""]), done.stderr
        done = run("--", "sh", "-c", "kill -9 $(pgrep -x hinge-link); exec sleep 9")
        assert (done.returncode, "void: the link broke off before the end" in done.stderr) == (75, True), done.stderr

    def test_what_is_wrong_is_told_before_anything_starts(self) -> None:
        for words, status, told in (
            (["--up", "10Mbps"], 2, "hinge run: --up: '10Mbps': not a bandwidth; write 10Mbit/s\n"),
            (["--loss", "ge"], 2, f"hinge run: --loss ge: {NO_MODEL}\n"),
            (["--line", "queue 1 config pipe 9"], 3, "hinge: queue 1 config pipe 9: no-such-pipe\n"),
            (["--late", "soon"], 2, "hinge run: --late soon: not a duration (example: 600ms)\n"),
            *(
                ([option, "soon", "--server", "true"], 2, f"hinge run: {option} soon: not a duration (example: 600ms)\n")
                for option in ("--server-wait", "--server-end")
            ),
            (["--transcript", "/none/history"], 2, "hinge run: --transcript /none/history: it can't be written\n"),
            (["--faults", "/none"], 2, "hinge run: /none: No such file or directory\n"),
            (["--transcript", "both", "--control", "./both"], 2, "hinge run: --control ./both: the same file as both\n"),
            (["--late", "2"], 2, "hinge run: --late 2: it has no unit; write 2ms or 2s\n"),
            (["--json", "/none/json"], 2, "hinge run: --json /none/json: it can't be written\n"),
            (["--config", "/none"], 2, "hinge run: /none: No such file or directory\n"),
            (["--map", "tcp"], 2, "hinge run: --map tcp: it doesn't end in `=> pipe N` or `=> queue N`\n"),
            *(
                (["--net", net], 2, f"hinge run: --net {net}: no network of {kind}, as 10.20.0.0/24\n")
                for kind, nets in (
                    ("IPv4", ("10.20.0.1/24", "fd00::/64", "x")),
                    ("hosts with /8 to /30", ("10.20.0.0/31", "127.0.0.0/8")),
                )
                for net in nets
            ),
        ):
            got = run(*words, "--", "echo", "started")
            assert (got.returncode, got.stdout, got.stderr) == (status, "", told)
        assert run().returncode == 2

    def test_an_option_of_another_tool_is_answered_by_the_words_of_a_link(self) -> None:
        for option, value, words in (
            ("--rate", "10Mbit/s", "10Mbit/s"),
            ("--delay", "20ms", "20ms"),
            ("--jitter", "5ms", "jitter 5ms"),
        ):
            got = run(option, value, "--", "echo", "started")
            assert (got.returncode, got.stdout) == (2, "")
            assert f"{option}: write --link {shlex.quote(words)}\n" in got.stderr
            assert "nothing came" in run("--up", words, "--", "true").stderr

    def test_names_that_are_not_utf8(self) -> None:
        name = os.path.join(os.fsencode(self.folder), b"a \xff b")
        net = self.folder / "x.net"
        assert run("--line", os.fsdecode(b"\xff"), "--", "true").returncode == 3
        done = run("--up", "1ms", "--transcript", os.fsdecode(name), "--", "true")
        assert (done.returncode, done.stderr.count("nothing came")) == (0, 2), done.stderr
        net.write_text("main a true\nhost b\nlink a b 1ms\n")
        done = hinge("net", net, "--transcripts", f"{os.fsdecode(name)}.session")
        assert done.returncode == 0, done.stderr
        for history in (name, name + b".session/net.history"):
            assert Path(os.fsdecode(history)).read_bytes()[:13] == b"dummynet-live"
        done = hinge("net", net, "--transcripts", self.folder / "a\nb")
        assert (done.returncode, (self.folder / "a\nb").exists()) == (2, False)

    def test_a_transcript_that_is_a_file_to_be_read_is_refused(self) -> None:
        link, alias = self.folder / "link", self.folder / "alias"
        link.write_text("pipe 1 config delay 1\n")
        alias.symlink_to(link)
        got = run("--config", link, "--transcript", alias, "--", "true")
        assert (got.returncode, link.read_text()) == (2, "pipe 1 config delay 1\n"), got.stderr

    def test_the_summary_for_a_program(self) -> None:
        run("--json", self.folder / "json", "--quiet", "--link", "loss 1%", "--seed", "5", "--", "sh", "-c", "exit 3")
        got = json.loads((self.folder / "json").read_text())
        assert (got["status"], got["seed"], got["void"], got["up"]["came"]) == (3, 5, [], 0)

    def test_nothing_but_the_command_speaks(self) -> None:
        run("--transcript", self.folder / "h", "--", "sleep", "2")
        assert "submit" not in (self.folder / "h").read_text()

    @needs("ip")
    def test_an_interface_that_goes_away_ends_the_run(self) -> None:
        got = run("--", "sh", "-c", "sleep 0.2; ip link del dev link; sleep 1000")
        assert (got.returncode, "void: the link broke off before the end" in got.stderr) == (75, True), got.stderr

    def test_a_server(self) -> None:
        serve = (
            f"{sys.executable} -c \"import socket; s=socket.create_server(('',80)); c=s.accept()[0]; c.send(b'hello');"
            ' c.close()"'
        )
        ask = "import socket; print(socket.create_connection(('server',80)).recv(9))"
        got = run("--up", "10ms", "--server", serve, "--", sys.executable, "-c", ask)
        assert (got.returncode, got.stdout.strip()) == (0, "b'hello'"), got.stderr


@needs_rooms
@needs_mounts
@needs("chroot", "getent")
class OfChroots(WithFolder):
    def test_a_root_that_is_no_file_system_s(self) -> None:
        """The folder's mounts are shared, so that a mount outside the run's own room would be visible."""
        words = ["unshare", "-m", "sh", "-c", CHROOTED, self.folder, *HINGE, *"run --quiet -- getent ahostsv4 server".split()]
        got = subprocess.run(words, capture_output=True, text=True, timeout=60)
        assert (got.returncode, got.stderr) == (0, "")
        assert "10.8.0.2" in got.stdout
        assert "mounts came out" not in got.stdout


@needs_rooms
@needs_mounts
@needs("ping")
class OfContainers(WithFolder):
    def test_nothing_but_the_command_speaks(self) -> None:
        """The history has six entries: two lines, a packet in each direction, and the two moments at which they leave."""
        words = [*AS_IN_A_CONTAINER, *HINGE, "run", "--quiet", "--up", "10ms", "--transcript", self.folder / "h", "--"]
        got = subprocess.run([*words, "sh", "-c", "sleep 2; ping -c 1 server6"], capture_output=True, text=True, timeout=60)
        assert (got.returncode, got.stderr, audited(self.folder / "h")) == (0, "", "lawful 6")


@needs_rooms
@needs("ping")
class OfPings(WithFolder):
    def test_round_trips_and_an_audit(self) -> None:
        for name in ("server", "server6"):
            links = ["--up", "30ms", "--down", "40ms", "--transcript", self.folder / name]
            got = run(*links, "--", *"ping -c 3 -i 0.2".split(), name)
            times = [float(text) for text in found(r"time=([0-9.]+)", got.stdout)]
            assert (got.returncode, len(times)) == (0, 3), got.stderr
            assert min(times) >= 70
            audited_as_lawful(self, self.folder / name)

    def test_a_line_each_second(self) -> None:
        got = run("--watch", "--quiet", "--up", "10ms", "--", "ping", "-c", "11", "-i", "0.2", "server")
        assert re.search(
            r"^   1\.\d s  \| up       0\.00\d Mbit/s      \d in link    \d\d\.\d+ ms     0 dropped  \| down", got.stderr
        )

    def test_late_makes_a_run_void(self) -> None:
        got = run("--late", "1ns", "--up", "1ms", "--", "ping", "-c", "2", "-i", "0.2", "server")
        assert (got.returncode, "ms, is above the limit of 1e-06 ms" in got.stderr) == (75, True)

    def test_many_at_once_and_one_in_another(self) -> None:
        words = ["run", "--quiet", "--up", "5ms", "--", "ping", "-q", "-c", "2", "-i", "0.2", "server"]
        many = [subprocess.Popen([*HINGE, *words], stdout=subprocess.DEVNULL) for _ in range(6)]
        assert [one.wait(60) for one in many] == [0] * 6
        got = run("--quiet", "--", *HINGE, *words)
        assert (got.returncode, got.stderr) == (0, "")


@needs_rooms
@needs("pgrep")
class OfTheEnd(unittest.TestCase):
    def end_all(self, mark: str) -> None:
        """A failing test leaves no process behind: a process that sleeps for two hours would hold its caller's output."""
        for process in matching("-f", mark):
            with contextlib.suppress(ProcessLookupError):
                os.kill(process, signal.SIGKILL)

    def test_signals_leave_nothing(self) -> None:
        for number, status in ((signal.SIGTERM, 143), (signal.SIGINT, 130), (signal.SIGKILL, -9)):
            mark = f"sleep {7000 + os.getpid() % 1000}.{int(number)}"
            self.addCleanup(self.end_all, mark)
            words = ["run", "--quiet", "--server", mark, "--server-wait", "50ms", "--", "sh", "-c", f"setsid {mark} & {mark}"]
            begun = subprocess.Popen([*HINGE, *words], stdout=subprocess.DEVNULL, stderr=subprocess.DEVNULL)
            until(lambda: len(matching("-f", f"^{mark}$")) == 3)
            begun.send_signal(number)
            assert begun.wait(60) == status
            until(lambda: not matching("-f", mark))


@needs_rooms
@needs("ping")
class OfNetworks(unittest.TestCase):
    """`hinge run --net` chooses the addresses of a run's network."""

    def test_addresses_of_ones_choice(self) -> None:
        ask = "grep -E 'server6?$' /etc/hosts; ping -c 1 -q 10.20.4.10 && ping -c 1 -q server"
        done = run(*"--quiet --net 10.20.4.8/30 --up 5ms -- sh -c".split(), ask)
        assert (done.returncode, done.stdout.splitlines()[:2]) == (0, ["10.20.4.10 server", "fd08:a14:408::2 server6"]), done.stderr

    def test_a_run_inside_a_run_reaches_the_outer_server(self) -> None:
        if shutil.which("slirp4netns") is None or shutil.which("curl") is None:
            pytest.skip("no slirp4netns or no curl")
        ask = ["curl", "-s", "-o", "/dev/null", "-w", "%{http_code} %{time_connect}", "http://10.8.0.2:8000/"]
        inner = [*HINGE, "run", "--quiet", "--net", "10.9.0.0/24", "--outside", "--up", "30ms", "--", *ask]
        done = run(
            "--quiet", "--up", "20ms", "--server", f"exec {sys.executable} -m http.server 8000 >/dev/null 2>&1", "--", *inner
        )
        code, _, seconds = done.stdout.partition(" ")
        assert (done.returncode, code) == (0, "200"), done.stderr
        assert float(seconds) >= 0.03


class OfSteps(unittest.TestCase):
    def test_steps_are_a_threads_own(self) -> None:
        """A search plans several machines at a time, so another thread's plan doesn't end this thread's plan."""

        def plan_another() -> None:
            with Steps(""):
                pass

        with Steps("") as steps:
            (other := threading.Thread(target=plan_another)).start()
            other.join()
            put_over("/nowhere/hosts", "text")
        assert steps.texts == ["over", "/nowhere/hosts", "text"]

    def test_nothing_is_put_over_a_file_of_the_system(self) -> None:
        with pytest.raises(RuntimeError, match="the system's own mounts"):
            put_over("/etc/hosts", "")
        assert " /etc/hosts " not in read_system("/proc/self/mountinfo")
