"""Changes of a running link, and questions to it, through `--control`."""

import contextlib
import json
import os
import shlex
import shutil
import signal
import socket
import stat
import subprocess
import sys
import unittest
from pathlib import Path
from typing import Callable, Iterator, Optional
from unittest import mock

import pytest

from linked import HINGE, Done, audited_as_lawful, found, hinge, matching, needs, needs_host, needs_rooms, outcome, run, until
from with_folder import WithFolder

from hinge.border.asking import ask
from hinge.border.serving import Server


SLOW_END = """\
import os, signal, subprocess
from hinge.run.processes import Processes
signals = {signal.SIGCHLD, signal.SIGTERM}
words = ["sh", "-c", "trap 'sleep 0.3; exit 5' TERM; echo; while :; do sleep 0.05; done"]
child = subprocess.Popen(words, stdout=subprocess.PIPE)
child.stdout.read(1)
signal.pthread_sigmask(signal.SIG_BLOCK, signals)
os.kill(os.getpid(), signal.SIGTERM)
processes = Processes(signals)
processes.end(child.pid, 20)
print(processes.ended.get(child.pid), flush=True)
os._exit(0)
"""


class InAFolder(WithFolder):
    def setUp(self) -> None:
        super().setUp()
        self.socket = self.folder / "socket"
        self.go = self.folder / "go"
        self.history = self.folder / "history"

    @contextlib.contextmanager
    def running(self, *words: object) -> Iterator["subprocess.Popen[str]"]:
        """Starts a run with a socket, which lasts until the file `go` exists."""
        command = [*HINGE, *map(str, words), *f"--control {self.socket} --transcript {self.history} --quiet".split()]
        if words[0] == "net":
            command.append("--no-realtime")  # of which a user without rights is told
        loop = ["--", "sh", "-c", f"until [ -e {self.go} ]; do sleep 0.05; done"] if words[0] != "udp" else []
        begun = subprocess.Popen([*command, *loop], stdout=subprocess.PIPE, stderr=subprocess.PIPE, text=True)
        try:
            until(self.socket.exists)
            yield begun
            self.go.touch()
            if words[0] == "udp":
                begun.terminate()
            _, said = begun.communicate(timeout=60)
            assert (begun.returncode, said, self.socket.exists()) == (0, "", False)
        finally:
            begun.kill(), begun.wait()
        audited_as_lawful(self, self.history)

    def change(self, *words: str) -> Done[str]:
        return hinge("change", self.socket, *words)

    def obeyed(self) -> list[str]:
        return found("^c,0,configure,(.*)\nr,configured$", self.history.read_text())


@needs_rooms
class OfRuns(InAFolder):
    def test_lines_and_links_are_obeyed_and_stand_in_the_transcript(self) -> None:
        with self.running("run", "--up", "5ms", "--down", "5ms"):
            for words, lines in (
                (["ipfw", "pipe", "1", "config", "bw", "1Mbit/s"], ["pipe 1 config bw 1000000bit/s"]),
                (["up", "9ms"], ["pipe 1 config delay 9"]),
                (["2Mbit/s 3ms"], [f"pipe {pipe} config bw 2000000bit/s delay 3" for pipe in (1, 2)]),
            ):
                done = self.change(*words)
                assert (done.returncode, found(r"^\d+\.\d{6} s: (.*)$", done.stdout)) == (0, lines), done.stderr
        assert self.obeyed()[2:] == [
            "pipe 1 config bw 1000000bit/s",
            "pipe 1 config delay 9",
            "pipe 1 config bw 2000000bit/s delay 3",
            "pipe 2 config bw 2000000bit/s delay 3",
        ]

    def test_an_outage_ends_with_the_line_that_holds(self) -> None:
        with self.running("run", "--up", "5ms"):
            self.change("up", "7ms")
            moments = [float(one) for one in found(r"^(\d+\.\d+) s: ", self.change("up", "outage", "200ms", "lossy").stdout)]
            after = moments[1] * 1e9
            until(lambda: ask(str(self.socket), status=True).status["moment"] >= after)  # type: ignore[index]
        assert self.obeyed()[2:] == ["pipe 1 config delay 7", "pipe 1 config delay 7 plr 1", "pipe 1 config delay 7"]
        assert round((moments[1] - moments[0]) * 1e6) == 200_000

    def test_what_is_refused(self) -> None:
        with self.running("run", "--up", "5ms"):
            for words, status, wanted in (
                (["up", "outage", "1s"], 2, "an outage from now on loses packets: write `outage LENGTH lossy`"),
                (["sideways", "5ms"], 2, "'sideways'"),
                (["pipe", "1", "config", "bw", "3x"], 3, "word 5 '3x': not a bandwidth; write 8Mbit/s"),
                (["queue", "delete", "9"], 3, "queue delete 9: no-such-queue"),
                (["up", "# nothing"], 2, "no words of a link"),
                (["up", f"{'9' * 5000}bit/s"], 2, "words of more than 4,000 letters"),
            ):
                done = self.change(*words)
                assert (done.returncode, wanted in done.stdout + done.stderr) == (status, True), (words, done.stdout, done.stderr)
        assert len(self.obeyed()) == 2
        done = self.change("up", "5ms")
        assert done.returncode == 2
        assert done.stderr == f"hinge change: {self.socket}: no run has this name, from `hinge up` or --control\n"

    def test_it_is_asked(self) -> None:
        with self.running("run", "--up", "5ms"):
            told = json.loads(hinge("status", self.socket).stdout)
            with socket.socket(socket.AF_UNIX) as stranger:  # one that speaks otherwise, and goes
                stranger.connect(str(self.socket))
                stranger.sendall(b"hello\n[]\n")
            status = ask(str(self.socket), status=True).status
            assert status.keys() == told.keys()  # type: ignore[union-attr]
        assert (told["status"], told["up"]["came"], told["void"]) == (None, 0, [])

    def test_a_signal_while_the_host_starts_leaves_nothing(self) -> None:
        host, mark = self.folder / "host", f"{5000 + os.getpid() % 1000}.63"
        host.write_text(f"#!/bin/sh\nexec sleep {mark}\n")  # which is never ready
        host.chmod(0o755)
        for words in (["udp", "0", "1"], ["run", "--up", "1ms", "--", "true"]):
            words[1:1] = ["--control", str(self.socket)]
            with subprocess.Popen([*HINGE, *words], env={**os.environ, "HINGE_LINK": str(host)}) as process:
                until(lambda: matching("-f", f"^sleep {mark}"))
                process.terminate()
            assert (process.returncode, self.socket.exists()) == (143, False), words
            until(lambda: not matching("-f", f"^sleep {mark}"))

    def test_a_signal_while_a_process_ends_does_not_cut_the_wait(self) -> None:
        """The launcher reports a ^C to the first process while the link ends, because its command ended."""
        done = subprocess.run([sys.executable, "-c", SLOW_END], capture_output=True, text=True)
        assert (done.stdout, done.stderr) == ("5\n", "")

    def test_a_defect_of_the_first_process_is_no_silent_end(self) -> None:
        for fault, told in (("Wrong('no such word')", "no such word\n"), ("KeyError('gone')", "KeyError: 'gone'\n")):
            script = (
                "import os, sys; from hinge.run.words import Wrong; from hinge.run.first import first_process\n"
                f"def run(): raise {fault}\nsys.exit(os.waitstatus_to_exitcode(os.waitpid(first_process(run), 0)[1]))"
            )
            done = subprocess.run([sys.executable, "-c", script], capture_output=True, text=True)
            assert (done.returncode, done.stderr[-len(told) :]) == (6, told)

    def test_a_wrong_word_is_told_by_what_was_typed(self) -> None:
        with self.running("run", "--up", "5ms"):
            assert self.change("up", "9msec").stderr == "hinge change: 'up 9msec': '9msec': not a delay; write 9ms\n"

    def test_a_place_is_there_once_it_listens(self) -> None:
        there = list[bool]()
        with mock.patch("socket.socket.listen", side_effect=lambda: there.append(self.socket.exists())):
            server = Server(str(self.socket))
        there.append(self.socket.exists() and stat.S_IMODE(self.socket.stat().st_mode) == 0o600)
        server.end()
        assert (there, os.listdir(self.folder)) == ([False, True], [])

    def test_what_the_user_has_beside_it_stays(self) -> None:
        (notes := self.folder / ".hinge-notes").mkdir()
        (notes / "text").write_text("kept")
        os.utime(notes, (0, 0))
        Server(str(self.socket)).end()
        assert (notes / "text").read_text() == "kept"

    def test_a_place_that_is_taken_and_one_that_was_left(self) -> None:
        self.socket.write_text("")
        done = run("--up", "1ms", "--control", self.socket, "--", "true")
        assert (done.returncode, done.stderr) == (6, f"hinge run: --control {self.socket}: a run or a file has this name\n")
        self.socket.unlink()
        with socket.socket(socket.AF_UNIX) as left:
            left.bind(str(self.socket))
        done = self.change("up", "5ms")
        assert done.stderr == f"hinge change: {self.socket}: its run was killed and left this socket, which may be removed\n"
        assert run("--quiet", "--control", self.socket, "--", "true").returncode == 0
        with self.running("run"):
            assert run("--quiet", "--control", self.socket, "--", "true").returncode == 6


@needs_rooms
@needs("ping")
class OfNets(InAFolder):
    def test_a_partition_by_a_command(self) -> None:
        net = self.folder / "x.net"
        net.write_text("host a\nhost b\nmain c\nlink a b 1ms\nlink a c 2ms\nlink b c 3ms\n")
        with self.running("net", net):
            done = self.change("cut", "c", "from", "a", "1h")
            assert found(r"s: (.*)$", done.stdout) == [
                "pipe 3 config delay 2 plr 1",
                "pipe 3 config delay 2",
                "pipe 4 config delay 2 plr 1",
                "pipe 4 config delay 2",
            ]
            assert found(r"s: (.*)$", self.change("c", "b", "up", "9ms").stdout) == ["pipe 6 config delay 9"]
            refused = self.change("c", "d", "9ms")
            told = "hinge change: 'c d 9ms': 'd': no host of this net; it has a, b, c\n"
            assert (refused.returncode, refused.stderr) == (2, told)
            assert [way["pipe"] for way in json.loads(hinge("status", self.socket).stdout)["ways"]] == [1, 2, 3, 4, 5, 6]
        assert self.obeyed()[6:] == ["pipe 3 config delay 2 plr 1", "pipe 4 config delay 2 plr 1", "pipe 6 config delay 9"]


@needs_rooms
@needs("ping")
class OfHosts(InAFolder):
    """`hinge exec`."""

    def exec(self, *words: object, folder: Optional[Path] = None) -> Done[str]:
        return hinge("exec", self.socket, *map(str, words), folder=folder)

    @contextlib.contextmanager
    def net(self) -> Iterator["subprocess.Popen[str]"]:
        net = self.folder / "x.net"
        net.write_text("host a\nrouter r\nmain c\nlink a r 1ms\nlink r c 2ms\n")
        with self.running("net", net) as begun:
            yield begun

    def test_a_command_on_a_host_of_a_net(self) -> None:
        with self.net():
            done = self.exec(
                *shlex.split("a -- sh -c 'hostname; echo $HINGE_HOST $HINGE_NET; pwd; ping -c 1 -q c >/dev/null && exit 3'"),
                folder=self.folder,
            )
            assert (done.returncode, done.stdout.split()) == (3, ["a", "a", str(self.folder), str(self.folder)]), done.stderr
            assert hinge("exec", self.socket, "r", "hostname").stdout == "r\n"
            assert self.exec("c", "--", "/no/such").returncode == 127
            refused = self.exec("d", "--", "true")
            assert (refused.returncode, refused.stderr) == (2, "hinge exec: 'd': no host of this net, which are a, r, c\n")
            shell = outcome([*HINGE, "exec", self.socket, "r"], input="hostname", env={**os.environ, "SHELL": "/bin/sh"})
            assert (shell.returncode, shell.stdout) == (0, "r\n"), shell.stderr
        assert self.history.read_text().count("\nc,0,submit,") == 4

    def test_a_command_in_a_room_of_a_run(self) -> None:
        with self.running("run", "--up", "5ms"):
            done = self.exec("server", "--", "sh", "-c", "hostname; ping -c 1 -q client >/dev/null")
            assert (done.returncode, done.stdout) == (0, "server\n"), done.stderr
            assert self.exec("a", "--", "true").stderr == "hinge exec: 'a': the hosts are client and server\n"

    def test_a_path_of_a_udp_path_has_no_hosts(self) -> None:
        with self.running("udp", "0", "9"):
            assert self.exec("a", "--", "true").stderr == "hinge exec: 'a': it has no hosts of its own\n"

    @contextlib.contextmanager
    def endless(self, *user: str) -> Iterator["subprocess.Popen[str]"]:
        """Starts this user's net, which runs until something ends it."""
        (net := self.folder / "x.net").write_text("host a\nmain c exec sleep 1h\nlink a c 1ms\n")
        net.chmod(0o644)
        words = [*user, *HINGE, "net", net, "--control", self.socket, "--quiet"]
        run = subprocess.Popen(words, stderr=subprocess.PIPE, text=True, cwd="/")
        try:
            until(lambda: self.socket.exists() or run.poll() is not None)
            yield run
        finally:
            run.terminate()
            run.communicate(timeout=60)

    def ended(self, end: Callable[["subprocess.Popen[str]", "subprocess.Popen[str]"], None]) -> "subprocess.Popen[str]":
        """Asserts that the command on a host ends, with all processes that it started."""
        mark = f"{7000 + os.getpid() % 1000}.{self.id().count('t')}{len(self.id())}"
        words = [*HINGE, "exec", str(self.socket), "a", "--", "sh", "-c", f"setsid sleep {mark} & exec sleep {mark}"]
        with self.endless() as run:
            command = subprocess.Popen(words, stderr=subprocess.PIPE, text=True)
            until(lambda: len(matching("-f", f"^sleep {mark}")) == 2)
            end(run, command)
            command.wait(60)
        until(lambda: not matching("-f", f"^sleep {mark}"))
        return command

    @needs("pgrep", "setsid")
    def test_it_ends_with_the_net(self) -> None:
        for number in (signal.SIGTERM, signal.SIGKILL):
            command = self.ended(lambda run, command: run.send_signal(number))
            assert command.returncode == 137
            assert command.communicate()[1] == "hinge exec: the run has ended, and the command with it\n"

    @needs("pgrep", "setsid")
    def test_it_is_ended(self) -> None:
        for number, status in ((signal.SIGTERM, 143), (signal.SIGKILL, -9)):
            assert self.ended(lambda run, command: command.send_signal(number)).returncode == status

    @unittest.skipUnless(shutil.which("setpriv") and os.geteuid() == 0, "only root can be another user")
    def test_no_root_is_needed(self) -> None:
        self.folder.chmod(0o777)
        user = "setpriv", "--reuid=65534", "--regid=65534", "--clear-groups"
        with self.endless(*user) as run:
            if run.poll() == 6:
                pytest.skip(run.communicate()[1].strip())
            words = [*user, *HINGE, "exec", self.socket, "a", "--", "sh", "-c", "id -u; hostname; ping -c 1 -q c >/dev/null"]
            done = subprocess.run(words, capture_output=True, text=True, cwd="/")
            assert (done.returncode, done.stdout) == (0, "65534\na\n"), done.stderr


@needs_host
class OfUdp(InAFolder):
    def test_a_path_is_changed(self) -> None:
        with self.running("udp", "0", "9"):
            assert self.change("down", "4ms").returncode == 0
        assert self.obeyed()[2:] == ["pipe 2 config delay 4"]
