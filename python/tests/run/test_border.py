"""The control socket, with clients that are idle, send garbage, disappear or belong to another user."""

import contextlib
import fcntl
import json
import os
import resource
import shutil
import socket
import subprocess
import sys
import time
import unittest
from pathlib import Path
from typing import Iterator

from linked import found, hinge, matching, needs_rooms, plan_of, stopped, until
from test_control import InAFolder

from hinge.border.programs import can_be_read
from hinge.run.cgroups import name_of, own_folder, remove_left
from hinge.run.control import Control
from hinge.run.host_lines import UNTAKEN, LinkReply
from hinge.run.page import Page

ODD = (
    b"5\n",
    b"null\n",
    b'"x"\n',
    b"[" * 60_000 + b"\n",
    b"\xff\xfe\n",
    b'{"change": 5}\n',
    b'{"enter": 5}\n',
    b'{"x": 1}\n',
    b'{"number": true}\n',
    b'{"number": 1.5}\n',
    b'{"number": ' + b"9" * 5000 + b"}\n",
    b"{}\n",
    b"x" * 100_000 + b"\n",
    b"[" * 200_000 + b"\n",
    b'{"change": ""}\n',
    b'{"change": "up"}\n',
    b'{"change": "up outage 1s"}\n',
    b'{"change": "up ' + b"9" * 5000 + b'bit/s"}\n',
)
PYTHON = Path(__file__).resolve().parents[2]


MAKES_CGROUPS = """
import signal, sys
from pathlib import Path
from hinge.run.cgroups import Cgroup
made = [Cgroup(Path(name)) for name in sys.argv[1:]]
made[1].join()
print(flush=True), signal.pause()
"""


class OfCgroups(unittest.TestCase):
    def test_those_of_a_killed_run_go_and_no_others(self) -> None:
        """Folders in use by a process stay, and so do folders whose name lacks the right checksum."""
        above = own_folder()
        if above is None or not os.access(above, os.W_OK):
            self.skipTest("this user may make no cgroup")
        number = f"{os.getpid():012x}"
        names = [above / name_of(number, kind) for kind in ("left", "used")] + [above / f"hinge-{number}00000000-other"]
        names[2].mkdir()
        self.addCleanup(lambda: [one.rmdir() for one in names if one.exists()])
        with subprocess.Popen([sys.executable, "-c", MAKES_CGROUPS, *names[:2]], stdout=subprocess.PIPE, cwd=PYTHON) as run:
            run.stdout.read(1)
            remove_left(above)
            self.assertEqual([one.exists() for one in names], [True] * 3)
            run.kill()
        until(lambda: "populated 0" in (names[1] / "cgroup.events").read_text())
        with subprocess.Popen(["sleep", "60"]) as user:
            (names[1] / "cgroup.procs").write_text(str(user.pid))
            remove_left(above)
            self.assertEqual([one.exists() for one in names], [False, True, True])
            user.kill()
        until(lambda: "populated 0" in (names[1] / "cgroup.events").read_text())
        remove_left(above)
        self.assertEqual([one.exists() for one in names], [False, False, True])


@needs_rooms
class OfDescriptors(unittest.TestCase):
    def test_one_of_any_number_is_waited_for(self) -> None:
        """A net of several hundred hosts opens more descriptors than select(2) accepts."""
        limits = resource.getrlimit(resource.RLIMIT_NOFILE)
        self.addCleanup(resource.setrlimit, resource.RLIMIT_NOFILE, limits)
        resource.setrlimit(resource.RLIMIT_NOFILE, (3000, limits[1]))
        reader, writer = os.pipe()
        high = fcntl.fcntl(reader, fcntl.F_DUPFD, 2000)
        for descriptor in (reader, writer, high):
            self.addCleanup(os.close, descriptor)
        self.assertFalse(can_be_read(high, 0))
        os.write(writer, b"x")
        self.assertTrue(can_be_read(high, 60))


class OfClients(InAFolder):
    @contextlib.contextmanager
    def client(self) -> Iterator[socket.socket]:
        with socket.socket(socket.AF_UNIX) as line:
            line.settimeout(60)
            line.connect(str(self.socket))
            yield line

    def test_odd_lines_are_refused_and_the_run_goes_on(self) -> None:
        with self.running("run", "--up", "5ms"):
            for text in ODD:
                with self.client() as line:
                    with contextlib.suppress(BrokenPipeError, ConnectionResetError):
                        line.sendall(text)
                        answer = json.loads(line.makefile().readline())
                        self.assertIn("refused", answer, text[:40])
            self.assertEqual(self.change("up", "7ms").returncode, 0)

    def test_an_outage_is_one_line_for_the_host(self) -> None:
        taken, plan = list[str](), plan_of("pipe 1 config delay 5", "pipe 2 config delay 5")
        control = Control(str(self.socket), plan, Page(), plan.read, dict)
        self.addCleanup(control.end)

        def ask(text: str, until: object = None, is_wanted: object = None) -> LinkReply:
            if text == "moment":
                return LinkReply(5, "", "")
            taken.append(text.rpartition(" ")[0])
            return LinkReply(5, UNTAKEN if is_refused else "", "begun\nended")

        control.lines.ask = ask  # type: ignore[method-assign, assignment]
        for is_refused in (False, True):
            taken.clear()
            told = control.change("up outage 7ns lossy")
            self.assertEqual(taken, ["line remark change,up outage 7ns", "outage 7 cut 1"])
            self.assertEqual([(one.moment, one.refused) for one in told], [(5, UNTAKEN)] if is_refused else [(5, ""), (12, "")])

    def test_an_order_has_its_number_again(self) -> None:
        with self.running("run", "--up", "5ms"), self.client() as line:
            stream = line.makefile()
            line.sendall(b'{"number": 7, "status": true}\n{"number": 8, "change": "up 6ms"}\n')
            self.assertEqual([json.loads(stream.readline())["number"] for _ in range(2)], [7, 8])

    def test_what_a_stalled_host_has_not_taken_is_never_obeyed(self) -> None:
        with self.running("run", "--up", "5ms") as begun:
            until(lambda: bool(hosts_of(begun.pid)))
            with contextlib.ExitStack() as still:
                for host in hosts_of(begun.pid):
                    still.enter_context(stopped(host))
                refused = self.change("up", "11ms")
                with self.client() as line:  # one that goes
                    line.sendall(b'{"change": "up 12ms"}\n')
                time.sleep(0.5)
            self.assertEqual((refused.returncode, "not obeyed" in refused.stderr), (2, True), refused.stdout)
            later = self.change("up", "21ms")
            self.assertEqual((later.returncode, found(r"s: (.*)$", later.stdout)), (0, ["pipe 1 config delay 21"]))
        self.assertEqual(self.obeyed()[2:], ["pipe 1 config delay 21"])

    @unittest.skipUnless(shutil.which("setpriv") and os.geteuid() == 0, "only root can be another user")
    def test_another_user_is_no_run_and_no_client(self) -> None:
        self.folder.chmod(0o777)
        other = ["setpriv", "--reuid=65534", "--regid=65534", "--clear-groups", sys.executable, "-c"]
        with self.running("run", "--up", "5ms"):
            self.socket.chmod(0o777)
            answers = [subprocess.run([*each, ASKS, str(self.socket)], capture_output=True).stdout for each in (other, other[4:])]
        self.assertEqual([b"moment" in answer for answer in answers], [False, True], answers)
        with subprocess.Popen([*other, FALSE_RUN, str(self.socket)]) as false:
            try:
                until(self.socket.exists)
                for words in (["status"], ["change", "up", "1ms"], ["down"], ["exec", "a", "--", "id"]):
                    done = hinge(words[0], self.socket, *words[1:])
                    self.assertEqual((done.returncode, "another user's process" in done.stderr), (2, True), done.stderr)
            finally:
                false.kill()

    @unittest.skipUnless(os.geteuid() == 0, "only root can give a folder to another user")
    def test_names_are_of_ones_own_folder(self) -> None:
        (self.folder / "hinge").mkdir()
        os.chown(self.folder / "hinge", 65534, 65534)
        for words in (["status", "x"], ["change", "x", "1ms"], ["down", "x"], ["exec", "x", "a"]):
            done = hinge(*words, XDG_RUNTIME_DIR=str(self.folder))
            self.assertEqual((done.returncode, done.stderr.endswith("it is another user's\n")), (2, True), done.stderr)


def hosts_of(process: int) -> list[int]:
    """Returns a run's host and the writer of its transcript."""
    return [one for one in matching("-x", "hinge-link") if descends(one, process)]


ASKS = """
import contextlib, socket, sys
line = socket.socket(socket.AF_UNIX)
with contextlib.suppress(BrokenPipeError, ConnectionResetError):
    line.connect(sys.argv[1]), line.sendall(b'{"status": true}\\n'), print(line.recv(9999))
"""
FALSE_RUN = """
import os, socket, sys
line = socket.socket(socket.AF_UNIX)
line.bind(sys.argv[1]), os.chmod(sys.argv[1], 0o666), line.listen()
while True:
    try:
        line.accept()[0].sendall(b'{"number": 1, "status": {}, "entered": {"PATH": "/tmp"}}\\n')
    except OSError:
        pass
"""


def descends(process: int, above: int) -> bool:
    """Returns whether a process descends from another one."""
    with contextlib.suppress(OSError):  # it has ended
        while process > 1 and process != above:
            process = int(Path(f"/proc/{process}/stat").read_text().rpartition(")")[2].split()[1])
    return process == above
