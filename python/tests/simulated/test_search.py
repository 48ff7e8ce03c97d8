"""A search finds a fault that a seed draws, and removes everything that the failure doesn't need."""

import json
import shlex
import signal
import subprocess
import sys
import time
from contextlib import nullcontext
from pathlib import Path
from typing import Any

from hinge.command import Fault
from hinge.net.description import read_description
from hinge.net.net_plan import NetPlan
from hinge.searches.case import KINDS, Case, Part, faults_of, joined_losses, least, lossless
from hinge.searches.cause import packets_lost
from hinge.simulated.calls_kept import GOES_ON, PAUSES, CallRow, around
from hinge.simulated.failures import file_beside
from hinge.simulated.places import innermost_place
from machines import HINGE, Simulated, below_of, environment, left, running
from with_folder import WithFolder

# The check fails where c was killed: it begins a second time.
THREE = """
host a exec sleep 1000
host b exec sleep 1000
host c echo >> /dev/shm/starts; exec sleep 1000
main m sh -c 'sleep 15; test $(wc -l < /dev/shm/starts) = 1'
link m a 10Mbit/s 10ms loss 1%
link m b 10Mbit/s 10ms
link m c 10Mbit/s 10ms
loss m b gilbert:0.05,0.5
nemesis kill-one every 5s for 2s until 10s of a b c
nemesis isolate-one every 4s for 1s until 10s of a b c
"""


NET = "host a true\nhost b true\nhost c\nlink a b\nlink c a 1ms\ndisk a data\n"


SIGNALLED = """\
import os, pathlib, signal, sys, time
from hinge.searches.runs import Runs
class Runner:
    is_over = False
    def end(self): self.is_over = True
class Begun(Runs):
    def make(self, seed):
        if seed == 1: os.kill(os.getpid(), signal.SIGHUP)
        while not self.runner.is_over: time.sleep(0.01)
signal.signal(signal.SIGHUP, lambda number, frame: sys.exit(128 + number))
Begun(pathlib.Path(sys.argv[1]), Runner()).make_all(list(range(1, 999)), 2)
"""


TAKEN = """\
import pathlib, sys
from types import SimpleNamespace
from hinge.searches import runs
from hinge.searches.runs import PLAIN, Runs, SummarizedRun
def refused(path, record):
    if sys.argv[2] == "another": pathlib.Path(path).write_text("another user's run")
    raise PermissionError(path)
class Runner:
    is_over, settings = False, SimpleNamespace(what=["run"], pauses=None)
    def run(self, *words): return SummarizedRun(0, "", {"ended": {"name": "status 0"}})
runs.write_json = refused
Runs(pathlib.Path(sys.argv[1]), Runner()).make(1)
"""


class OfCases(WithFolder):
    def test_a_run_that_another_user_made_meanwhile_stays(self) -> None:
        """In a folder such as /tmp, nobody overwrites another user's file."""
        for who, status in (("nobody", 1), ("another", 0)):
            done = subprocess.run([sys.executable, "-c", TAKEN, self.folder, who], capture_output=True, text=True, timeout=60)
            self.assertEqual((done.returncode, "PermissionError" in done.stderr), (status, status == 1), done.stderr)

    def test_a_signal_before_all_runs_are_submitted_ends_those_that_began(self) -> None:
        done = subprocess.run([sys.executable, "-c", SIGNALLED, self.folder], capture_output=True, timeout=60)
        self.assertEqual(done.returncode, 128 + signal.SIGHUP, done.stderr)

    def test_a_net_beside_another_file(self) -> None:
        """The next run of a text removes the file that a killed run left, two simultaneous runs share a file, and a user's own file
        stays."""
        with file_beside(self.folder / "x", NET) as net:
            with file_beside(self.folder / "y", NET) as other:
                self.assertEqual((net.read_text(), other), (NET, net))
            self.assertEqual(net.read_text(), NET)
        for text, left_over in ((NET, []), (NET + NET, [net.name]), ("", [net.name])):
            net.write_text(text)
            with nullcontext() if text == NET else self.assertRaisesRegex(Fault, "needs the name"):
                with file_beside(self.folder / "x", NET):
                    self.assertEqual(net.read_text(), NET)
            self.assertEqual([path.name for path in self.folder.iterdir()], left_over)

    def test_a_fault_is_left_out_with_its_end(self) -> None:
        """The search removes a fault with all events that end it, and with all faults that these events end as well."""
        for lines, parts in (
            (["1s kill a", "2s cut b 3s", "3s kill b", "4s restart a", "5s restart b", "6s a b 5ms"], "03 1 24 5"),
            (["1s kill a 2s", "5s kill a", "9s restart a"], "0 12"),
            (["1s crash a 1s", "3s kill a", "5s restart a", "6s restart a"], "0 12 3"),
            (["1s cut a 500ms", "3s cut a", "5s heal a"], "0 12"),
            (["1s cut a from b", "2s cut a from c", "3s heal c from a", "9s heal a from b"], "03 12"),
            (["1s cut a from b", "2s cut c", "3s heal a"], "012"),
            (["1s b a outage 5s lossy", "2s heal b", "3s b a outage 5s"], "01 2"),
            (["1s stop a", "2s kill a 1s", "4s cont a"], "02 1"),
        ):
            net = self.folder / "x.net"
            net.write_text(NET + "".join(f"at {line}\n" for line in lines))
            found = [part.what for part in faults_of(NetPlan(read_description(str(net)), 1500).events)]
            self.assertEqual(found, [tuple(f"at {lines[int(place)]}" for place in part) for part in parts.split()])

    def test_losses(self) -> None:
        for line, other in (
            ("link a b 1Mbit/s loss 1% 5ms / 2ms loss 3%", "link a b 1Mbit/s 5ms / 2ms"),
            ("loss a b 3%", ""),
            ("host a echo loss 1%", "host a echo loss 1%"),
            ("--up 1Mbit/s loss 1% 5ms", "--up 1Mbit/s 5ms"),
            ("--loss gilbert:0.1,0.3", ""),
            ("--server echo loss 1%", "--server echo loss 1%"),
        ):
            self.assertEqual(lossless(line), other)

    def test_lost_packets(self) -> None:
        """Each lost packet has a number on its way. Packets in a second pass, or after a full queue, have other numbers."""
        rows = ["pipe,1", "queued", "pipe,2", "lost", "pipe,1", "lost", "pipe,65535", "lost", "pipe,1", "full", "pipe,1", "lost"]
        text = "".join(f"c,0,submit,{row},10.8.0.1\n" if "pipe" in row else f"r,{row},1\n" for row in rows)
        (path := self.folder / "history").write_text(text)
        self.assertEqual([one[:2] for one in packets_lost([path], 2) or ()], [(1, 1), (0, 2), (0, 4)])
        path.write_text(text + "c,0,submit,queue,1,10.8.0.1\n")
        self.assertIsNone(packets_lost([path], 2))
        lost = "c,0,submit,pipe,1,10.8.0.1\nr,lost,1\n"
        lines = [f"c,0,configure,pipe 1 config bw 8Mbit/s plr {rate}\n" for rate in ("0.5", "1", "0.1")]
        path.write_text(lost.join(["", *lines, ""]))
        self.assertEqual([one[:2] for one in packets_lost([path], 2) or ()], [(0, 1), (0, 2), (0, 4)])  # the third is a cut's
        self.assertEqual(
            joined_losses(["--loss up:list:2", "--loss up:list:4", "loss a b 2 up:list:1"]),
            ["--loss up:list:2,4", "loss a b 2 up:list:1"],
        )

    def test_calls_around_a_pause(self) -> None:
        """The report lists three earlier calls, three calls by other threads at the pause's start and end, and three later
        calls."""
        rows = [
            CallRow(1000 + n, 1000 + n, 7, 7 + (n == 5 or n == 20), {5: PAUSES, 20: GOES_ON}.get(n, 39), 39, n, "it")
            for n in range(30)
        ]
        told = [line.rpartition(": ")[2] for line in around(rows, 5, 1000)]
        calls = [f"getpid = {n}" for n in range(30)]
        expected = [*calls[2:5], "pauses at getpid", *calls[6:9], "8 calls of others", *calls[17:20], "goes on", *calls[21:24]]
        self.assertEqual(told, expected)

    def test_a_place(self) -> None:
        frames = [
            "#0  __futex (x=1) at ./nptl/futex.c:57",
            "#1  0x0041 in lock () from /lib/libc.so.6",
            "#2  0x0055 in move (a=1) at it.c:8",
            "#3  0x00 in ?? ()",
        ]
        self.assertEqual(
            [innermost_place(frames), innermost_place(frames[:2]), innermost_place([])],
            ["move (it.c:8)", "__futex (futex.c:57) < lock", ""],
        )

    def test_the_least(self) -> None:
        """Of each kind of fault, only the parts that the failure needs remain."""
        for needed in ({"f3"}, {"f0", "f6", "p2"}, {"p0", "p6", "l1"}, {"f1", "f2", "f3", "f4"}):
            parts = tuple(Part(kind, (f"{kind[0]}{number}",)) for kind in KINDS for number in range(7))
            found = least(Case(1, (), parts), lambda case: needed <= {part.what[0] for part in case.parts})
            self.assertEqual({part.what[0] for part in found.parts}, needed)


class OfSearches(Simulated):
    def searched(self, *words: str) -> "subprocess.CompletedProcess[str]":
        return self.hinge("search", *words)

    def test_a_kill_among_many(self) -> None:
        (self.folder / "three.net").write_text(THREE)
        words = ["three.net", "--seeds", "1-3", "--pauses", "drawn", "-P", "2", "--runs", "runs"]
        done = self.searched(*words)
        self.assertEqual(done.returncode, 1, done.stdout + done.stderr)
        failure = json.loads((self.folder / "failure.hinge").read_text())
        self.assertEqual([line for line in failure["net"] if "loss" in line], [])
        faults = [line.split(" ", 2)[2] for line in failure["net"] if line.startswith("at ")]
        self.assertEqual(faults, ["kill c 2s"])
        self.assertNotIn("--pauses", failure["words"])
        again = self.hinge("net", "--like", "failure.hinge")
        self.assertEqual(again.returncode, 1, again.stderr)
        self.assertIn("--like failure.hinge: it ends by status 1, as then", again.stderr)
        self.assertRegex(
            again.stderr, "the same words, environment, folder, input and kernel; the same .* files; the simulated time is the same"
        )
        before = {path: path.stat().st_mtime_ns for path in Path(self.folder, "runs").iterdir()}
        self.assertEqual(len(before), 3)
        self.assertEqual(self.searched(*words).stdout, done.stdout)
        self.assertEqual({path: path.stat().st_mtime_ns for path in before}, before)

    def test_a_command(self) -> None:
        """The command fails if its first packet is lost. No pause and no option except the link's loss matters."""
        words = "run --seeds 1-6 --pauses drawn --link '1ms loss 50%' --memory 256M -- ping -q -c 1 -W 1 server"
        done = self.searched(*shlex.split(words))
        self.assertEqual(done.returncode, 1, done.stdout + done.stderr)
        command = next(line for line in done.stdout.splitlines() if line.startswith("hinge run --link "))
        self.assertIn(" with 0 faults, 0 pauses, 1 loss, found in ", done.stdout)
        self.assertRegex(done.stdout, r"\nlost: \w+ > \w+ packet 1 at 0\.\d{9} s, icmp 10\.8\.0\.\d > 10\.8\.0\.\d, 84 bytes\n")
        self.assertRegex(command, "--link 1ms .*--loss (up|down):list:1 ")
        self.assertEqual(self.hinge(*shlex.split(command)[1:]).returncode, 1)
        again = self.hinge("run", "--like", "failure.hinge")
        self.assertEqual(again.returncode, 1)
        self.assertRegex(again.stderr, "it ends by status 1, as then\n.*the same .* files; the simulated time is the same\n")
        (self.folder / "failure.hinge").rename(self.folder / "other")
        for words, told in (
            (["run", "--like", "other", "--", "true"], "leave out yours"),
            (["net", "--like", "other"], "hinge run --like"),
        ):
            self.assertIn(told, self.hinge(*words).stderr)

    def test_an_interrupt_ends_it_with_a_table_and_nothing_left(self) -> None:
        """At the interrupt one run has ended, and the others compute without end."""
        temporary, runs = self.folder / "temporary", self.folder / "runs"
        temporary.mkdir(), runs.mkdir()
        (runs / "run-1.json").write_text('{"status": 1, "output": "it fails\\n", "record": {"ended": {"name": "status 1"}}}')
        words = [*HINGE, "search", "run", "--seeds", "1-6", "-P", "2", "--runs", runs, "--", "sh", "-c", "while :; do :; done"]
        streams = dict.fromkeys(("stdout", "stderr"), subprocess.PIPE)
        how: dict[str, Any] = {"stdin": subprocess.DEVNULL, **streams, "text": True, "start_new_session": True}
        with subprocess.Popen(words, env=environment(TMPDIR=str(temporary)), **how) as process:
            while len([one for one in left(temporary) if one.name == "kept"]) < 2:
                self.assertIsNone(process.poll())
                time.sleep(0.05)
            below = below_of(process.pid)
            process.send_signal(signal.SIGINT)
            out, err = process.communicate()
        self.assertEqual(out, "seed 1: status 1: it fails\n1 of 1 runs failed, 5 more are left\n", err)
        self.assertEqual(process.returncode, 128 + signal.SIGINT)
        self.assertEqual((left(temporary), running(below)), ([], []))

    def test_a_terminal_that_is_closed_leaves_nothing(self) -> None:
        words = [*HINGE, "search", "run", "--seeds", "1-2", "--", "sh", "-c", "while :; do :; done"]
        with subprocess.Popen(
            words, env=environment(TMPDIR=str(self.folder)), stdin=subprocess.DEVNULL, stdout=subprocess.PIPE
        ) as process:
            while not (below := below_of(process.pid)):
                time.sleep(0.05)
            process.send_signal(signal.SIGHUP)
            process.communicate(timeout=100)
        self.assertEqual((process.returncode, left(self.folder), running(below)), (-signal.SIGHUP, [], []))

    def test_none_that_fails(self) -> None:
        (self.folder / "two.net").write_text("main a true\nhost b\nlink a b 1ms\n")
        done = self.searched("two.net", "--seeds", "1,2")
        self.assertEqual((done.returncode, done.stdout), (0, "0 of 2 runs failed\n"), done.stderr)
        self.assertFalse((self.folder / "failure.hinge").exists())

    def test_a_wrong_net(self) -> None:
        (self.folder / "wrong.net").write_text("main a true\nhots b\n")
        done = self.searched("wrong.net", "--seeds", "1")
        self.assertEqual(done.returncode, 2)
        self.assertIn("line 2: 'hots': not a word of a net", done.stderr)
