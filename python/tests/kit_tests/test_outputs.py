"""Outputs of commands: none is an input, under whatever name, and a command that fails leaves the older file."""

import errno
import os
import shutil
import signal
import subprocess
import sys
import unittest
from pathlib import Path
from unittest import mock

from kit import MIXED, folder, mixed, needs_tshark, replay, run, write

from hinge.border.scratch import MARK, remove_all, scratch
from hinge.outputs import written

ROWS = "moment,target,number,src,dst,proto,sport,dport,len,word\n0,pipe,1,1.1.1.1,2.2.2.2,17,1,2,1000,0\n"


class Outputs(unittest.TestCase):
    def refused(self, kept: Path, *words: object) -> None:
        """The command names a file as input and as output. It is refused with status 2, and the file stays."""
        before = kept.read_bytes()
        done = run(*words)
        self.assertEqual((2, before), (done.returncode, kept.read_bytes()), (words, done.stderr))
        self.assertIn("would be written over", done.stderr)

    def test_an_output_that_is_an_input(self) -> None:
        config, packets = write("o.config", "pipe 1 config bw 8Mbit/s\n"), write("o.csv", ROWS)
        report = replay("o", config, packets)
        self.refused(config, "ipfw", config, "-o", config)
        for kept in (packets, report, config):
            self.refused(kept, "look", packets, report, "--config", config, "--json", kept)
        picture = write("o.png", report.read_text())
        self.refused(picture, "look", packets, picture, "-o", "other.svg", "-o", picture)
        history = write("h.png", "dummynet-history,3\nend,0\n")
        self.refused(history, "look", history, "-o", history)

    def test_another_name_of_an_input(self) -> None:
        config, packets = write("n.config", "pipe 1 config\n"), write("n.csv", ROWS)
        report = replay("n", config, packets)
        for name, link in (("n.symbolic", os.symlink), ("n.hard", os.link)):
            (folder() / name).unlink(missing_ok=True)
            link(packets, folder() / name)
            self.refused(packets, "look", packets, report, "--json", name)
        self.refused(packets, "look", packets, report, "--json", f"../{folder().name}/n.csv")

    @needs_tshark
    def test_captures_and_what_is_beside_a_packet_file(self) -> None:
        capture = folder() / "o.pcap"
        capture.write_bytes(MIXED.read_bytes())
        for words in (
            ("-o", capture),
            ("-o", "x.csv", "--index", capture),
            ("-o", "x.csv", "--index", "x.csv"),
            ("--index", "x.csv.addresses", "-o", "x.csv"),
        ):
            done = run("packets", capture, *words)
            self.assertEqual((2, MIXED.read_bytes()), (done.returncode, capture.read_bytes()), done.stderr)
        own = write("own.csv.addresses", "a file of the user\n")
        self.assertEqual(0, run("packets", capture, "-o", "own.csv").returncode)
        self.assertEqual("a file of the user\n", own.read_text())
        _, packets, report = mixed("shared")
        self.refused(capture, "look", packets, report, "--capture", capture, "--index", folder() / "shared.index", "-o", capture)

    def test_what_fails_leaves_the_older_file(self) -> None:
        packets = write("f.csv", ROWS)
        wrong = write("f.wrong", "no report\n")
        report = write("f.report", "older\n")
        self.assertEqual(4, run("look", packets, wrong, "--json", report).returncode)
        self.assertEqual("older\n", report.read_text())
        report.chmod(0o640)
        with self.assertRaises(KeyError), written(report) as place:
            place.write_text("half")
            raise KeyError
        with written(report) as place:
            place.write_text("whole")
        self.assertEqual(("whole", 0o640), (report.read_text(), report.stat().st_mode & 0o777))
        self.assertEqual([], [name for name in os.listdir(folder()) if name.startswith(".")])

    def test_a_full_disk_is_told_of_the_file_that_is_written(self) -> None:
        """And not of the one that is copied, which the system names too."""
        with self.assertRaises(OSError) as raised, written(folder() / "copied"):
            raise OSError(errno.ENOSPC, "No space left on device", "original")
        self.assertEqual(raised.exception.filename, str(folder() / "copied"))

    def test_a_file_system_without_unnamed_files(self) -> None:
        place = write("named", "older\n")
        with mock.patch("hinge.outputs.unnamed_file", lambda folder: None), written(place) as beside:
            beside.write_text("whole")
        self.assertEqual("whole", place.read_text())

    @unittest.skipUnless(os.geteuid() == 0, "only root can give a file away")
    def test_what_another_user_made_in_a_folder_for_all(self) -> None:
        shared, kept = folder() / "shared", write("kept", "kept")
        shared.mkdir()
        (shared / "link").symlink_to(kept)
        for mode, uid, status in ((0o1777, 65534, 6), (0o1777, 0, 0), (0o755, 65534, 0)):
            shared.chmod(mode)
            os.lchown(shared / "link", uid, uid)
            self.assertEqual(status, run("packets", MIXED, "-o", shared / "link").returncode)
            self.assertEqual(kept.read_text() == "kept", status != 0)
            kept.write_text("kept")

    def test_streams_and_devices_are_no_files(self) -> None:
        config, packets = write("d.config", "pipe 1 config\n"), write("d.csv", ROWS)
        report = replay("d", config, packets)
        done = run("look", packets, report, "--json", "/dev/stdout", check=False)  # in a process whose output is a pipe
        self.assertEqual(
            (0, run("look", packets, report).stdout + "{\n"), (done.returncode, done.stdout.partition('"format"')[0].rstrip(" "))
        )
        self.assertEqual(0, run("look", packets, report, "--json", "/dev/null").returncode)
        os.mkfifo(fifo := folder() / "fifo")
        done = run("look", packets, report, "--json", fifo)
        self.assertEqual((6, f"hinge look: {fifo}: No such device or address\n"), (done.returncode, done.stderr))
        with open(os.open(fifo, os.O_RDONLY | os.O_NONBLOCK)) as reader:
            self.assertEqual(0, run("look", packets, report, "--json", fifo).returncode)
            self.assertIn('"format"', reader.read())


SCRATCH = """
import signal, sys, time
from hinge.border.scratch import MARK, remove_all, scratch
signal.signal(signal.SIGHUP, signal.SIG_DFL)  # which nohup has ignored
with scratch(sys.argv[1]) as folder:
    (folder / "file").touch()
    print(folder, flush=True)
    time.sleep(1000)
"""
TWICE = """
import os, signal, sys
from hinge.border.scratch import MARK, remove_all, scratch
for number in (signal.SIGTERM, signal.SIGHUP):
    signal.signal(number, signal.SIG_DFL)
number, another = map(int, sys.argv[2:])
remove = os.unlink
def removed(path, *rest, **more):
    os.kill(os.getpid(), another)
    remove(path, *rest, **more)
with scratch(sys.argv[1]) as folder:
    for name in "abc":
        (folder / name).touch()
    os.unlink = removed
    if number:
        os.kill(os.getpid(), number)
"""

TEMPORARY = """
import os, sys
names = []
def hook(event, values):
    if event == "open" and values[1] is None and values[2] & os.O_CREAT:  # of os.open, which has no mode
        names.append(values[0])
sys.addaudithook(hook)
from hinge.border.scratch import temporary_place, unnamed
with unnamed():
    print(temporary_place(), names)
"""


class OfScratch(unittest.TestCase):
    """Folders for a while."""

    def setUp(self) -> None:
        self.place = folder() / "scratch"
        self.place.mkdir(exist_ok=True)

    def holder(self) -> tuple[subprocess.Popen[str], Path]:
        """A process with such a folder, and its folder."""
        process = subprocess.Popen([sys.executable, "-c", SCRATCH, str(self.place)], stdout=subprocess.PIPE, text=True)
        return process, Path(process.stdout.readline().strip())

    def ended(self, process: subprocess.Popen[str], number: int) -> int:
        process.send_signal(number)
        process.communicate()
        return process.returncode

    def test_signals_while_it_is_removed_leave_nothing_of_it(self) -> None:
        ways = (signal.SIGTERM, signal.SIGINT, signal.SIGHUP)
        for first, another in [(0, one) for one in ways] + [(one, other) for one in ways for other in ways]:
            words = [sys.executable, "-c", TWICE, str(self.place), str(int(first)), str(int(another))]
            done = subprocess.run(words, capture_output=True, text=True)
            self.assertIn(done.returncode, (-first, -another), done.stderr)
            self.assertEqual(list(self.place.iterdir()), [], (first, another))

    def test_the_next_one_takes_away_what_sigkill_left(self) -> None:
        (lives, kept), (dies, _) = self.holder(), self.holder()
        self.ended(dies, signal.SIGKILL)
        with scratch(self.place) as own:
            self.assertEqual({path.name for path in self.place.iterdir()}, {kept.name, own.name})
        self.ended(lives, signal.SIGTERM)

    def test_a_temporary_file_has_no_name_that_a_kill_could_leave(self) -> None:
        (file := self.place / "file").touch()
        self.addCleanup(file.unlink)
        variables = {"TMPDIR": str(file), "TEMP": str(self.place / "missing"), "TMP": str(self.place)}
        done = subprocess.run([sys.executable, "-c", TEMPORARY], env={**os.environ, **variables}, capture_output=True, text=True)
        self.assertEqual(done.stdout, f"{self.place} []\n", done.stderr)

    def test_others_stay(self) -> None:
        """A name like ours without a mark belongs to the user, or to a copy of an old folder."""
        process, left = self.holder()
        self.ended(process, signal.SIGKILL)
        copy, other = self.place / ".hinge-copy", self.place / ".hinge-other"
        shutil.copytree(left, copy)
        left.rename(other)
        (notes := self.place / ".hinge-notes").mkdir()
        (self.place / ".hinge-link").symlink_to(notes)
        for path in (copy, other, notes):
            (path / "text").write_text("kept")
            os.utime(path, (0, 0))
        with scratch(self.place) as own:
            self.assertTrue(own.is_dir() and (own / MARK).is_file())
        self.assertEqual(
            sorted((path.name, (path / "text").read_text()) for path in self.place.iterdir()),
            [(f".hinge-{name}", "kept") for name in ("copy", "link", "notes", "other")],
        )
        shutil.rmtree(self.place)

    def test_a_removal_that_is_killed_is_ended_by_the_next(self) -> None:
        process, left = self.holder()
        self.ended(process, signal.SIGKILL)
        with mock.patch("shutil.rmtree"):
            remove_all(left)
        self.assertEqual(os.listdir(left), [MARK])
        with scratch(self.place):
            self.assertFalse(left.exists())


class OfBudgets(unittest.TestCase):
    def test_where_an_exception_came_from(self) -> None:
        text = "try:\n  with untrusted('f'):\n    [][0]\nexcept Fault as fault:\n  print(fault)"
        for variables in ({}, {"HINGE_TRACEBACK": "1"}):
            words = [sys.executable, "-c", f"from hinge.border.files import *\nfrom hinge.command import Fault\n{text}"]
            done = subprocess.run(words, env={**os.environ, **variables}, capture_output=True, text=True)
            self.assertEqual(done.stdout, "f: it can't be read (IndexError: list index out of range)\n")
            self.assertEqual("Traceback" in done.stderr, bool(variables))

    def test_what_is_told_has_a_length(self) -> None:
        done = run("check", "x" * 100_000)
        self.assertLess(len(done.stderr), 5000)


class OfTerminals(unittest.TestCase):
    """A name of a file or an address that says how a terminal is to look isn't obeyed."""

    def test_names_of_files(self) -> None:
        red = write("\x1b[31mred.csv", "bad\n")
        for command in ("check", "look"):
            done = run(command, red)
            self.assertNotIn("\x1b", done.stdout + done.stderr)
            self.assertIn("\\x1b[31mred.csv", done.stdout + done.stderr)

    def test_addresses_beside_a_packet_file(self) -> None:
        packets, config = write("own.csv", ROWS), write("own.config", "pipe 1 config\n")
        write("own.csv.addresses", "stand-in,address\n1.1.1.1,fd00::1\x1b[31m\n")
        done = run("look", packets, replay("own", config, packets))
        self.assertEqual((done.returncode, done.stdout), (4, ""))
        self.assertEqual(done.stderr, f"hinge look: {packets}.addresses: 'fd00::1\\x1b[31m' isn't an address of IPv6\n")
        write("own.csv.addresses", "stand-in,address\n1.1.1.1,fe80::1%\x1b[31m\n")  # a zone may be any text
        done = run("look", packets, replay("own", config, packets))
        self.assertEqual((done.returncode, "\x1b" in done.stdout + done.stderr), (4, False))
