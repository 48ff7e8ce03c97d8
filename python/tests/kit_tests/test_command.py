"""The frame around every command: its progress on a terminal, its end if the system refuses something, a stream that can't be written,
and a program whose answer counts as missing since it was killed before, in or after it, or couldn't continue."""

import contextlib
import errno
import io
import os
import signal
import subprocess
import sys
import unittest
from pathlib import Path
from typing import Callable
from unittest import mock

from hinge import command
from hinge.border.files import Exceeded
from hinge.program import HINGE, dummynet, packets_program
from kit import MIXED, TOP, folder, write

CLEARED = "\r\x1b[K"
ENVIRONMENT = {**os.environ, "PYTHONPATH": os.pathsep.join(sys.path)}


class Terminal(io.StringIO):
    def isatty(self) -> bool:
        return True


class Progress(unittest.TestCase):
    def told(self, moments: list[float], terminal: io.StringIO) -> str:
        """What is told of the counts 1000, 2000 .. at these moments, and at the end."""
        clock = mock.patch.object(command.time, "monotonic", side_effect=[0.0, *moments])
        with clock, contextlib.redirect_stderr(terminal):
            progress = command.Progress("rows")
            for number in range(len(moments)):
                progress.at(1000 * number + 1000)
            progress.done()
        return terminal.getvalue()

    def test_it_begins_on_a_terminal_after_two_seconds_and_goes_on_each_half(self) -> None:
        for moments, terminal, told in (
            ([1.9, 2.1, 2.2, 2.7], Terminal(), f"{CLEARED}rows: 2,000{CLEARED}rows: 4,000{CLEARED}"),
            ([0.5, 1.9], Terminal(), ""),
            ([2.1, 9.0], io.StringIO(), ""),
        ):
            self.assertEqual(self.told(moments, terminal), told)


def test_a_bar_counts_steps_and_failures() -> None:
    clock = mock.patch.object(command.time, "monotonic", side_effect=[0, 1, 2.5, 2.6, 4])
    terminal = Terminal()
    with clock, contextlib.redirect_stderr(terminal):
        bar = command.Bar("runs", 8)
        for failed in (False, True, False, False):
            bar.step(failed)
        bar.clear()
    counts = f"{CLEARED}2 of 8 runs, 1 failed, 8 s left{CLEARED}4 of 8 runs, 1 failed, 4 s left{CLEARED}"
    assert terminal.getvalue() == counts


class Working(unittest.TestCase):
    def told(self, terminal: io.StringIO, after: float) -> str:
        with mock.patch.object(command, "PROGRESS_AFTER", after), contextlib.redirect_stderr(terminal):
            with command.working("reading"):
                end = command.time.monotonic() + 60
                while after < 1 and terminal.isatty() and not terminal.getvalue() and command.time.monotonic() < end:
                    command.time.sleep(0.005)
        return terminal.getvalue()

    def test_what_takes_long_on_a_terminal_is_told_and_taken_away(self) -> None:
        long = f"{CLEARED}reading ..{CLEARED}"
        for terminal, after, told in ((Terminal(), 0.01, long), (Terminal(), 60, CLEARED), (io.StringIO(), 0.0, "")):
            self.assertEqual(self.told(terminal, after), told)


class Ends(unittest.TestCase):
    def ended(self, main: Callable[[], object]) -> tuple[object, str]:
        said = io.StringIO()
        with contextlib.redirect_stderr(said), mock.patch.object(command, "NAME", ["hinge some"]):
            with self.assertRaises(SystemExit) as left:
                command.run(main)
        return left.exception.code, said.getvalue()

    def test_nothing_gets_past_the_top(self) -> None:
        for error, status, told in (
            (None, 0, ""),
            (command.Fault("row 1: \x1b[31mbad", 4), 4, "row 1: \\x1b[31mbad"),
            (FileNotFoundError(errno.ENOENT, "No such file or directory", "here"), 6, "here: No such file or directory"),
            (OSError(errno.ENOSPC, "No space left on device"), 6, "standard output: No space left on device"),
            (OSError(errno.EMFILE, "Too many open files"), 6, "the system: Too many open files"),
            (MemoryError(), 6, "the system: there is no memory for this"),
            (SystemError("error return without exception set"), 6, "the system: error return without exception set"),
            (
                ImportError("x.so: failed to map segment from shared object"),
                6,
                "the system: x.so: failed to map segment from shared object",
            ),
            (RuntimeError("can't start new thread"), 6, "the system: can't start new thread"),
            (Exceeded(5, "bytes"), 4, "it has more than 5 bytes"),
            (KeyError("x"), 70, "a defect of hinge (KeyError: 'x'); with HINGE_TRACEBACK=1 it shows where"),
            (RecursionError(), 70, "a defect of hinge (RecursionError: ); with HINGE_TRACEBACK=1 it shows where"),
            (SystemExit(3), 3, ""),
            (SystemExit(), 0, ""),
            (KeyboardInterrupt(), 130, ""),
        ):
            self.assertEqual(self.ended(mock.Mock(side_effect=error)), (status, f"hinge some: {told}\n" if told else ""))

    def test_an_interrupt_while_python_loads_the_kit_ends_it_without_a_word(self) -> None:
        module, kit = folder() / "early" / "sitecustomize.py", TOP / "python" / "hinge" / "__main__.py"
        module.parent.mkdir()
        kill = "about[0] == 'typing' and os.kill(os.getpid(), signal.SIGINT)"
        module.write_text(f"import os, signal, sys\nsys.addaudithook(lambda event, about: event == 'import' and {kill})\n")
        for words in ([TOP / "hinge"], [sys.executable, kit]):
            done = subprocess.run(
                [*words, "help"], env={**os.environ, "PYTHONPATH": str(module.parent)}, capture_output=True, text=True
            )
            self.assertEqual((done.returncode, done.stdout, done.stderr), (-signal.SIGINT, "", ""))

    def test_what_is_lacking_is_told_with_its_package(self) -> None:
        self.assertEqual(
            self.ended(lambda: command.path_of_program("no-such", "its-package")),
            (7, "hinge some: needs no-such: apt-get install its-package\n"),
        )
        told = "needs Python's no_such: pip install no_such, or apt-get install python3-no"
        self.assertEqual(self.ended(lambda: command.module("no_such.part", "python3-no")), (7, f"hinge some: {told}\n"))


class Streams(unittest.TestCase):
    def test_a_closed_one_takes_no_file_of_the_command(self) -> None:
        """A file opened later would get the closed stream's number, and messages would be written there."""
        script = (
            "from hinge import command; import os, sys; command.open_closed_streams(); "
            "made = os.open('stream', os.O_CREAT | os.O_RDWR); "
            "print('told', file=sys.stderr, flush=True); os.write(made, b'%d' % made)"
        )
        words = ["sh", "-c", 'exec "$0" -c "$1" <&- >&- 2>&-', sys.executable, script]
        subprocess.run(words, cwd=folder(), env=ENVIRONMENT, check=True)
        self.assertGreater(int((folder() / "stream").read_text()), 2)

    def test_a_closed_one_is_no_empty_capture(self) -> None:
        words = ["sh", "-c", 'exec "$0" -m hinge packets - <&-', sys.executable]
        done = subprocess.run(words, cwd=folder(), env=ENVIRONMENT, capture_output=True, text=True)
        self.assertEqual((done.returncode, done.stdout, done.stderr), (6, "", "hinge packets: standard input is closed\n"))


CONFIG = "pipe 1 config bw 8Mbit/s\n"
ROWS = "moment,target,number,src,dst,proto,sport,dport,len,word\n0,pipe,1,1.1.1.1,2.2.2.2,17,1,2,1000,0\n"
ENDS = {
    "cat >/dev/null; kill -9 $$": "was ended by SIGKILL",
    '"$real" "$@" 2>/dev/null | { head -c 30; kill -9 $$; }': "was ended by SIGKILL",
    '"$real" "$@"; kill -9 $$': "was ended by SIGKILL",
    "echo no room >&2; exit 5": "ended with status 5: no room",
    "exit 127": "ended with status 127",
}
COMMANDS = (
    ["check", "c"],
    ["check", "p"],
    ["check", "h"],
    ["ipfw", "c"],
    ["why", "1", "c", "p", "r"],
    ["net", "n.net", "--dry-run"],
    ["run", "--config", "c", "--", "true"],
)
OF_PACKETS = (["look", "h"], ["look", "p", "r"], ["why", "1", "h"], ["packets", MIXED, "-o", "out.csv"])


class OfPrograms(unittest.TestCase):
    def setUp(self) -> None:
        self.place = folder() / "programs"
        self.place.mkdir(exist_ok=True)
        for name, text in (("c", CONFIG), ("p", ROWS), ("n.net", "host a\nhost b\nlink a b bw 1Mbit/s\n")):
            (self.place / name).write_text(text)
        subprocess.run(
            [dummynet(), "replay", "c", "p", "--history", "h"], cwd=self.place, stdout=open(self.place / "r", "w"), check=True
        )

    def told(self, variable: str, real: str, end: str, words: "list[str]") -> str:
        """Returns a command's message if this program in the place of the real one ends so."""
        program = Path(write("programs/program", f"#!/bin/sh\nreal={real}\n{end}\n"))
        program.chmod(0o755)
        env = {**os.environ, variable: str(program)}
        done = subprocess.run([*HINGE, *words], cwd=self.place, env=env, capture_output=True, text=True)
        self.assertEqual((done.returncode, done.stdout), (6, ""), done.stderr)
        return done.stderr

    def test_what_was_killed_has_given_no_answer(self) -> None:
        for end, told in ENDS.items():
            for words in COMMANDS:
                with self.subTest(end=end, words=words):
                    message = self.told("DUMMYNET", dummynet(), end, words)
                    self.assertRegex(message, rf"\Ahinge {words[0]}: (dummynet|program) (\w+ )?{told}\n\Z")

    def test_no_more_has_a_reader_that_was_killed(self) -> None:
        """Columns behind those that a command needs aren't read, so only a capture's answer always has an end."""
        before, within, behind = "kill -9 $$", *list(ENDS)[1:3]
        for end, commands in ((before, OF_PACKETS), (within, OF_PACKETS), (behind, OF_PACKETS[-1:])):
            for words in commands:
                with self.subTest(end=end, words=words):
                    message = self.told("HINGE_PACKETS", packets_program(), end, words)
                    self.assertEqual(message, f"hinge {words[0]}: hinge-packets was ended by SIGKILL\n")


WRITING = (
    ["help"],
    [],
    ["nonsense"],
    ["check", "good"],
    ["check", "bad"],
    ["status", "nosuch"],
    ["why"],
    ["packets", MIXED, "-o", "streams.csv"],
    ["run", "--quiet", "--server", "true", "--", "true"],
)


class OfStreams(unittest.TestCase):
    def status(self, words: list[object], ends: str) -> tuple[int, str]:
        script = f'exec 3>&2; {{ "$@"; }} {ends}; echo $?  >&3'
        done = subprocess.run(["sh", "-c", script, "sh", *HINGE, *map(str, words)], capture_output=True, text=True, cwd=folder())
        *told, status = done.stderr.splitlines()
        return int(status), "\n".join(told)

    def test_what_cannot_be_written_is_no_silent_fault(self) -> None:
        write("good", "pipe 1 config\n"), write("bad", "pipe 1 confg\n")
        for words in WRITING:
            usual, _ = self.status(words, ">/dev/null 2>/dev/null")
            for ends in (">/dev/full", "2>/dev/full", ">/dev/full 2>&1"):
                with self.subTest(words=words, ends=ends):
                    status, told = self.status(words, ends)
                    self.assertIn(status, {usual, 6}, told)
                    self.assertNotIn("Traceback", told)
                    self.assertNotEqual(status, 120)
            closed, _ = self.status(words, ">&- 2>&-")
            self.assertEqual(closed, usual, words)
