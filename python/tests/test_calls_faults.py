"""What the calls of the module refuse, and how the library is found."""

import copy
import os
import pickle
import subprocess
import sys
import unittest
from pathlib import Path

import hingetulip
from hingetulip import LineError, Packets, RangeError, Shaper
from with_folder import WithFolder

LINE = "pipe 1 config bw 8Mbit/s delay 20ms queue 1"
SOURCES = Path(hingetulip.__file__).resolve().parent


class Faults(unittest.TestCase):
    def setUp(self) -> None:
        self.shaper = Shaper()
        self.addCleanup(self.shaper.close)
        self.shaper.configure(LINE)

    def test_lines(self) -> None:
        for line, text, kind, word in (
            (
                "pipe 1 config bw 8Mbps",
                "word 5 '8Mbps': not a bandwidth; write 8Mbit/s, in 'pipe 1 config bw 8Mbps'",
                "bad number",
                5,
            ),
            (
                "queue 1 config weight 3",
                "word 1 'queue': the queue's line names no pipe; write queue 1 config pipe 1 .., in 'queue 1 config weight 3'",
                "needs a pipe",
                1,
            ),
            (b"pipe 1 config # \xff", "not UTF-8, in 'pipe 1 config # \ufffd'", "not UTF-8", 0),
            ("pipe \udcff", "not UTF-8, in 'pipe \ufffd\ufffd\ufffd'", "not UTF-8", 0),
        ):
            with self.assertRaises(LineError) as raised:
                self.shaper.configure(line)
            fault = raised.exception
            self.assertEqual((text, kind, word), (str(fault), fault.kind, fault.word))
            again = pickle.loads(pickle.dumps(fault))
            self.assertEqual((text, kind, word), (str(again), again.kind, again.word))
        self.shaper.configure("  # a note")
        self.shaper.configure(b"")

    def test_refusals(self) -> None:
        self.shaper.configure("queue 1 config pipe 1")
        for line, text in (
            ("queue 2 config pipe 3", "no such pipe"),
            ("pipe 1 delete", "pipe has queues"),
            ("queue 2 delete", "no such queue"),
        ):
            with self.assertRaises(hingetulip.RefusedError) as raised:
                self.shaper.configure(line)
            self.assertEqual(text, str(raised.exception))

    def test_numbers(self) -> None:
        for values in (
            dict(moment=-1),
            dict(moment=2**62 + 1),
            dict(moment=2**64),
            dict(length=0),
            dict(length=65536),
            dict(pipe=0),
            dict(pipe=65536),
            dict(src=2**32),
            dict(dst=-1),
            dict(sport=65536),
            dict(dport=-1),
            dict(proto=256),
            dict(word=2**32),
        ):
            with self.subTest(values):
                self.assertRaises(RangeError, self.shaper.submit, **{"moment": 0, "length": 1, "pipe": 1, **values})
        for values in (dict(moment=0.5), dict(length="1"), dict(src="10.0.0.1"), dict(pipe=None), dict(queue=1)):
            with self.subTest(values):
                self.assertRaises(TypeError, self.shaper.submit, **{"moment": 0, "length": 1, "pipe": 1, **values})
        for call in (self.shaper.collect, self.shaper.collect_many, self.shaper.advance):
            for moment in (-1, 2**62 + 1, 2**64):
                self.assertRaises(RangeError, call, moment)
            self.assertRaises(TypeError, call, 1.0)
        self.assertEqual([], self.shaper.show())

    def test_a_closed_shaper(self) -> None:
        with self.shaper as shaper:
            self.assertFalse(shaper.closed)
        self.assertTrue(self.shaper.closed)
        self.shaper.close()
        packets = Packets(1, moment=0, length=1, pipe=1)
        for call in (
            lambda: self.shaper.submit(0, 1, pipe=1),
            lambda: self.shaper.submit_many(packets),
            lambda: self.shaper.collect(0),
            lambda: self.shaper.advance(0),
            self.shaper.show,
            self.shaper.wake,
            lambda: self.shaper.configure(LINE),
        ):
            self.assertRaises(hingetulip.ClosedError, call)

    def test_no_copies(self) -> None:
        for copied in (copy.copy, copy.deepcopy, pickle.dumps):
            self.assertRaises(TypeError, copied, self.shaper)


class Finding(WithFolder):
    def run_at(self, place: Path, **variables: str) -> subprocess.CompletedProcess[str]:
        """Imports the module that lies in a folder, and prints where its library was found."""
        kept = {name: value for name, value in os.environ.items() if name not in ("HINGETULIP_LIBRARY", "PYTHONPATH")}
        return subprocess.run(
            [sys.executable, "-c", "import hingetulip; print(hingetulip.LIBRARY)"],
            cwd=place,
            capture_output=True,
            text=True,
            env={**kept, "PYTHONPATH": str(place), "PYTHONDONTWRITEBYTECODE": "1", **variables},
        )

    def test_places(self) -> None:
        top = self.folder.resolve()
        module = top / "lib" / "python" / "hingetulip"
        module.mkdir(parents=True)
        for source in SOURCES.glob("*.py"):
            (module / source.name).write_bytes(source.read_bytes())
        done = self.run_at(module.parent, HINGETULIP_LIBRARY=str(top / "none.so"))
        self.assertIn("none.so", done.stderr)
        self.assertIn("HINGETULIP_LIBRARY can name it", done.stderr)
        for place in (top / "lib" / "libhingetulip.so", top / "lib" / "libhingetulip.so.1", module / "libhingetulip.so"):
            place.symlink_to(Path(hingetulip.LIBRARY).resolve())
            done = self.run_at(module.parent)
            self.assertEqual((f"{place}\n", ""), (done.stdout, done.stderr))
