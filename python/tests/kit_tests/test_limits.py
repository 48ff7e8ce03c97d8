"""Inputs that are one step over a limit of SECURITY.md, and those that may be longer than others."""

from unittest import mock

from linked import needs_rooms
from simulated_hosts import TOP
from test_hostile import DRY, HEADER, HISTORY, OF_TWO, REPORT, ROW, Hostile

from hinge.border.files import LONGEST_LINE, MOST_LINES, MOST_OBJECT, MOST_SAID, MOST_TABLE, MOST_TEXT, Unpacked
from hinge.checks.lines import MOST_LINE_BYTES
from hinge.command import Fault
from hinge.net.nemesis import MOST_DRAWS
from hinge.replays import parting

CONFIGURED = ["run", "--config", "x", "--", "true"]
NEMESIS = "nemesis isolate-one every 1s for 1s until 9999s\n"
BEYOND = {  # the command, its text, and what is more than it may be
    "lines of a text": (DRY, b"\n" * (MOST_LINES + 1), f"{MOST_LINES:,} lines"),
    "lines that say something": (CONFIGURED, b"x\n" * (MOST_SAID + 1), f"{MOST_SAID:,} lines that say something"),
    "a line of rows": (["why", "1", "c", "x", "x"], HEADER + b"x" * LONGEST_LINE + b"x\n", f"{LONGEST_LINE:,} letters in a line"),
    "a line of a configuration": (["check", "x"], b"pipe 1 config " + b"delay 1 " * 9000, f"{MOST_LINE_BYTES:,} bytes in a line"),
    "a line of a net": (
        DRY,
        (OF_TWO + "line a b pipe 1 config" + " delay 1" * 8170).encode(),
        f"{MOST_LINE_BYTES:,} bytes in a line",
    ),
    "a command of ipfw": (
        ["ipfw", "x"],
        b'A="' + b"delay 1 " * 5000 + b'"\nipfw pipe 1 config $A $A\n',
        f"{MOST_LINE_BYTES:,} bytes in a line",
    ),
    "a text that never ends": (["check", "/dev/zero"], b"", f"{MOST_TEXT:,} bytes\n"),
    "rows that never end": (["look", "/dev/zero"], b"", f"{LONGEST_LINE:,} bytes in a line\n"),
    "histories that never end": (["look", "--diff", "/dev/zero", "/dev/zero"], b"", f"{LONGEST_LINE:,} letters in a line\n"),
    "a net that never ends": (["net", "/dev/zero", "--dry-run"], b"", "65,536 letters in a line\n"),
    "a timeline that never ends": (["run", "--timeline", "/dev/zero", "--", "true"], b"", "65,536 letters in a line\n"),
    "JSON": (["look", "net"], b" " * (MOST_OBJECT + 1), f"{MOST_OBJECT:,} bytes"),
    "events": (DRY, (OF_TWO + NEMESIS * 14).encode(), f"{MOST_SAID:,} events of links and hosts"),
    "draws": (
        DRY,
        ("router r\n" + "".join(f"host h{n}\nlink r h{n} 1ms\n" for n in range(999)) + NEMESIS).encode(),
        f"{MOST_DRAWS:,} random",
    ),
}
TRACED = ["run", "--quiet", "--link", "1ms", "--up-trace", "x", "--", "true"]
LONGER = {  # what may say more than other texts
    "rates of a trace": (TRACED, b"".join(b"%d,%d\n" % (n, 1000 + n) for n in range(MOST_SAID + 1))),
    "milliseconds of a trace": (TRACED, b"1\n" * (MOST_LINES + 1)),
    "addresses": (
        ["look", "p", "r"],
        b"stand-in,address\n"
        + b"".join(b"240.%d.%d.%d,fd00::1:%x:%x\n" % (*n.to_bytes(3, "big"), n >> 16, n & 65535) for n in range(MOST_SAID + 1)),
    ),
    "lines of a configuration": (["check", "x"], b"pipe 1 config\n" + b"#\n" * MOST_LINES),
}
LIMITS = (MOST_TEXT, MOST_LINES, MOST_SAID, MOST_TABLE, LONGEST_LINE, MOST_LINE_BYTES, MOST_OBJECT, MOST_DRAWS, Unpacked.FREE)


class OfLimits(Hostile):
    def test_beyond_each_limit(self) -> None:
        for name, (words, data, what) in BEYOND.items():
            with self.subTest(name):
                done = self.of_text(words, data)
                self.assertIn(f"more than {what}", done.told)
                self.assertIn(done.status, {2, 3, 4}, done.told)
        self.assertEqual(self.of_text(["check", "x"], b"pipe 1 config #" + b"x" * 70_000).status, 0)  # a comment may be longer
        self.file.write_bytes(HISTORY + b"#\n" * 100)
        with mock.patch.object(parting, "MOST_TABLE", 100), self.assertRaisesRegex(Fault, "more than 100 bytes"):
            list(parting.entries(self.file))

    @needs_rooms
    def test_some_texts_may_be_longer(self) -> None:
        (self.folder / "p").write_bytes(HEADER + ROW.replace(b"1,", b"0,", 1)), (self.folder / "r").write_bytes(REPORT)
        for name, (words, data) in LONGER.items():
            with self.subTest(name):
                done = self.of_text(words, data)
                self.assertEqual(done.status, 0, done.told)

    def test_the_limits_are_those_of_the_page(self) -> None:
        page = (TOP / "SECURITY.md").read_text(encoding="utf-8")
        self.assertEqual([], [f"{limit:,}" for limit in LIMITS if f"{limit:,} " not in page])
