"""Histories, transcripts and packet files of each form, however their bytes come in blocks; and reports of live sessions."""

import os
import random
import shutil
import subprocess
import sys
import unittest
from unittest.mock import patch

from hinge.program import dummynet
from hinge.replays.history import read_history_source
from hinge.replays.replay import NONE, OUT, Replay, read_packets, read_report
from kit import TOP, folder, history_of, live, mixed, needs_tshark, run, write

SUBMIT = "c,0,submit,pipe,1,10.0.0.1,10.0.0.2,17,1,2,1000,0,"


class Forms(unittest.TestCase):
    def test_a_text_as_long_as_a_file(self) -> None:
        """A lawful history may have a configuration line of any length, in quotes."""
        text = live(["pipe 1 config bw 8Mbit/s", f"{SUBMIT}0", "c,0,collect,5000000"])
        path = write("long.history", text.replace("pipe 1 config", f'"pipe{" " * 200_000}1 config').replace("bit/s", 'bit/s"'))
        self.assertEqual(subprocess.run([dummynet(), "audit", path], capture_output=True).returncode, 0)
        done = run("look", "long.history")
        self.assertEqual((done.returncode, done.stderr), (0, ""))

    def test_a_transcript_that_was_cut_anywhere(self) -> None:
        """What stands in it is looked at: as many packets as there are calls with a reply, those out that were delivered."""
        submits = [f"c,0,submit,pipe,1,10.0.0.{row % 3},10.0.0.2,17,1,2,1000,0,{row * 700_000}" for row in range(8)]
        configured = "pipe 1 config bw 8Mbit/s queue 3"
        collects = ["c,0,collect,2500000", "c,0,collect,90000000"]
        whole = live([configured, *submits[:4], "next", collects[0], *submits[4:], collects[1]])
        self.assertIn("#,next,", whole)
        rng = random.Random(5)
        for cut in sorted(rng.sample(range(len("dummynet-history,3\n"), len(whole)), 60)):
            text = whole[:cut]
            told = read_history_source(str(write("cut.history", text)))
            kept = [line for line in text.split("\n")[:-1] if line and line[0] != "#"]
            wanted = [sum(line.startswith(begin) for line in kept) for begin in (("r,queued", "r,full"), "d,")]
            self.assertEqual([len(told.replay.packets), int(told.replay.is_out.sum())], wanted, text)
            self.assertEqual(told.cut is None, kept[-1].startswith("end,"))
        done = run("look", write("cut.history", whole[: -len("end,11")]))
        self.assertEqual(done.returncode, 0)
        told_end = "has no end behind line 32: the session was killed, or still goes on; it is looked at up to there"
        self.assertIn(told_end, done.stderr)

    def test_a_transcript_of_each_form(self) -> None:
        """Under either first record, with remarks and empty lines between entries, quotes and other line ends, of any caller."""
        other = SUBMIT.replace("c,0", "c,15").replace("pipe,1", "queue,9")
        whole = live(["pipe 1 config bw 8Mbit/s", f"{SUBMIT}5", f"{other}6", "c,3,collect,5000000", "c,3,show"])
        forms = [
            whole,
            whole.replace("dummynet-history,3", "dummynet-live,1"),
            whole.replace("\nc,", "\n#,next,7\n\nc,"),
            whole.replace("\n", "\r\n"),
            whole.replace("pipe,1", '"pipe","1"'),
        ]
        for form in forms:
            (folder() / "form.history").write_bytes(form.encode())
            told = read_history_source(str(folder() / "form.history"))
            columns = [getattr(told.replay, name).tolist() for name in ("event", "at", "due")]
            self.assertEqual(columns, [[OUT, NONE], [5, 6], [1_000_005, -1]])
            self.assertEqual((told.configuration is None, told.cut), (False, None))
            self.assertEqual(told.replay.packets.targets, [("pipe", 1), ("queue", 9)])

    def test_ipv6_addresses_that_the_host_names(self) -> None:
        whole = live(["pipe 1 config", "c,0,submit,pipe,1,240.0.0.0,240.0.0.1,17,1,2,1000,0,0"])
        remark = "#,address,240.0.0.{},2001:0db8:0000:0000:0000:0000:0000:000{}\n"
        path = write("six.history", whole.replace("\nc,0,submit", f"\n{remark.format(0, 1)}{remark.format(1, 2)}c,0,submit"))
        self.assertIn("udp [2001:db8::1]:1 > [2001:db8::2]:2 ", run("look", path).stdout)

    def test_commands_as_a_host_spells_them(self) -> None:
        """A history may contain any spelling of a command."""
        whole = live(["pipe 1 config bw 8Mbit/s delay 20 queue 3", f"{SUBMIT}0", "c,0,collect,21000000"])
        canonical, other = "configure,pipe 1 config bw 8000000bit/s delay 20 queue 3", "configure,ipfw pipe 1 config bw 8Mbit/s"
        self.assertIn(canonical, whole)
        told = run("why", 1, write("spelled.history", whole.replace(canonical, f"{other} delay 20ms queue 3 # slow")))
        self.assertEqual(told.returncode, 0, told.stderr)
        self.assertIn("(1,000 bytes at 8,000,000 bit/s). The link's delay was 20.000000 ms.", told.stdout)
        path = write("spelled.history", whole.replace(canonical, "configure,pipe 1 config bw 8Mbps"))
        self.assertEqual(run("look", path).returncode, 4)

    def test_faults(self) -> None:
        for text, told in (
            ("x\n", "line 1: no history of dummynet, and no live session"),
            ("dummynet-history,3\nc,0,submit,pipe\nr,queued,0,0,0\n", "line 2: not as a history has it"),
            ("dummynet-history,3\nc,0,show\nc,0,show\nr,status,0\n", "line 3: not as a history has it"),
            (f"dummynet-history,3\n{SUBMIT}0\nr,exhausted\n", "line 3: not as a history has it"),
            (f"dummynet-history,3\n{SUBMIT}0\nr,queued,0,0,-1\nd,5\n", "line 3: not as a history has it"),
            (f"dummynet-history,3\n{SUBMIT}0,0\nr,queued,0,0,0\nd,5\n", "line 2: not as a history has it"),
            ("dummynet-history,3\nc,0,collect,5\nr,delivered,5,1\nd,7,0,0,5\nend,1\n", "line 4: no packet 7 was queued"),
        ):
            path = write("bad.history", text)
            done = run("look", path)
            self.assertEqual((done.returncode, done.stderr), (4, f"hinge look: {path} {told}\n"))


def told(replay: Replay) -> object:
    packets = replay.packets
    numbers = [getattr(replay, name).tolist() for name in ("event", "flow", "packet", "at", "start", "due")]
    rows = [getattr(packets, name).tolist() for name in ("moment", "target", "five_tuple", "length", "word")]
    return numbers, rows, packets.targets, list(packets.tuples)


def reader(together: int) -> str:
    """hinge-packets that reads so many bytes of a text together."""
    path = folder() / f"hinge-packets-{together}"
    words = ["cc", "-std=c17", "-D_GNU_SOURCE", f"-DREAD_TOGETHER={together}", *map(str, (TOP / "hosts" / "packets").glob("*.c"))]
    subprocess.run([*words, "-o", path], check=True)
    return str(path)


@unittest.skipUnless(shutil.which("cc"), "there is no cc")
class Blocks(unittest.TestCase):
    """What a file tells doesn't depend on where its blocks end."""

    def test_replays(self) -> None:
        for name in ("dsl", "shared"):
            _, packets, report = mixed(name)
            path = history_of(name)
            wanted = told(read_history_source(path).replay), told(read_report(str(report), read_packets(str(packets))))
            with patch.dict(os.environ, HINGE_PACKETS=reader(61)):
                found = told(read_history_source(path).replay), told(read_report(str(report), read_packets(str(packets))))
            self.assertEqual(found, wanted, name)

    def test_a_transcript(self) -> None:
        """Its changes, remarks, line ends and quotes."""
        lines = [f"pipe 1 config bw 8Mbit/s delay {row}\n{SUBMIT}{row * 900_000}\nc,0,show" for row in range(6)]
        text = live([*lines, "next", "c,0,collect,9000000"]).replace("\nend,", "\n#,late,1000000000,5,6,7,8\n#,seed,5\nend,")
        path = folder() / "blocks.history"
        readers = [reader(size) for size in (1, 7, 300)]
        for form in (text, text.replace("\n", "\r\n"), text.replace("pipe,1", '"pipe","1"'), text[:-6], text + "\n\n"):
            path.write_bytes(form.encode())
            one = read_history_source(str(path))
            for other_reader in readers:
                with patch.dict(os.environ, HINGE_PACKETS=other_reader):
                    other = read_history_source(str(path))
                self.assertEqual(told(other.replay), told(one.replay))
                for name in ("changes", "cut", "seed", "is_history", "configuration"):
                    self.assertEqual(getattr(other, name), getattr(one, name), name)
                self.assertEqual(other.most_late("late"), one.most_late("late"))


@needs_tshark
def test_the_report_of_a_live_session_is_that_of_the_replay() -> None:
    """For losses, full queues and targets that aren't configured."""
    for name in ("dsl", "shared"):
        config, packets, report = mixed(name)
        calls = [line for line in config.read_text().splitlines() if not line.startswith("#")]
        for row, line in enumerate(packets.read_text().splitlines()[1:], 1):
            moment, *rest = line.split(",")
            calls += [f"c,0,submit,{','.join(rest)},{moment}", *[f"c,0,collect,{moment}"][: row % 1000 == 0]]
        calls.append(f"c,0,collect,{2**62}")
        session = subprocess.run([dummynet(), "live"], input="\n".join(calls) + "\n", capture_output=True, text=True, check=True)
        script = TOP / "examples" / "live" / "live_report.py"
        done = subprocess.run([sys.executable, script], input=session.stdout, capture_output=True, text=True)
        assert (done.stdout, done.stderr) == (report.read_text(), "")
