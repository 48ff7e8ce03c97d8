"""Histories of runs in simulated time: valid, plain, and from a shaper that writes a history."""

import re
import subprocess
from contextlib import nullcontext
from unittest import mock

import pytest

from hingetulip import LineError, Outcome, RefusedError
from hingetulip.history_file import Recording
from hingetulip.recorded import RecordedShaper
from simulated_hosts import PROGRAM, audited, exchange, network
from with_folder import WithFolder

MS = 10**6  # ns


class Number:
    """A whole number that is no int."""

    def __index__(self) -> int:
        return 7


class Histories(WithFolder):
    def test_a_history_is_lawful_and_plain(self) -> None:
        history = self.folder / "h"
        with network("bw 64Kbit/s plr 0.1 queue 2", history=history) as net:

            async def main() -> None:
                net.loop.call_later(0.1, lambda: net.links[tuple(net.hosts.values())].change("32Kbit/s plr 0.1 queue 2"))
                await exchange(net, 200, 0.002)

            net.run(main())
            dropped = list(net.dropped)
        assert {it.outcome for it in dropped} == {Outcome.LOST, Outcome.FULL}
        lines = history.read_text().splitlines()
        assert re.search(r"^lawful \d+\n$", audited(history))
        assert lines[0] == "dummynet-history,3"
        assert [it for it in lines if it.startswith("#")] == []
        replies = [reply for call, reply in zip(lines, lines[1:]) if call.startswith("c,0,submit")]
        assert [it.row for it in dropped] == [row for row, reply in enumerate(replies, 1) if not reply.startswith("r,queued")]

    def test_lines_that_are_refused_or_say_nothing(self) -> None:
        history = self.folder / "h"
        with network("8Mbit/s", history=history) as net:

            async def main() -> None:
                await exchange(net, 3, 1)
                for line, error in (
                    ("queue 9 config pipe 999", RefusedError),
                    ("pipe 7 delete", RefusedError),
                    ("pipe 1 bad", LineError),
                ):
                    with pytest.raises(error):
                        net.obey(line)
                for line in ("# nothing", "pipe 2\rconfig  delay 5ms # a note", "pipe delete 2"):
                    net.obey(line)

            net.run(main())
        lines = history.read_text().splitlines()
        assert re.search(r"^lawful \d+\n$", audited(history))
        assert [
            ("c,0,configure,queue 9 config pipe 999", "r,no-such-pipe"),
            ("c,0,configure,pipe delete 7", "r,no-such-pipe"),
            ("c,0,configure,pipe 2 config delay 5", "r,configured"),
            ("c,0,configure,pipe delete 2", "r,deleted"),
        ] == [pair for pair in zip(lines, lines[1:]) if pair[0].startswith("c,0,configure")][2:]

    def test_what_was_not_written_is_written_once(self) -> None:
        entry = b"c,0,configure,pipe 1 config\nr,configured\n"
        history = Recording(self.folder / "h")
        for _ in range(1000):
            history.add_line(b"pipe 1 config", 0)
        with mock.patch.object(history._file, "_file", mock.Mock(write=mock.Mock(side_effect=OSError))):
            pytest.raises(OSError, history.end)
        history.end()
        assert (self.folder / "h").read_bytes() == b"dummynet-history,3\n" + 1000 * entry + b"end,1000\n"


class Recorded(WithFolder):
    def test_calls_of_a_recorded_shaper(self) -> None:
        history = self.folder / "h"
        with RecordedShaper(history, seed=1) as shaper:
            for line in (
                "pipe 1 config bw 8Mbit/s # a note",
                bytearray(b"queue 1 config pipe 1"),
                "# nothing",
                "queue delete 1",
                "pipe 1\rconfig\tbw\r8Mbit/s",
            ):
                shaper.configure(line)
            for line, error in (
                (b"pipe \xff", LineError),
                ("queue delete 1", RefusedError),
                ("queue 1 config pipe 9", RefusedError),
            ):
                with pytest.raises(error):
                    shaper.configure(line)
            shaper.submit(0, 1000, pipe=1)
            shaper.submit(0, 1000, pipe=2)
            shaper.submit(True, 1000, pipe=True, queue=None, dst=Number())
            shaper.advance(5)
            assert [it.due for it in shaper.collect(MS)] == [MS]
            shaper.collect(0)
            for call, given in ((shaper.submit_many, None), (shaper.collect_many, 0)):
                with pytest.raises(NotImplementedError):
                    call(given)
        assert audited(history) == "lawful 12\n"

    def test_lines_are_written_in_their_canonical_form(self) -> None:
        lines = {
            "pipe 1 config bw\r8Mbit/s": "pipe 1 config bw 8000000bit/s",
            '\tipfw pipe 2\rdelete # "a", b\r': "pipe delete 2",
            b"queue\t1 config weight 3 \r\r pipe 1 weight 1": "queue 1 config pipe 1",
            "queue 1 config pipe 9": "queue 1 config pipe 9",
            "queue delete 7": "queue delete 7",
            "pipe 1 delete": "pipe delete 1",
            "queue 1 delete": "queue delete 1",
        }
        replies = ("configured", "no-such-pipe", "configured", "no-such-pipe", "no-such-queue", "pipe-has-queues", "deleted")
        history = self.folder / "h"
        with RecordedShaper(history) as shaper:
            for line, reply in zip(lines, replies):
                with nullcontext() if reply in ("configured", "deleted") else self.assertRaises(RefusedError):
                    shaper.configure(line)
        text = history.read_bytes().decode()
        wanted = "".join(f"c,0,configure,{line}\nr,{reply}\n" for line, reply in zip(lines.values(), replies))
        assert (audited(history), text) == ("lawful 7\n", f"dummynet-history,3\n{wanted}end,7\n")

    def test_its_texts_are_the_programs(self) -> None:
        history = self.folder / "h"
        with RecordedShaper(history, seed=2) as shaper:
            shaper.configure("pipe 1 config bw 8000000bit/s queue 20 plr 0.500000000000000000")
            for i in range(300):
                shaper.submit(i * MS // 2, 65535 if i % 50 == 0 else 500, pipe=1 + i % 7 // 6, src=2**32 - 1 - i, dport=65535 - i)
                if i % 3 == 0:
                    shaper.advance(i * MS // 3)
                if i % 40 == 0:
                    shaper.collect(i * MS // 4)
            assert len(shaper.collect(10**10)) > 10
        text = history.read_bytes()
        calls = b"".join(line for line in text.splitlines(keepends=True) if line.startswith(b"c,"))
        done = subprocess.run([PROGRAM, "live"], input=calls, capture_output=True)
        assert done.stdout.partition(b"\n")[2] == text.partition(b"\n")[2]
        for reply in (b"\nr,lost,", b"\nr,full,", b"\nr,no-target,", b"\nd,"):
            assert reply in text
