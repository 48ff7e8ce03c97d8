"""`hinge check`: lines, rows and histories that people get wrong; what is advised is taken by the program."""

import re
import subprocess
import sys
import unittest
from pathlib import Path
from typing import Union

from fuzz_check import compare
from kit import TOP, folder, recorded, run

from hinge.checks.histories import HistoryRecords, bad_record
from hinge.checks.rows import HEADER
from hingetulip_words.advice import advice, words_before_comment
from hinge.program import dummynet

HEAD = ",".join(HEADER) + "\n"
GOOD = "0,pipe,1,10.0.0.1,10.0.0.2,17,1000,2000,1000,"
REPLACED = {  # a line, what is said of it; the word that is advised makes it good
    "pipe 1 config bw 8Mbps": "word 5 '8Mbps': not a bandwidth; write 8Mbit/s",
    "pipe 1 config bw 8mbit": "write 8Mbit/s",
    "pipe 1 config bw 1.5Mbit/s": "write 1500Kbit/s",
    "pipe 1 config bw 8MBps": "write 8MByte/s (8Mbit/s if bits are meant)",
    "pipe 1 config bw 8Mb/s": "write 8Mbit/s",
    "pipe 1 config bw 1Gbps": "write 1Gbit/s",
    "pipe 1 config bw 100kb": "write 100Kbit/s",
    "pipe 1 bw 8Mbit/s": "`config` is missing",
    "pipe 1 config loss 0.01": "word 4 'loss': not an option; write plr",
    "pipe 1 config plr 1%": "write 0.01",
    "pipe 1 config plr 5": "write 0.05 for 5 %",
    "pipe 1 config plr 1e-3": "write 0.001",
    "pipe 1 config plr 0.5%": "write 0.005",
    "pipe 1 config mask src-ip 255.255.255.0": "write 0xffffff00",
    "pipe 1 config mask src-ip /24": "write 0xffffff00",
    "pipe 1 config delay 20us": "leave it out, or write 1ms",
    "pipe 1 config delay 0.5": "leave it out, or write 1ms",
    "pipe 1 config delay 2s": "write 2000ms",
    "pipe 1 config delay 20msec": "write 20ms",
    "pipe 1 config queue 2MB": "more than the 1024 Kbytes",
    "pipe 1 config queue 1MB": "write 1024Kbytes",
    "pipe 1 config queue 50pkts": "write 50",
    "pipe 1 config queue 64KiB": "write 64Kbytes",
    "pipe 1 config queue 1500bytes": "write 2Kbytes",
    "pipe 1 config bw 8Mbit/s, delay 20": "write 8Mbit/s",
    "pipe 1 config bw=8Mbit/s": "write bw 8Mbit/s",
    "Pipe 1 config": "write pipe",
    "pipe1 config": "write pipe 1",
    "pipe 1config": "write 1 config",
    "pipe 1 config latency 20": "write delay",
    "pipe 1 config dely 20": "write delay",
}
TOLD = {  # a line, and what is said of it, where no one word makes it good
    "pipe 1 config bw 8 Mbit/s": "a number and its unit are one word; write 8Mbit/s",
    "pipe 1 config mask 255.255.255.0": "write mask src-ip 0xffffff00",
    "pipe 1 config delay -5": "can't be negative",
    "pipe 1 config delay 20 ms": "write 20ms",
    "pipe 1 config queue 0": "out of range; a queue has room for 1 to 10000 packets",
    "pipe 1 config delay 3600001ms": "out of range; a delay is 0 to 3600000ms",
    "pipe 1 config bw 99999999999999999999Gbit/s": "out of range; a bandwidth is 0 to 1000Gbit/s",
    "pipe 1 config bw 8Mbit/s; pipe 2 config": "ends in ';'",
    "pipe 0 config": "write 1 to 65535",
    "queue 1 config weight 3": "names no pipe",
    "pipe 1 config weight 4": "an option of queues",
    "queue 1 config pipe 1 bw 3Mbit/s": "an option of pipes",
    "pipe 1 config jitter 3": "no such option",
    "pipe 1 config red 1/2/3/4": "leaves it out",
    "pipe 1 config bw eth0": "name of a device",
    "pipe 1 config bw": "its value is missing; write 8Mbit/s",
    "ipfw add 100 pipe 1 ip from any to any": "word 2 'add': a rule of the firewall",
    "sched 1 config type fifo": "schedulers",
    "pipe 1 show": "shows nothing",
    "pipe 1 config mask src-ip6 0xff": "IPv6 is left out",
    "pipe delete 1 2": "own",
    "pipe 1 config bw 8Mbit/s delay 20 \xe9": "not UTF-8",
    "pipe": "word 1 'pipe': ",
    "pipe 1": "word 2 '1': ",
    "queue 3 config pipe 9": "pipe 9 isn't configured",
    "pipe delete 9": "pipe 9 isn't configured",
    "queue delete 9": "queue 9 isn't configured",
}
ROWS = {
    GOOD.replace("0,pipe", "1.5,pipe", 1) + "1": "field 1 (moment) '1.5': a moment is whole nanoseconds; write 1500000000",
    GOOD.replace("0,pipe", "-1,pipe", 1) + "1": "can't be negative",
    GOOD.replace("pipe", "Pipe") + "1": "field 2 (target) 'Pipe': keywords are lower case; write pipe",
    GOOD.replace("17", "udp") + "1": "field 6 (proto) 'udp': a protocol is its number; write 17",
    GOOD.replace("10.0.0.1", "fe80::1") + "1": "IPv6",
    GOOD.replace("10.0.0.1", "10.0.0.1:80") + "1": "write 10.0.0.1",
    GOOD.replace("10.0.0.1", "10.0.0.01") + "1": "leading zeros",
    GOOD.replace("1000,2000", "1000,") + "1": "empty; write 0",
    GOOD.replace(",1000,2000,1000", ",1000,2000,0") + "1": "1 byte at least",
    GOOD + "0x1f": "write 31",
    GOOD + "0.5": "write 2147483648",
    GOOD + "": "empty",
    GOOD.replace(",", ", ") + "1": "blanks round",
    GOOD.replace(",", ";") + "1": "write commas for ';'",
    GOOD + "1,2": "11 fields in place of 10",
    GOOD + "01": "write 1",
    "2026-01-01 10:00:00" + GOOD[1:] + "1": "a date",
    "9223372036854775807" + GOOD[1:] + "1": "beyond the last",
}


def file(name: str, text: Union[str, bytes]) -> Path:
    path = folder() / name
    path.write_bytes(text if isinstance(text, bytes) else text.encode("latin-1"))
    return path


def check(*paths: Path) -> tuple[int, str]:
    done = run("check", *paths)
    assert "Traceback" not in done.stderr, done.stderr
    return done.returncode, done.stdout


def verdict(line: str) -> subprocess.CompletedProcess[str]:
    """What the program says of a line, below that of pipe 1 where the line is a queue's."""
    path = file("one", ("pipe 1 config\n" if line.startswith("queue") else "") + line + "\n")
    return subprocess.run([dummynet(), "replay", path, "/dev/null"], capture_output=True, text=True)


class Lines(unittest.TestCase):
    def test_each_wrong_line_is_told_where_the_program_has_it(self) -> None:
        for line, said in {**REPLACED, **TOLD}.items():
            with self.subTest(line):
                path = file("link.config", ("pipe 1 config\n" if line.startswith("queue") else "") + line + "\n")
                (status, out), program = check(path), verdict(line)
                assert (status, program.returncode) == (3, 3)
                number = re.search(r"line (\d+)(?:, word (\d+))?", program.stderr)
                assert out.startswith(f"{path}:{number[1]}: " + (f"word {number[2]} " if number[2] else "")), (out, program.stderr)
                assert said in out

    def test_a_corrected_line_is_taken_whole(self) -> None:
        for line, whole in (
            ("pipe 1 config bw 1Mbps delay 0.02s plr 1%", "pipe 1 config bw 1Mbit/s delay 20ms plr 0.01"),
            ("ipfw pipe 1 config rate 10mbit latency 20ms limit 100,", "ipfw pipe 1 config bw 10Mbit/s delay 20ms queue 100"),
            ("pipe 1 config bandwidth 56k, mask dst-ip /24", "pipe 1 config bw 56k mask dst-ip 0xffffff00"),
        ):
            with self.subTest(line):
                assert f"; in full: {whole}\n" in check(file("link.config", f"{line}\n"))[1]
                assert verdict(whole).returncode == 0
        assert "in full" not in check(file("link.config", "pipe 1 config red 1/2/3/4\n"))[1]

    def test_the_word_that_is_advised_is_taken(self) -> None:
        for line in REPLACED:
            with self.subTest(line):
                found = re.search(r"word (\d+): (.*)", verdict(line).stderr)
                words = words_before_comment(line)
                words[int(found[1]) - 1] = advice(words, int(found[1]), found[2]).word or ""
                assert verdict(" ".join(words)).returncode == 0, words

    def test_every_bad_line_is_told(self) -> None:
        path = file(
            "many.config", "pipe 1 config bw 8Mbps\n\nqueue 1 config pipe 1\npipe 2 config delay 1s # late\npipe 3 config\n"
        )
        status, out = check(path)
        assert status == 3
        assert [line.split(": ", 1)[0] for line in out.splitlines()] == [f"{path}:{number}" for number in (1, 3, 4)]
        assert "pipe 1 isn't configured here (line 1, which is of it, has a fault)" in out

    def test_random_lines_as_the_program_has_them(self) -> None:
        assert compare(0, 60) > 200

    def test_the_examples_have_no_findings(self) -> None:
        scenes = folder() / "scenes"
        scenes.mkdir()
        subprocess.run([sys.executable, TOP / "tools" / "release" / "examples.py", scenes], check=True)
        files = [path for path in sorted(scenes.glob("*")) if path.suffix in (".config", ".csv") and "report" not in path.name]
        configs = [path for path in files if path.suffix == ".config"]
        assert len(configs) > 5
        for config in configs:
            packets = [path for path in files if path == config.with_suffix(".csv")]
            assert check(config, *packets) == (0, ""), config


class Rows(unittest.TestCase):
    def test_each_wrong_row(self) -> None:
        config = file("c.config", "pipe 1 config\n")
        for row, said in ROWS.items():
            with self.subTest(row):
                path = file("p.csv", HEAD + "\n" + GOOD + "7\n" + row + "\n")
                status, out = check(config, path)
                program = subprocess.run([dummynet(), "replay", config, path], capture_output=True, text=True)
                assert (status, program.returncode) == (4, 4)
                assert "packet row 2, field" in program.stderr
                assert out.startswith(f"{path}:4: ") and said in out, out

    def test_a_field_as_long_as_a_file(self) -> None:
        """Longer than a field of Python's csv is by default, 131,072 bytes."""
        config = file("c.config", "pipe 1 config\n")
        path = file("p.csv", HEAD + GOOD + "1" * 200_000 + "\n")
        status, out = check(config, path)
        assert status == 4
        assert out.startswith(f"{path}:2: "), out[:200]

    def test_every_bad_row_is_told(self) -> None:
        rows = [
            GOOD + "1",
            GOOD.replace("17", "tcp") + "1",
            "",
            GOOD + "2",
            GOOD + "x",
            GOOD + '5"',
            '"' + GOOD.replace(",", '","') + '3"',
            GOOD + "1,2",
        ]
        path = file("p.csv", HEAD + "\n".join(rows) + "\n")
        status, out = check(path)
        assert status == 4
        assert [line.split(": ", 1)[0] for line in out.splitlines()] == [f"{path}:{number}" for number in (3, 6, 7, 9)]

    def test_headers(self) -> None:
        for head, said in (
            (GOOD + "1\n", "no header"),
            (HEAD.replace(",", ";"), "parted by commas"),
            (HEAD.replace("moment", "time"), "another header"),
        ):
            status, out = check(file("p.csv", head))
            assert (status, out.count("\n")) == (4, 1)
            assert said in out

    def test_a_joined_input_has_the_lines_of_the_whole(self) -> None:
        path = file("joined", "pipe 1 config\n--\n" + HEAD + GOOD.replace("17", "tcp") + "1\n")
        assert check(path) == (4, f"{path}:4: field 6 (proto) 'tcp': a protocol is its number; write 6\n")


class Warnings(unittest.TestCase):
    def test_they_leave_the_status(self) -> None:
        config = file(
            "c.config",
            "pipe 1 config bw 8 plr 0.1 delay 30000\npipe 1 config bw 8Mbit/s plr 0.1 plr 0.2 mask src-ip "
            "24\npipe 2 config plr 1\n",
        )
        rows = GOOD.replace("0,pipe", "5,pipe", 1) + "0\n" + GOOD + "0\n" + GOOD.replace("pipe,1,", "queue,4,") + "0\n"
        status, out = check(config, file("p.csv", HEAD + rows))
        assert status == 0
        for said in (
            "bw 8 is 8 bit/s",
            "delay 30000 is 30 s",
            "a second line for pipe 1",
            "delay of line 1 no longer holds",
            "plr stands twice",
            "mask src-ip 24 keeps the bits 0x18",
            "plr 1 loses every packet",
            "p.csv:3: warning: 2 of 3 rows have a moment before",
            "p.csv:4: warning: 1 of 3 rows go to queue 4",
            "all packets have one fate (lost)",
        ):
            assert said in out

    def test_nanoseconds_and_targets(self) -> None:
        many = file("q.csv", HEAD + "".join(f"{moment},pipe,2{GOOD[8:]}{moment}\n" for moment in range(200)))
        status, out = check(file("d.config", "pipe 1 config\n"), many)
        assert status == 0
        assert "200 packets within 199 ns" in out
        assert "NO row has a target" in out

    def test_other_files(self) -> None:
        assert "hinge packets" in check(file("a.csv", b"\xd4\xc3\xb2\xa1" + bytes(20)))[1]
        assert check(file("good.config", "# a comment\n\nipfw pipe 1 config bw 8Mbit/s\r\n")) == (0, "")
        assert run("check", "nowhere").returncode == 6


class Waits(unittest.TestCase):
    """The bound on the wait, which the last of a full queue reaches."""

    def told(self, line: str) -> str:
        path = file("wait.config", line + "\n")
        done = run("check", path)
        assert (done.returncode, done.stdout) == (0, "")
        return done.stderr.replace(f"{path}: ", "")

    def test_the_bound_is_told(self) -> None:
        none_longer = ", where none is longer than 1,500 bytes\nnothing to say\n"
        for line, bound in {
            "pipe 1 config bw 1Mbit/s delay 20": "starts within 600.000000 ms and is due within 632.000000 ms",
            "pipe 1 config bw 8Mbit/s queue 1": "starts within 1.500000 ms and is due within 3.000000 ms",
            "pipe 1 config bw 8Mbit/s queue 10Kbytes": "starts within 11.750240 ms and is due within 13.250240 ms",
            "pipe 1 config delay 5": "starts within 0.000000 ms and is due within 5.000000 ms",
        }.items():
            assert self.told(line) == f"pipe 1: an accepted packet {bound}{none_longer}"
        assert self.told("pipe 1 config bw 1Mbit/s\nqueue 1 config pipe 1") == "nothing to say\n"

    def test_a_full_queue_reaches_the_bound_of_slots(self) -> None:
        config = file("wait.config", "pipe 1 config bw 1Mbit/s delay 20\n")
        packets = file("p.csv", HEAD + (GOOD.removesuffix("1000,") + "1500,0\n") * 60)
        report = subprocess.run([dummynet(), "replay", config, packets], capture_output=True, text=True, check=True).stdout
        out = [line.split(",") for line in report.splitlines() if line.startswith("out,")]
        assert len(out) == 51
        assert max(int(fields[-1]) for fields in out) == 632 * 10**6


class Histories(unittest.TestCase):
    def test_where_a_history_is_wrong(self) -> None:
        path = Path(recorded("h", file("c", "pipe 1 config bw 8Mbit/s\n"), file("p", HEAD + (GOOD + "1\n") * 3)))
        text = path.read_text()
        lines = text.splitlines(True)
        assert check(path) == (0, "")
        cases = {
            "".join(lines[:-1]): "was cut",
            "".join(lines[:6]): "was cut",
            text[: len(text) - len(lines[-1]) - 8]: "cut within this record",
            text.replace("r,queued,0,0,1", "r,queued,0,0,7"): ":7: 'r,queued,0,0,7' isn't the emulator's reply",
            text.replace("r,queued,0,0,2", "r,full,0,0"): "(entry 3); that is 'r,queued,0,0,2'",
            text + "x\n": "stands behind the end",
            text.replace("end,5", "end,6"): "there are 5 entries",
            text.replace("r,configured", "r,confgured"): ":3: record 3 'r,confgured': not a record here",
        }
        for changed, said in cases.items():
            status, out = check(file("h2", changed))
            assert said in out
            assert status in (1, 4)

    def test_remarks_are_records_of_a_history_and_not_of_a_transcript(self) -> None:
        for first, number, where in (("dummynet-history,3", 2, "h:2"), ("dummynet-live,1", 2, "h:3")):
            records = HistoryRecords(f"{first}\n#,next\nx\nend,0\n".encode())
            found, said = bad_record("h", records, number)
            assert (found, "a remark" in said) == (where, first == "dummynet-history,3")
