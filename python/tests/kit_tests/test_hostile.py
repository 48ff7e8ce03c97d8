"""Histories, packet files and texts that nobody would write: each ends with a line and a status, in time and memory in proportion to its length."""

import os
import subprocess
import sys
from pathlib import Path
from typing import NamedTuple, Sequence

from linked import needs_rooms
from with_folder import WithFolder

from hinge.border.files import MOST_SAID
from hinge.paths.folder import NET
from hinge.program import HINGE

SIZE = 3_000_000  # bytes
TIMES, MORE = 9, 4 << 20  # bytes of memory for each byte of a file, and for what a system gives more
LONGEST = 10.0  # s of the processor, of a busy machine
HISTORY, HEADER = b"dummynet-history,3\n", b"moment,target,number,src,dst,proto,sport,dport,len,word\n"
REPORT = b"event,row,flow,packet,at,start,due\nout,1,0,0,0,0,1000000\n"
ROW, DIGITS = b"1,pipe,1,1.1.1.1,2.2.2.2,17,1,2,1000,0\n", b"9" * 100_000
HISTORIES = {
    "one line": b"x" * SIZE + b"\n",
    "a submit without an end": b"c,0,submit,pipe,1," + b"x" * SIZE + b"\n",
    "commas": b"," * SIZE + b"\n",
    "empty lines": b"\n" * SIZE,
    "carriage returns": b"\r" * SIZE,
    "one field": b"c\n" * (SIZE // 2),
    "empty calls": b"c,\nr,\n" * (SIZE // 6),
    "long moments": (b"c,0,advance," + DIGITS + b"\nr,advanced," + DIGITS + b"\n") * (SIZE // 200_000),
    "long numbers": (b"c,0,submit,pipe," + DIGITS + b",1.1.1.1,2.2.2.2,17,1,2,9,0\nr,queued,1,0,0\n") * (SIZE // 100_000),
    "remarks": b"#,host," + DIGITS + b"\n" + b"#,pipe,1,a,b\n" * (SIZE // 13),
    "one quote": b'c,"' + b"\n" * SIZE,
}
PACKETS = {
    "one line": b"x" * SIZE + b"\n",
    "empty lines": b"\n" * SIZE,
    "one field": b"1\n" * (SIZE // 2),
    "a bad last row": ROW * (SIZE // len(ROW)) + b"x\n",
    "long numbers": b"1,pipe,1,1.1.1.1,2.2.2.2,17,1,2," + DIGITS + b",0\n",
    "quotes": b'"' * SIZE,
    "fields in quotes": b'"1"\n' * (SIZE // 4),
}
LINES = 300_000
TEXTS = {
    "letters": b"x\n" * LINES,
    "comments": b"#\n" * LINES,
    "empty lines": b"\n" * LINES,
    "carriage returns": b"\r" * LINES,
    "one line": b"x" * SIZE,
    "words": b"x " * (SIZE // 2),
    "digits": b"1\n" * LINES,
    "quotes": b'"' * SIZE,
    "NULs": b"\0" * SIZE,
    "blanks": b"pipe" + b" " * 1_000_000 + b"x",
    "commas": b"," * SIZE,
    "doubled variables": b"A=xxxxxxxx\n" + b"A=$A$A\n" * 60 + b"ipfw pipe 1 config bw $A\n",
    "variables without an end": b"ipfw pipe 1 config bw " + b"${a-" * 250_000,
    "rates of a trace": b"".join(b"%d,%d\n" % (n, 1000 + n) for n in range(LINES)),
    "outages of a trace": b"".join(b"%d,%d\n" % (n, n % 2 * (1000 + n)) for n in range(LINES)),
    "lines of no command": b"".join(b"x%d\n" % n for n in range(MOST_SAID)),
    "milliseconds of a trace": b"".join(b"%d\n" % n for n in range(LINES)),
    "addresses without packets": b"stand-in,address\n" + b"".join(b"%x,::\n" % n for n in range(LINES)),
}
OF_READER = {  # texts whose lines differ and say something, by a word of the command that reads such lines into little memory
    **dict.fromkeys(("rates of a trace", "outages of a trace", "milliseconds of a trace"), "--up-trace"),
    "lines of no command": "--config",
    "addresses without packets": "look",
}
OF_TWO = "host a\nhost b\nlink a b 1Mbit/s\n"
DRY = ["net", "x", "--dry-run"]
CHANGED = ["run", "--quiet", "--link", "1ms", "--timeline", "x", "--", "true"]
SAYING = {  # a command, and what its text begins with and says again and again
    "hosts of a net": (DRY, "", "host h{}\n"),
    "links of a net": (DRY, OF_TWO, "link a b\n"),
    "changes": (CHANGED, "", "{}ms outage {}ns lossy\n"),
    "lines of ipfw": (["ipfw", "x"], "", "ipfw pipe {} config\n"),
}
EVENTS = 12_000
OF_AN_EVENT = 1600  # bytes of memory for each line that is taken, which leaves room below OF_A_LINE
TAKEN = {  # nets that are taken: what one begins with, and what it says EVENTS times
    "words": (OF_TWO, "at {0}ms a b {0}bit/s\n"),
    "several words": (OF_TWO, "at {0}ms a b {0}bit/s 5ms queue 50 loss 1%\n"),
    "long names": (OF_TWO.replace("a\n", f"{'a' * 60}\n").replace(" a ", f" {'a' * 60} "), f"at {{0}}ms {'a' * 60} b 1Mbit/s\n"),
    "words behind the main command": ("main m true\n" + OF_TWO, "at main+{0}ms a b preset dsl\n"),
    "lines": (OF_TWO, "at {0}ms a b pipe 1 config bw {0}bit/s\n"),
    "outages": (OF_TWO, "at {0}ms a b outage {0}ns\n"),
    "outages of a port": (OF_TWO, "at {0}ms a b outage {0}ns lossy tcp port 5\n"),
    "cuts in one another": (OF_TWO, "at {0}ms cut a from b up udp port 5 {0}s\n"),
    "cuts and heals": (OF_TWO, "at {0}ms cut a\nat {0}.5ms heal a\n"),
    "kills and restarts": (OF_TWO.replace("host a", "host a true"), "at {0}ms kill a\nat {0}.5ms restart a\n"),
    "stops and steps": (OF_TWO, "at {0}ms stop a {0}ns\nat {0}ms skew b +1s\n"),
    "cuts of many hosts": ("router r\n", "host h{0}\nlink r h{0} 1ms\n", "at {0}ms cut h1 1ms\n"),
    "words of many links": (OF_TWO, "link a b 1Mbit/s\n", "at {0}ms a b 9 1Mbit/s\n"),
    "sizes of many links": (OF_TWO, "link a b 1Mbit/s\n", "mtu a b {0} 1400\n"),
    "masks and outages": (OF_TWO + "link a b 1Mbit/s\n", "at {0}ms a b outage 1ns\nat {0}ms a b 2 pipe 1 config mask proto 255\n"),
    "traces": ("router r\n", "host h{0}\nlink r h{0} 1ms\n", "trace r h{0} t\n"),
    "rules": (OF_TWO + "line a b queue 1 config pipe 1\n", "map a b src-port {0} => queue 1\n"),
}
TIMELINES = {  # and timelines
    "words of a timeline": ("", "{0}ns 1ms {0}bit/s\n"),
    "lines of a timeline": ("", "{0}ns pipe 1 config bw {0}bit/s\n"),
    "outages of a timeline": ("", "{0}us outage 1ns\n"),
    "ports of a timeline": ("", "{0}us outage {0}ns lossy tcp port {0}\n"),
}
FIRST = "".join(f"c,0,configure,pipe {pipe} config delay 5\nr,configured\n" for pipe in (1, 2))
TO_MOMENT = "c,0,advance,{0}\nr,advanced,{0}\n"
PACKET = "c,0,submit,pipe,1,10.8.0.1,10.8.0.2,17,1,2,36,7,{0}\nr,queued,{0},0,0\n"
ACTS = {  # lines of a net at the moments {0} and {1}, and what its transcript says of them
    "stops that nothing ends": ("at {0}ns stop a\n", "#,act,stop a\n", "", 1),
    "stops that aren't done": ("at {0}ns stop a\n", "", "", 1),
    "kills and restarts": ("at {0}ns kill a 60ms\n", "#,act,kill a\n", "#,act,restart a\n", 0),
    "cuts and heals": (
        "at {0}ns cut a\nat {1}ns heal a\n",
        "#,act,cut a\n" + FIRST.replace("delay 5", "delay 5 plr 1"),
        f"#,act,heal a\n{FIRST}",
        0,
    ),
}
OF_A_LINE = 2048  # bytes of memory for each that says something, of MOST_SAID
PLACES = ("p.addresses", "net/net.json", f"net/{NET}")  # at which the text stands too
READERS = {  # by what each module of the kit that reads a text is reached; tools/gate/border.py asks for a row of each
    "run/words.py": (
        ["net", "x", "--dry-run"],
        *(["run", option, "x", "--", "true"] for option in ("--config", "--timeline", "--up-trace")),
    ),
    "commands/ipfw.py": (["ipfw", "x"],),
    "commands/check.py": (["check", "x"],),
    "plans/meaning.py": (["check", "net"],),
    "replays/links.py": (["why", "1", "x", "p", "r"],),
    "captures/addresses.py": (["look", "p", "r"],),
    "paths/folder.py": (["look", "net"],),
    "fault_lines.py": (["run", "--faults", "x", "--", "true"],),
    "simulated/failures.py": (["run", "--like", "x", "--", "true"],),
    "pictures/operations.py": (["look", "x", "--model", "set", "-o", "y.svg"], ["look", "p", "x", "--model", "set", "-o", "y.svg"]),
}


LAUNCHER = """import os, sys
_, status, used = os.wait4(os.posix_spawn(sys.argv[2], sys.argv[2:], os.environ), 0)
with open(sys.argv[1], "w") as result:
    print(os.waitstatus_to_exitcode(status), used.ru_maxrss << 10, used.ru_utime + used.ru_stime, file=result)"""


class Ended(NamedTuple):
    status: int
    told: str
    memory: int  # bytes
    seconds: float  # of the processor


def ended(words: Sequence[object], folder: Path) -> Ended:
    """Returns the end of a command with its memory limited, as its parent is a small process."""
    result = folder / "result"
    with open(folder / "told", "w+b") as told:
        launcher = [sys.executable, "-S", "-c", LAUNCHER, result, *HINGE, *words]
        subprocess.run([*map(str, launcher)], stdout=subprocess.DEVNULL, stderr=told, check=True)
        told.seek(0)
        text = told.read().decode()
    status, memory, seconds = result.read_text().split()
    return Ended(int(status), text, int(memory), float(seconds))


class Hostile(WithFolder):
    def setUp(self) -> None:
        super().setUp()
        (self.folder / "net").mkdir()
        self.file = self.folder / "x"
        self.net = self.folder / "net" / "net.history"
        self.config = self.folder / "c"
        self.config.write_text("pipe 1 config\n")
        self.net.write_bytes(HISTORY)
        (self.folder / "t").write_text("1\n")
        self.start = ended(["look", self.net.parent], self.folder).memory

    def check(self, words: Sequence[object], data: bytes, statuses: set[int]) -> None:
        done = ended(words, self.folder)
        self.assertIn(done.status, statuses, done.told)
        self.assertNotIn("Traceback", done.told)
        self.assertLessEqual(done.told.count("\n"), 2, done.told)
        self.assertLess(done.memory, self.start + MORE + TIMES * len(data))
        self.assertLess(done.seconds, LONGEST)

    def of_text(self, words: Sequence[str], data: bytes) -> Ended:
        """How a command ends where it reads this text."""
        self.file.write_bytes(data)
        for place in PLACES:
            (self.folder / place).unlink(missing_ok=True)
            os.link(self.file, self.folder / place)
        is_here = {one.name for one in self.folder.iterdir()}
        return ended([words[0], *(self.folder / word if word in is_here else word for word in words[1:])], self.folder)


class OfFiles(Hostile):
    def test_histories(self) -> None:
        for name, data in HISTORIES.items():
            self.file.write_bytes(HISTORY + data)
            self.net.write_bytes(HISTORY + data)
            for words in (["look", self.file], ["look", "--diff", self.file, self.file], ["look", self.net.parent]):
                with self.subTest(name, command=words[0]):
                    self.check(words, data, {0, 4})

    def test_packet_files(self) -> None:
        for name, data in PACKETS.items():
            self.file.write_bytes(HEADER + data)
            with self.subTest(name):
                self.check(["why", 1, self.config, self.file, self.file], data, {0, 4})

    def test_texts(self) -> None:
        """Beside what a command takes for a line without a meaning."""
        self.net.write_bytes(HISTORY + b"end,0\n")
        for name, data in (("p", HEADER + ROW), ("r", REPORT)):
            (self.folder / name).write_bytes(data)
        for words in (words for commands in READERS.values() for words in commands):
            start = self.of_text(words, b"#\n").memory
            for name, data in TEXTS.items():
                if name in OF_READER and OF_READER[name] not in words:
                    continue
                with self.subTest(name, command=words):
                    done = self.of_text(words, data)
                    self.assertIn(done.status, {0, 2, 3, 4}, done.told[-500:])
                    self.assertNotIn("Traceback", done.told)
                    self.assertLess(done.memory, start + MORE + TIMES * len(data))
                    self.assertLess(done.seconds, LONGEST)

    def test_lines_that_say_something(self) -> None:
        for name, (words, front, line) in SAYING.items():
            data = (front + "".join(line.replace("{}", str(n)) for n in range(1, MOST_SAID + 1))).encode() + b"x\n"
            with self.subTest(name):
                done = self.of_text(words, data)
                self.assertIn(done.status, {2, 4}, done.told[-500:])
                self.assertLessEqual(done.told.count("\n"), 2, done.told[-500:])
                self.assertLess(done.memory, self.start + MORE + TIMES * len(data) + OF_A_LINE * MOST_SAID)

    @needs_rooms
    def test_nets_and_timelines_that_are_taken(self) -> None:
        for name, (front, *lines) in {**TAKEN, **TIMELINES}.items():
            text = front + "".join(line.format(n) for line in lines for n in range(1, EVENTS + 1))
            with self.subTest(name):
                done = self.of_text(DRY if name in TAKEN else CHANGED, text.encode())
                self.assertEqual(done.status, 0, done.told[-500:])
                self.assertLess(done.memory, self.start + MORE + TIMES * len(text) + OF_AN_EVENT * text.count("\n"))
                self.assertLess(done.seconds, LONGEST)

    def test_acts_of_transcripts(self) -> None:
        """Of each a thousand, with a packet behind it."""
        for name, (line, *told, status) in ACTS.items():
            with self.subTest(name), open(self.folder / "net" / NET, "w") as net, open(self.net, "w") as history:
                net.write("host a x\nhost b x\nlink a b 5ms\n")
                history.write("dummynet-live,1\n#,format,3\n#,host,a,10.8.0.1\n#,host,b,10.8.0.2\n" + FIRST)
                for begin in range(10**9, (1 + EVENTS // 12) * 10**9, 10**9):
                    moments = begin, begin + 60_000_000, begin + 90_000_000
                    net.write(line.format(*moments))
                    history.write(
                        "".join(TO_MOMENT.format(at) + text for at, text in zip(moments, (*told, PACKET.format(moments[2]))))
                    )
                net.flush(), history.flush()
                done = ended(["check", self.net.parent], self.folder)
                self.assertEqual((done.status, done.told.count("Traceback")), (status, 0), done.told[-500:])
                self.assertLess(done.seconds, LONGEST)
