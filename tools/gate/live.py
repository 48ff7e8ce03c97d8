"""Live sessions of the program on two pipes, beside those of the independent reference.

    python3 tools/gate/live.py PROGRAM SEED COUNT

COUNT random sessions of the seed, with bad lines, comments and questions between their calls; one that is fed byte by byte,
where each answer has to come before the next line; lines that end in CR LF; and lines at the limit of their length.
"""

import os
import select
import subprocess
from random import Random

from tally import Tally, judge

from config_lines import FAULT_ROWS
from history import call_text
from live import LINE_LIMIT, session
from model import Configure
from scenarios import STYLES, random_calls
from spelling import spell

SUBMIT = b"c,0,submit,pipe,1,10.0.0.1,10.0.0.2,17,1000,2000,1000,0,%d"
# A line, and what is said of it behind its number.
# fmt: off
BAD = [
    (b"hello", "1,word 1: unknown word"), (b"r,queued,0,0,0", "1,word 1: unknown word"), (b"next ", "1,word 1: unknown word"),
    *((line.encode(), f"1,word {word}: {text}") for _, text, line, word in FAULT_ROWS), (b"pipe 1 config \xff", "1,not UTF-8"),
    (b"c", "2,bad field"), (b"c,16,show", "2,bad field"), (b"c,0,shows", "3,bad field"), (b"c,0,show,", "3,bad field"),
    (b"c,0,collect,-1", "4,bad field"), (b"c,0,collect,4611686018427387905", "4,bad field"),
    (b"c,0,configure,", "4,no command"), (b"c,0,configure,pipe 1 config bw 3x", "4,word 5: bad number"), (b"c,0,configure,\xff", "4,not UTF-8"),
    (SUBMIT.replace(b"pipe,1", b"link,1") % 0, "4,bad field"), (SUBMIT.replace(b"pipe,1", b"pipe,0") % 0, "5,bad field"),
    (SUBMIT.replace(b"10.0.0.1", b"10.0.0") % 0, "6,bad field"), (SUBMIT.replace(b"10.0.0.2", b"10.0.0.256") % 0, "7,bad field"),
    (SUBMIT.replace(b",17,", b",256,") % 0, "8,bad field"), (SUBMIT.replace(b",1000,2", b",65536,2") % 0, "9,bad field"),
    (SUBMIT.replace(b",2000,", b",+2,") % 0, "10,bad field"), (SUBMIT.replace(b"2000,1000", b"2000,0") % 0, "11,bad field"),
    (SUBMIT.replace(b"1000,0,", b"1000,4294967296,") % 0, "12,bad field"), (SUBMIT % 2**63, "13,bad field"),
    (b"c,0,show\rc,0,show", "0,not one record"), (b"c,0,show\rc,0,show\r", "0,not one record"), (b"c,0,shows\r", "3,bad field"),
    (b"next\rc,0,show", "0,not one record"), (b"\"next\"\rnext", "0,not one record"),
]
# fmt: on
# Lines that mean something else, or the same, with a carriage return behind them.
RETURNED = [
    b"",
    b"\r",
    b"next",
    b"c,0,show",
    b"c,0,show\r",
    b"\rc,0,show",
    b"c,0,show\rnext",
    b'"c",0,show',
    b"pipe 2 config",
    b"# a note",
    b"\xef\xbb\xbfc,0,show",
    b"\xef\xbb\xbf",
    b"\xefc,0,show",
    b"c,0,configure,\xef\xbb\xbf",
    b"," * 20,
]


def told(program: str, data: bytes) -> tuple[bytes, bytes, int]:
    done = subprocess.run([program, "live"], input=data, capture_output=True, timeout=120)
    return done.stdout, done.stderr, done.returncode


def wanted(data: bytes) -> tuple[bytes, bytes, int]:
    texts, status = session(data)
    return "".join(texts).encode(), b"", status


def random_session(rng: Random, number: int) -> bytes:
    """Calls of a random style, some in other forms, with other lines between them."""
    lines: list[bytes] = []
    for caller, call in random_calls(rng, STYLES[number % len(STYLES)], rng.randint(10, 120), 16, rng.random() < 0.6):
        while rng.random() < 0.3:
            lines.append(rng.choice([b"", b"# a note", b"next", b"next", b"next\r", b"\rnext", b'"next"', rng.choice(BAD)[0]]))
        text = call_text(caller, call).encode()
        if isinstance(call, Configure) and rng.random() < 0.5:
            text = spell(rng, call.command).encode()
        elif rng.random() < 0.1:
            text = b",".join(b'"%s"' % field for field in text.split(b","))
        lines.append(text + rng.choice([b"", b"", b"", b"\r"]))
    return b"\n".join([*lines, rng.choice([b"", b"", b"c,0,sh"])])


class Piped:
    """A session on two pipes."""

    def __init__(self, program: str) -> None:
        self.process = subprocess.Popen([program, "live"], stdin=subprocess.PIPE, stdout=subprocess.PIPE, bufsize=0)
        assert self.process.stdin and self.process.stdout
        self.to, self.of = self.process.stdin.fileno(), self.process.stdout.fileno()

    def is_silent(self) -> bool:
        return not select.select([self.of], [], [], 0)[0]

    def read(self, count: int) -> bytes:
        """Returns `count` bytes, or those that arrive until a minute brings none."""
        data = b""
        while len(data) < count and select.select([self.of], [], [], 60)[0]:
            piece = os.read(self.of, count - len(data))
            if not piece:
                break
            data += piece
        return data

    def end(self) -> tuple[bytes, int]:
        self.process.stdin.close()  # type: ignore[union-attr]
        rest = self.read(1 << 16)
        return rest, self.process.wait(timeout=120)


def byte_by_byte(tally: Tally, program: str, lines: list[bytes]) -> None:
    """Checks that each answer comes as soon as its line is complete, and no earlier."""
    texts, status = session(b"".join(line + b"\n" for line in lines))
    piped = Piped(program)
    with piped.process:  # which ends before the last line is printed, also behind a fault
        header = piped.read(len(texts[0]))
        tally.equal("the header comes at once", texts[0].encode(), header)
        for line, text in zip(lines if header else [], texts[1:]):
            early = False
            for byte in line:
                os.write(piped.to, bytes([byte]))
                early = early or not piped.is_silent()
            os.write(piped.to, b"\n")
            answer = piped.read(len(text))
            tally.equal(f"the answer to {line!r}", (False, text.encode()), (early, answer))
            if len(answer) < len(text):
                break  # each further one would be waited for as long
        tally.equal("the end of a session", (texts[-1].encode(), status), piped.end())


def bad_lines(tally: Tally, program: str) -> None:
    """Checks that each bad line is reported and changes nothing."""
    for line, said in BAD:
        lines = [b"pipe 1 config bw 8Mbit/s", SUBMIT % 0, line, b"c,3,collect,1000000"]
        out, _, status = told(program, b"".join(one + b"\n" for one in lines))
        rest, _, _ = told(program, b"".join(one + b"\n" for one in lines if one is not line))
        remark = f"#,bad,3,{said}\n".encode()
        tally.equal(f"{line!r} is told", (4, 1, rest), (status, out.count(remark), out.replace(remark, b"")))


def returned_lines(tally: Tally, program: str) -> None:
    """A line that ends in CR LF is answered as the reference answers it."""
    for line in RETURNED:
        data = b"".join(one + b"\r\n" for one in (b"pipe 1 config bw 8Mbit/s", SUBMIT % 0, line, b"c,3,collect,1000000"))
        tally.equal(f"{line!r} before CR LF", wanted(data), told(program, data))


def limits(tally: Tally, program: str) -> None:
    for line in (b"#" + b"x" * (LINE_LIMIT - 1), b"pipe 1 config" + b" " * (LINE_LIMIT - 13)):
        tally.equal(f"a line of {len(line)} bytes", wanted(line + b"\n"), told(program, line + b"\n"))
        begun = b"dummynet-live,1\n"
        tally.equal("one byte more", (begun, b"input too long\n", 6), told(program, line + b"x\n"))
        tally.equal("one byte more, without a line feed", (begun, b"input too long\n", 6), told(program, line + b"x"))


def main(tally: Tally, program: str, seed: str, count: str) -> None:
    rng = Random(int(seed))
    print(f"seed {seed}", flush=True)
    lines = [b"next", b"pipe 1 config bw 8Mbit/s queue 1", SUBMIT % 0, b"next", b"", b"# a note", SUBMIT % 0, SUBMIT % 0, b"hello"]
    lines += [b"next", b"c,1,collect,1000000", b"next", b"c,1,collect,2000000", b"next", b'"c",0,show', b"pipe 1 delete\r"]
    byte_by_byte(tally, program, lines)
    bad_lines(tally, program)
    returned_lines(tally, program)
    limits(tally, program)
    for number in range(int(count)):
        data = random_session(rng, number)
        tally.equal(f"session {number} of the seed", wanted(data), told(program, data))


if __name__ == "__main__":
    judge(main)
