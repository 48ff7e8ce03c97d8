#!/usr/bin/env python3
"""Fuzzing of what the kit reads of others: each input ends in an answer or in one line, within its budgets.

    python3 tools/fuzz/border.py [--seed N] COUNT [NAME ..]

A NAME is one of captures, control, addresses, histories, summaries, nets, timelines, traces and frames; all by default, each with so many
inputs. The seed follows from the sources of the kit, or is N, or a new one by `--seed fresh`. Each begins with the inputs in corpus/NAME as
they are, and goes on with changed ones; `frames` draws captures of frames of all kinds, some of them cut, which the kit must read as tshark
does, one for every hundred inputs. An input is a fault if it ends in an exception that isn't told as a line,
takes more than ten seconds of the processor, memory or output out of proportion to its length, leaves a file, or has a terminal obey it. It is left in
built/fuzz, and its seed is printed.
"""

import argparse
import contextlib
import gzip
import io
import os
import random
import resource
import shutil
import signal
import socket
import struct
import subprocess
import sys
import tempfile
import zlib
from hashlib import sha256
from pathlib import Path
from typing import Callable, Iterator, NoReturn
from unittest import mock

HERE = Path(__file__).resolve().parent
TOP = HERE.parents[1]
sys.path[:0] = [str(TOP / "tools" / "gate"), str(TOP / "python"), str(TOP / "python" / "tests" / "kit_tests")]

import random_frames  # noqa: E402
import seeds  # noqa: E402
from tally import Tally, judge  # noqa: E402
from tshark_frames import frames_by_kit, frames_by_tshark  # noqa: E402

import hinge.checks.lines  # noqa: E402
from hinge import command  # noqa: E402
from hinge.border.messages import Order, Reply, Strange, message_line, read_message  # noqa: E402
from hinge.border.serving import Client, answered  # noqa: E402
from hinge.captures.addresses import read_addresses  # noqa: E402
from hinge.net.description import read_description  # noqa: E402
from hinge.net.net_plan import NetPlan  # noqa: E402
from hinge.paths.folder import told_drops  # noqa: E402
from hinge.paths.passages import Topology  # noqa: E402
from hinge.run.control import Control  # noqa: E402
from hinge.run.host_lines import LinkReply  # noqa: E402
from hinge.run.page import Page  # noqa: E402
from hinge.run.plan import Plan  # noqa: E402

LONGEST, LONGEST_WAIT = 10, 600  # s of the processor for an input, and by the clock, also of a busy machine
FRAMES, SHARES = 400, {"frames": 100}  # of a capture that tshark reads too, and how many inputs one of them stands for
MEMORY, MEMORY_TIMES = 1 << 27, 3000  # bytes of memory that an input may take, and times its length more
OUTPUT, OUTPUT_TIMES = 1 << 20, 4000  # the same of what is written
STATUSES = {0, 1, 2, 3, 4, 6}
NUMBERS = [0, 1, 2, 4, 12, 28, 255, 256, 1500, 65535, 65536, 2**28, 2**31 - 1, 2**31, 2**32 - 4, 2**32 - 1]
TEXTS = [
    *(b",", b"\n", b"\x1b[31m", b"\0", b"\xff", b"%", b"fe80::1%\x1b[2J", b"9" * 5000, b'"', b"-1", b"[" * 2000),
    *(b"{}", b"null", b"#,host,", b"#,pipe,1,", b"c,0,submit,pipe,1,", b"up 1ms", b"outage 1s lossy", b"1e999", b"\xc2\x9b31m"),
]
MEMORY_FOLDER = "/dev/shm"
CONFIG = "pipe 1 config bw 8Mbit/s\n"
ROWS = "moment,target,number,src,dst,proto,sport,dport,len,word\n" + "".join(
    f"{n},pipe,1,240.0.0.1,240.0.0.2,17,1,2,1000,0\n" for n in range(9)
)


class TooLong(Exception):
    """Raised for an input that takes too much time."""


def called(name: str, *words: str) -> None:
    """Runs a `hinge` command in this process; its output goes to standard output and standard error."""
    module = __import__(f"hinge.commands.{name}", fromlist=["main"])
    sys.argv, command.NAME[0] = ["hinge", *words], f"hinge {name}"
    try:
        module.main()
    except command.Fault as fault:
        command.say(str(fault))
        assert fault.status in STATUSES and "\n" not in str(fault), f"status {fault.status}: {fault}"
    except SystemExit as end:
        assert end.code in STATUSES | {None}, f"status {end.code}"


def captures(data: bytes, rng: random.Random) -> None:
    Path("x").write_bytes(data)
    options: list[list[str]] = [[], ["--mtu", "256"], ["--mtu", "1500", "--rate", "1Gbit/s"], ["--from", "first"], ["--index", "i"]]
    called("packets", "x", "-o", "o", *rng.choice(options))


def frames(data: bytes, rng: random.Random) -> None:
    """Reads frames with two independent readers."""
    if shutil.which("tshark") is None:
        return
    made = random_frames.Frames(rng.getrandbits(60))
    link = rng.choice(list(made.links))
    out = [struct.pack("<IHHIIII", 0xA1B23C4D, 2, 4, 0, 0, 262144, link)]
    for second in range(FRAMES):
        whole = made.links[link]()
        kept = made.cut(whole) if rng.random() < 0.4 else whole
        out += [struct.pack("<IIII", second, rng.randrange(10**9), len(kept), len(whole)), kept]
    Path("x.cap").write_bytes(b"".join(out))
    ours, theirs = list(frames_by_kit("x.cap")), list(frames_by_tshark("x.cap"))
    assert len(ours) == len(theirs) == FRAMES, f"link {link}: {len(ours)} and {len(theirs)} frames"
    for one, other in zip(ours, theirs):
        assert one == other, f"link {link}: {one}, and by tshark {other}"


def addresses(data: bytes, rng: random.Random) -> None:
    """One in twenty with the whole of a table."""
    Path("p.addresses").write_bytes(data)
    if rng.random() < 0.05:
        called("look", "p", "r")
    else:
        planned(Plan(), lambda: read_addresses("p", set))


def histories(data: bytes, rng: random.Random) -> None:
    Path("net.history").write_bytes(data)
    called("look", ".")


def summaries(data: bytes, rng: random.Random) -> None:
    """Reads summaries, sometimes beside a history."""
    Path("net.json").write_bytes(data)
    if rng.random() < 0.05:
        Path("net.history").write_bytes((HERE / "corpus" / "histories" / "ping").read_bytes())
        called("look", ".")
    else:
        planned(Plan(), lambda: told_drops("net.json", Topology()))


def run_of(folder: str) -> Control:
    """Returns a run whose host accepts every line."""
    plan = Plan()
    plan.link("pipe 1 config delay 5"), plan.link("pipe 2 config delay 5")
    made = Control(f"{folder}/socket", plan, Page(), plan.read, lambda: {"came": 0})
    made.lines.ask = lambda text, until=None, is_wanted=None: LinkReply(5, "", "pipe 1 config\npipe 1 config")  # type: ignore
    return made


def control(data: bytes, rng: random.Random) -> None:
    run, (here, there) = run_of("."), socket.socketpair()
    for text in data.split(b"\n"):
        try:
            told = answered(read_message(Order, text), Client(here, 0.0), run.obeyed_order).reply
        except Strange as strange:
            told = Reply(refused=str(strange))
        assert isinstance(told, Reply)
        assert not (told.refused or "").startswith("it can't be obeyed"), told.refused
        read_message(Reply, message_line(told))
    run.end(), os.close(run.server.spare), here.close(), there.close()
    run.lines.own.close(), run.lines.hosts.close(), run.page.memory.close(), os.close(run.page.descriptor)


def planned(plan: Plan, words: Callable[[], object]) -> None:
    """Runs a plan's reading of words: the result is a text for the host, or a refusal."""
    try:
        words()
        assert plan.text(1).endswith("\n")
    except command.Fault as told:
        command.say(str(told))
        assert "\n" not in str(told), f"several lines: {told}"


@contextlib.contextmanager
def seldom_judged(rng: random.Random) -> Iterator[None]:
    """Makes the program judge the lines of one input in a hundred, since it is a separate process."""
    judges = (NetPlan, "judge", lambda made: None), (hinge.checks.lines, "refuse_wrong", lambda lines: None)
    with contextlib.ExitStack() as stack:
        for owner, name, instead in judges if rng.random() > 0.01 else ():
            stack.enter_context(mock.patch.object(owner, name, instead))
        yield


def timelines(data: bytes, rng: random.Random) -> None:
    Path("x").write_bytes(data)
    plan = Plan()
    plan.link("pipe 1 config bw 1Mbit/s"), plan.link("pipe 2 config delay 5"), plan.link("queue 1 config pipe 1")
    with seldom_judged(rng):
        planned(plan, lambda: plan.timeline("x"))


def traces(data: bytes, rng: random.Random) -> None:
    Path("x").write_bytes(data)
    plan = Plan()
    plan.link("pipe 1 config bw 1Mbit/s")
    planned(plan, lambda: plan.trace(0, "x", rng.choice((None, 10**8)), 10**11))


def nets(data: bytes, rng: random.Random) -> None:
    Path("x.net").write_bytes(data)
    try:
        with seldom_judged(rng):
            made = NetPlan(read_description("x.net"), 1500, 1)
        planned(made.plan, lambda: None)
    except command.Fault as refusal:
        text = str(refusal)
        planned(Plan(), lambda: command.say(text))
        assert "\n" not in text, f"several lines: {text}"


TARGETS: dict[str, Callable[[bytes, random.Random], None]] = {
    target.__name__: target for target in (captures, control, addresses, histories, summaries, nets, timelines, traces, frames)
}


def changed(data: bytes, rng: random.Random, others: list[bytes]) -> bytes:
    """Returns an input with some changes, applied before or after compression if it is compressed."""
    packed = data[:2] == b"\x1f\x8b" and rng.random() < 0.7
    with contextlib.suppress(OSError, EOFError, zlib.error):
        data = gzip.decompress(data) if packed else data
    found = bytearray(data)
    for _ in range(rng.choice((1, 1, 2, 4, 8))):
        at = rng.randrange(len(found) + 1)
        other = rng.choice(others)
        begin = rng.randrange(len(other) + 1)
        size = rng.choice((1, 1, 2, 4, 16, 60))
        kind = rng.randrange(8)
        if kind == 0 and found:
            found[at % len(found)] = rng.randrange(256)
        elif kind == 1:
            found[at : at + 4] = struct.pack(rng.choice("<>") + "I", rng.choice(NUMBERS))
        elif kind == 2:
            found[at:at] = rng.choice(TEXTS)
        elif kind == 3:
            del found[at : at + size]
        elif kind == 4:
            found[at:at] = found[begin % (len(found) + 1) :][:size]
        elif kind == 5:
            found[at:] = other[begin:]
        elif kind == 6 and rng.random() < 0.3:
            del found[at:]
        else:
            found[at : at + size] = other[begin : begin + size]
    return gzip.compress(bytes(found), 1) if packed else bytes(found)


def ended_by_the_clock(*_: object) -> NoReturn:
    raise TooLong(f"more than {LONGEST} s of the processor, or {LONGEST_WAIT} s")


def memory() -> int:
    """Returns the maximum number of bytes that this process has used."""
    return resource.getrusage(resource.RUSAGE_SELF).ru_maxrss * 1024


def fault_of(name: str, data: bytes, rng: random.Random, kept: set[str]) -> str:
    """Returns the fault in an input's end, or an empty text."""
    told, had = io.StringIO(), memory()
    resource.setrlimit(resource.RLIMIT_FSIZE, (OUTPUT + OUTPUT_TIMES * len(data), resource.RLIM_INFINITY))
    signal.setitimer(signal.ITIMER_PROF, LONGEST)
    signal.alarm(LONGEST_WAIT)
    try:
        with contextlib.redirect_stdout(told), contextlib.redirect_stderr(told):
            TARGETS[name](data, rng)
    except BaseException as error:
        return f"{type(error).__name__}: {error}"
    finally:
        signal.setitimer(signal.ITIMER_PROF, 0)
        signal.alarm(0)
    if memory() > had + MEMORY + MEMORY_TIMES * len(data):
        return f"{memory() - had:,} bytes of memory for {len(data):,}"
    if odd := [letter for letter in told.getvalue() if not letter.isprintable() and letter != "\n"]:
        return f"a terminal gets {odd[0]!r}"
    left = {path for path in os.listdir(".") if path.startswith(".")} - kept
    return f"left: {', '.join(sorted(left))}" if left else ""


def prepared(folder: str) -> None:
    """Prepares the commands' other inputs, which need numpy."""
    __import__("numpy")
    os.chdir(folder)
    Path("c").write_text(CONFIG), Path("p").write_text(ROWS)
    program = os.environ.setdefault(
        "DUMMYNET", str(TOP / "release" / "dummynet")
    )  # without the wrapper, which looks at all sources
    with open("r", "wb") as report:
        subprocess.run([program, "replay", "c", "p"], stdout=report, check=True)


def tried(name: str, asked: int, seed: int, found: Path) -> list[str]:
    corpus = [path.read_bytes() for path in sorted((HERE / "corpus" / name).glob("*"))] or [b""]
    faults, kinds = list[str](), set[str]()
    for count in range(max(asked // SHARES.get(name, 1), len(corpus))):
        rng = random.Random(f"{seed} {name} {count}")
        data = corpus[count] if count < len(corpus) else changed(rng.choice(corpus), rng, corpus)
        fault = fault_of(name, data, rng, set())
        if fault and fault[:30] not in kinds:
            kinds.add(fault[:30])
            place = found / f"{name}-{sha256(data).hexdigest()[:12]}"
            place.write_bytes(data)
            faults.append(f"seed {seed}, input {count + 1}, {place.name}: {fault[:300]}")
    print(f"{name}: {count + 1} inputs, seed {seed}, {memory() >> 20} MiB at most", flush=True)
    return faults


def main(tally: Tally, *words: str) -> None:
    parser = argparse.ArgumentParser(description=__doc__, formatter_class=argparse.RawDescriptionHelpFormatter)
    parser.add_argument("--seed")
    parser.add_argument("count", type=int)
    parser.add_argument("names", nargs="*", choices=[*TARGETS, []], metavar="NAME")
    asked = parser.parse_args(words)
    found = TOP / "built" / "fuzz"
    seed = seeds.chosen(asked.seed, *seeds.KIT)
    found.mkdir(parents=True, exist_ok=True)
    for number in (signal.SIGALRM, signal.SIGPROF):
        signal.signal(number, ended_by_the_clock)
    with tempfile.TemporaryDirectory(dir=MEMORY_FOLDER if os.access(MEMORY_FOLDER, os.W_OK) else None) as folder:
        prepared(folder)
        for name in asked.names or TARGETS:
            tally.note(name, *tried(name, asked.count, seed, found))
        os.chdir(TOP)


if __name__ == "__main__":
    judge(main)
