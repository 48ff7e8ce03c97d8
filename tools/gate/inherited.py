"""Commands don't depend on inherited settings: under a hostile parent they end with the status and output that they have under a
usual parent, in time. The hostile one ignores SIGCHLD, SIGPIPE and SIGXFSZ, blocks all signals, takes all rights of new files, has
closed standard input, and sets the variables of HOSTILE; PYTHONPATH has modules that fail. Under each of SCARCE they end so too, or
say why not by a status that means no verdict, no defect and no signal. So do the hosts in C without a command before them. As another
user, who may have no second process, commands end as usual, or by a line that says so and a status that means no answer.

    python3 tools/gate/inherited.py PROGRAM

Each script of the shell that has `cd` begins with FRONT, and the programs in Python with `inherit_nothing`. In simulated time, too, programs
begin without a blocked or ignored signal.
"""

import os
import re
import resource
import signal
import socket
import subprocess
from contextlib import ExitStack
from functools import partial
from pathlib import Path
from typing import Callable, Iterator, NamedTuple, Optional

from tally import TOP, Tally, judge

HINGE = [str(TOP / "hinge")]
CAPTURE = str(TOP / "python" / "tests" / "kit_data" / "mixed.pcap")
IGNORED = (signal.SIGCHLD, signal.SIGPIPE, signal.SIGXFSZ)
SCRIPT, FOLDER = re.compile(r"#!.*\bsh\b"), re.compile(r"(?m)^[^#\n]*\bcd\b")
FRONT = "unset CDPATH POSIXLY_CORRECT; export LC_ALL=C"
HOSTILE = {
    **{"CDPATH": ".:/", "ENV": "/dev/full", "IFS": "e/", "POSIXLY_CORRECT": "1", "LC_ALL": "tr_TR.UTF-8", "LANGUAGE": "tr"},
    **{"PYTHONWARNINGS": "error", "PYTHONOPTIMIZE": "2", "PYTHONHASHSEED": "7", "PYTHONINTMAXSTRDIGITS": "640"},
    **{"PYTHONSTARTUP": "/dev/full", "TZ": "Pacific/Kiritimati", "COLUMNS": "1"},
}
SHADOWED = "json random socket tempfile subprocess argparse dataclasses csv shlex".split()
LIMIT = 120  # s
PACKETS = "moment,target,number,src,dst,proto,sport,dport,len,word\n0,pipe,1,10.0.0.1,10.0.0.2,17,1000,2000,1000,0\n"
TOLD = "cat /proc/self/status | grep ^Sig[BI]; exit 3"
FILES = {
    "c": "pipe 1 config bw 8Mbit/s\n",
    "p": PACKETS,
    "n.net": "host a true\nhost b\nlink a b 1ms\n",
    "s.net": f"host a {TOLD}\nmain b grep ^Sig[BI] /proc/self/status\nlink a b 1ms\n",
    "s.sh": "ipfw pipe 1 config\n",
    "plan": "line pipe 1 config\nline pipe 2 config\nseed 0 1\nseed 1 1\n",
}
PAGE = 1 << 16  # bytes, more than those of a page of counts
COMMANDS = [
    *([*HINGE, *words] for words in (["help"], ["check", "c", "p"], ["ipfw", "s.sh"], ["why", "1", "c", "p"])),
    *(
        [*HINGE, *words]
        for words in (["packets", CAPTURE], ["try"], ["doctor"], ["net", "n.net", "--dry-run"], ["packets", "missing"])
    ),
    [*HINGE, "run", "--quiet", "--link", "1ms", "--", "sh", "-c", TOLD],
    [*HINGE, "run", "--quiet", "--server", "sleep 9", "--server-wait", "10ms", "--", "true"],
    [*HINGE, "net", "--quiet", "n.net"],
    [*HINGE, "run", "--simulated", "--seed", "1", "--quiet", "--link", "1ms", "--", "sh", "-c", TOLD],
    [*HINGE, "net", "--simulated", "--seed", "1", "--quiet", "s.net"],
    [str(TOP / "dummynet"), "--version"],
    [str(TOP / "tools/release/program_sources")],
    [str(TOP / "install"), "--uninstall", "usr"],
]


def closed(*streams: int) -> None:
    for stream in streams:
        os.close(stream)


CLOSED = "all streams are closed"
INSTALL = [str(TOP / "install"), "there"]
FORKING = [[*HINGE, *words] for words in (["udp", "0", "9"], ["up", "n.net"], ["look", "p", "p"])]
# An ordinary user, since nothing bounds root's processes, who may read a clone in root's home.
AS_ANOTHER = "setpriv --reuid 61234 --regid 61234 --clear-groups --inh-caps +dac_override --ambient-caps +dac_override".split()
NO_PROCESS = ("it can't begin: Resource", "a process can't begin: Resource", "can't start new thread", "Cannot fork")
NO_ANSWER = {"hinge": 6, "dummynet": 70}  # as which a command ends that can't begin another; the shell itself ends by 2
SCARCE: dict[str, Callable[[], None]] = {
    CLOSED: partial(closed, 0, 1, 2),
    "standard input is a folder": partial(os.dup2, os.open("/", os.O_RDONLY), 0),
    **{
        f"at most {most} of {name}": partial(resource.setrlimit, getattr(resource, name), (most, most))
        for name, most in (("RLIMIT_NOFILE", 20), ("RLIMIT_FSIZE", 0), ("RLIMIT_AS", 30 << 20), ("RLIMIT_AS", 22 << 20))
    },
}
NO_REASON, MISSING = (1, 70), 7  # of a verdict, and of a defect; of hinge doctor, which tells what can't begin


class Ended(NamedTuple):
    status: object
    stdout: str
    stderr: str


def shadow(folder: Path) -> None:
    """Modules that fail, of the names of the standard library's that Python doesn't load before a program begins."""
    os.mkdir(f"{folder}/shadow")
    for name in SHADOWED:
        Path(folder, "shadow", f"{name}.py").write_text(f"raise SystemError('{name} of PYTHONPATH')\n")


def begin_hostile() -> None:
    os.umask(0o777)
    closed(0)
    for number in IGNORED:
        signal.signal(number, signal.SIG_IGN)
    signal.pthread_sigmask(signal.SIG_BLOCK, signal.valid_signals())


def ended(
    words: list[str], folder: Path, program: str, begin: Optional[Callable[[], None]] = None, given: str = os.devnull
) -> Ended:
    """Returns how a command ends, which inherits every descriptor that may be inherited."""
    is_hostile = begin is begin_hostile
    env = {**os.environ, "DUMMYNET": program, **({**HOSTILE, "PYTHONPATH": f"{folder}/shadow"} if is_hostile else {})}
    with open(os.path.join(folder, given)) as source:
        streams = {
            "stdin": source,
            "stdout": subprocess.PIPE,
            "stderr": subprocess.PIPE,
            "encoding": "utf-8",
            "errors": "replace",
            "close_fds": False,
        }
        begun = subprocess.Popen(words, cwd=folder, env=env, restore_signals=not is_hostile, preexec_fn=begin, **streams)
    try:
        text, complaints = begun.communicate(timeout=LIMIT)
        return Ended(begun.returncode, re.sub(r"took [\d.]+ s", "", text), complaints)
    except subprocess.TimeoutExpired:
        begun.kill()
        return Ended(f"none in {LIMIT} s", "", "")


def fault_of(name: str, usual: Ended, scarce: Ended) -> str:
    """Returns what is wrong with an end for want of something, or an empty text."""
    if "Traceback" in scarce.stderr or "Fatal Python" in scarce.stderr:
        return scarce.stderr
    if scarce.status == usual.status or isinstance(scarce.status, int) and scarce.status >= 0 and scarce.status not in NO_REASON:
        is_silent = scarce.status and not usual.status and not scarce.stdout + scarce.stderr and name != CLOSED
        return f"status {scarce.status} without a word" if is_silent else ""
    return f"status {scarce.status}: {scarce.stderr}"


def crowded_fault(words: list[str], usual: Ended, alone: Ended) -> str:
    """Returns what is wrong with the end of a command that may begin no process, or an empty text."""
    if alone[:2] == usual[:2]:
        return ""
    is_told = alone.stderr.count("\n") == 1 and any(why in alone.stderr for why in NO_PROCESS) and not alone.stdout
    return "" if is_told and alone.status == NO_ANSWER.get(os.path.basename(words[0]), 2) else f"{alone}, and usually {usual}"


def check_crowded(tally: Tally, folder: Path, program: str) -> None:
    begin = partial(resource.setrlimit, resource.RLIMIT_NPROC, (1, 1))
    another = AS_ANOTHER if os.geteuid() == 0 else []
    for words in [*COMMANDS, INSTALL, *FORKING]:
        usual = Ended(0, "", "") if words in FORKING else ended(words, folder, program)
        alone = ended([*another, *words], folder, program, begin)
        is_answer = words[-1] == "doctor" and alone.status == MISSING and "can't begin" in alone.stdout
        tally.note(f"{' '.join(words)}, no second process", "" if is_answer else crowded_fault(words, usual, alone))


def hosts(stack: ExitStack, folder: Path) -> Iterator[tuple[list[str], str]]:
    """Yields the hosts in C, each with its input. What hinge-link connects is closed at the other ends, so it ends by itself."""
    pairs = [socket.socketpair(socket.AF_UNIX, socket.SOCK_SEQPACKET) for _ in range(2)]
    Path(folder, "page").write_bytes(bytes(PAGE))
    files = [*(stack.enter_context(end) for end, _ in pairs), stack.enter_context(open(f"{folder}/page", "r+b"))]
    for _, other in pairs:
        other.close()
    for one in files:
        os.set_inheritable(one.fileno(), True)
    place = next(TOP / name for name in ("built", "release") if (TOP / name / "hinge-link").exists())
    yield [str(place / "hinge-link"), *(str(one.fileno()) for one in files)], "plan"
    yield [str(place / "hinge-packets"), "columns", "packets", PACKETS.split()[0]], "p"
    yield ["env", f"LD_PRELOAD={place / 'hinge-clock.so'}", "sleep", "0"], os.devnull


def check_hosts(tally: Tally, folder: Path, program: str) -> None:
    with ExitStack() as stack:
        for words, given in hosts(stack, folder):
            name = os.path.basename(words[-3] if words[0] != "env" else "hinge-clock.so")
            usual = ended(words, folder, program, None, given)
            for scarcity, begin in {"a hostile parent": begin_hostile, **SCARCE}.items():
                tally.note(f"{name}, {scarcity}", fault_of(scarcity, usual, ended(words, folder, program, begin, given)))


def check_scripts(tally: Tally) -> None:
    for name in subprocess.run(["git", "ls-files"], cwd=TOP, capture_output=True, text=True, check=True).stdout.splitlines():
        path = TOP / name
        text = path.read_text(errors="replace") if path.is_file() and "kit_data" not in path.parts else ""
        if SCRIPT.match(text) and FOLDER.search(text):
            first = next(line for line in text.splitlines() if not line.startswith("#"))
            tally.note(name, "" if first == FRONT else f"it has cd, and its first command isn't `{FRONT}`")


def main(tally: Tally, program: str) -> None:
    check_scripts(tally)
    shadow(tally.place)
    for name, text in FILES.items():
        Path(tally.place, name).write_text(text)
    for words in [*COMMANDS, INSTALL]:
        name = " ".join(words)
        usual = ended(words, tally.place, program)
        if words != INSTALL:
            tally.equal(name, usual[:2], ended(words, tally.place, program, begin_hostile)[:2])
        for scarcity, begin in SCARCE.items():
            tally.note(f"{name}, {scarcity}", fault_of(scarcity, usual, ended(words, tally.place, program, begin)))
    check_crowded(tally, tally.place, program)
    check_hosts(tally, tally.place, program)


if __name__ == "__main__":
    judge(main)
