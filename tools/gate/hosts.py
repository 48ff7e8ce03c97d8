"""`hinge run`, `hinge net`, `hinge udp` and the example host: traffic between real programs, and an audit of the result.

    python3 tools/gate/hosts.py PROGRAM

The host in C is built anew from the present sources, where there is cc, else that of the release is taken. The clock of a machine
that does other work says only that nothing comes early; bench/live_rates.py reports how late a host is.
"""

import os
import re
import shutil
import signal
import subprocess
import sys
import time
from pathlib import Path
from socket import AF_INET, SOCK_DGRAM, socket

import pytests
from tally import TOP, Tally, judge, lacks, ran

LIVE = TOP / "examples" / "live"
HINGE = TOP / "hinge"
VOID, REFUSED = 75, 6  # statuses of `hinge net`: it was late, and the system doesn't allow it
STRICT = ["cc", "-O2", "-Wall", "-Wextra", "-Werror"]
ROUND = 0.01  # s of 2 x 5 ms
# By name: the program without which it is left out, and what the main command prints last.
NETS = {
    "etcd": ("etcd", "consistent"),
    "redis": ("redis-server", "consistent"),
    "weights": ("iperf3", "as weighted"),
    "ospf": ("bird", "converged"),
}


def environment(program: str, folder: Path) -> dict[str, str]:
    """Returns the environment that names the program and the present sources' host."""
    env = {**os.environ, "DUMMYNET": program}
    return {**env, "HINGE_LINK": str(folder / "hinge-link")} if shutil.which("cc") else env


def tests(tally: Tally, program: str, folder: Path) -> None:
    """Runs the tests of `hinge run`, `hinge net` and `hinge udp` with the present sources' host."""
    env = environment(program, folder)
    if shutil.which("cc"):
        done = ran(TOP / "tools" / "release" / "hosts", folder, is_apart=True)
        tally.ends("tools/release/hosts", done, 0, f"{folder.resolve()}/hinge-link\n", "")
    pytests.count(tally, ["tests/run"], env, *(f"--ignore={plan}" for plan in pytests.PLANS))


def nets(tally: Tally, program: str, folder: Path) -> None:
    """Runs examples/net: each with its programs' results, its links' audit, and its hosts' audit."""
    for name, (needed, last_line) in NETS.items():
        if not lacks(f"the net {name}", needed):
            net(tally, program, folder, name, last_line)


def net(tally: Tally, program: str, folder: Path, name: str, last_line: str) -> None:
    env, session = environment(program, folder), folder / name
    words = [HINGE, "net", TOP / "examples" / "net" / f"{name}.net", "--transcripts", session]
    net = ran(*words, env=env, is_apart=True, timeout=300)
    if net.returncode != REFUSED and net.stdout.splitlines()[-1:] != [last_line]:  # of a machine that may be too busy for it
        net = ran(*words, "--late", "5ms", env=env, is_apart=True, timeout=300)
    if net.returncode == VOID:
        print(f"the net {name}: skipped, as this machine is too busy: {net.stderr.splitlines()[-1]}")
        return
    if net.returncode == REFUSED:
        print(f"the net {name}: skipped: {net.stderr.strip()}")
        return
    tally.equal(f"the net {name}", (0, last_line), (net.returncode, (net.stdout.splitlines() or [net.stderr])[-1]))
    audit = ran(program, "audit", session / "net.history")
    tally.equal("the audit of its links", (0, "lawful"), (audit.returncode, audit.stdout.partition(" ")[0]))
    if ran("/usr/bin/python3", "-c", "import numpy").returncode == 0:
        paths = ran(HINGE, "look", session, env=env, is_apart=True)
        if paths.returncode:  # of a machine that may have been too busy for the words of the file
            print(f"the net {name}: made once more, since hinge look said: {paths.stdout.splitlines()[:2]}")
            net = ran(*words, "--late", "5ms", env=env, is_apart=True, timeout=300)
            if net.returncode == VOID:
                print(f"the net {name}: skipped, as this machine is too busy: {net.stderr.splitlines()[-1]}")
                return
            paths = ran(HINGE, "look", session, env=env, is_apart=True)
        last = (paths.stdout.splitlines() or [paths.stderr])[-1]
        tally.equal("the audit of what is between them", (0, "lawful between links"), (paths.returncode, last))


def free_port() -> int:
    with socket(AF_INET, SOCK_DGRAM) as one:
        one.bind(("127.0.0.1", 0))
        return int(one.getsockname()[1])


def example(tally: Tally, program: str, folder: Path) -> None:
    """Rounds through examples/live/host.py."""
    port = free_port()
    with socket(AF_INET, SOCK_DGRAM) as server, socket(AF_INET, SOCK_DGRAM) as client:
        server.bind(("127.0.0.1", 0))
        client.settimeout(5), server.settimeout(5)
        words = [
            sys.executable,
            "host.py",
            str(port),
            f"127.0.0.1:{server.getsockname()[1]}",
            "pipe 1 config delay 5",
            "pipe 2 config delay 5",
        ]
        host = subprocess.Popen(words, cwd=LIVE, env={**os.environ, "DUMMYNET": program})
        took = []
        for number in range(20):  # the first can be lost or late, where it doesn't listen yet
            begun = time.monotonic()
            try:
                client.sendto(b"%d" % number, ("127.0.0.1", port))
                server.sendto(*server.recvfrom(9))
                came = client.recv(9)
                if came == b"%d" % number:
                    took.append(time.monotonic() - begun)
                while took == []:  # one that was late
                    server.sendto(*server.recvfrom(9))
                    client.recv(9)
            except OSError:
                time.sleep(0.1)
        host.send_signal(signal.SIGINT)
        host.wait()
    tally.note("rounds through examples/live/host.py", "" if len(took) > 3 and min(took) >= ROUND else f"took {took} s")


def page(tally: Tally, program: str, folder: Path) -> None:
    """Checks the pages' output of a session in Python, and of a session without a clock."""
    text = (TOP / "docs" / "EMBEDDING.md").read_text()
    [(source, printed)] = re.findall(r"```\n(from session .*?)```\n\n```\n(.*?)```", text, re.S)
    done = ran(sys.executable, "-c", source, cwd=LIVE, env={**os.environ, "DUMMYNET": program}, is_apart=True)
    tally.equal("the session in Python", (printed, ""), (done.stdout, done.stderr))
    text = (TOP / "docs" / "FILES.md").read_text()
    [(source, printed)] = re.findall(r"\$ ./dummynet live <<END\n(.*?)END\n(.*?)```", text, re.S)
    done = ran(program, "live", input=source, is_apart=True)
    tally.ends("the session without a clock", done, 0, printed, "")


CUT = """dummynet-live,1
c,0,configure,pipe 1 config delay 1
r,configured
c,0,submit,pipe,1,10.0.0.1,10.0.0.2,17,1000,2000,1000,0,0
r,queued,0,0,0
#,next,1000000
c,0,collect,1000000
r,delivered,1000000,1
d,0,0,0,10000"""


def cut(tally: Tally, program: str, folder: Path) -> None:
    """The page's command keeps the whole entries of a transcript that was cut."""
    [command] = re.findall(r"^\$ (awk .*?) session\.history > front", (TOP / "docs" / "LIVE.md").read_text(), re.M | re.S)
    (folder / "session.history").write_text(CUT)
    done = ran("sh", "-c", f"{command} session.history > front.history", cwd=folder, is_apart=True)
    tally.equal("the page's command for a cut transcript", (0, ""), (done.returncode, done.stderr))
    done = ran(program, "audit", folder / "front.history")
    tally.ends("the audit of its whole entries", done, 0, "lawful 2\n")


def in_c(tally: Tally, program: str, folder: Path) -> None:
    """Runs bench/live.c, a session with session.h: of 1,000 packets at 0, 0.1 .. 99.9 ms that take 5.08 ms each, 51 don't arrive in
    time."""
    if lacks("a session in C", "cc"):
        return
    done = ran(*STRICT, "-o", folder / "live", TOP / "bench" / "live.c", is_apart=True)
    tally.equal("live.c compiled", (0, ""), (done.returncode, done.stderr))
    done = ran(folder / "live", "1000", env={**os.environ, "DUMMYNET": program})
    tally.equal("live.c", (0, "949 delivered"), (done.returncode, done.stdout.strip().rpartition(", ")[2]))


UNKNOWN = "word 1: unknown word"
LINES = [  # a configuration line as a file has it, and what a host by session.h or session.py is told of it
    (b"pipe 1 config bw 8Mbit/s", "obeyed"),
    (b"  ", "obeyed"),
    (b"", "obeyed"),
    (b"\t\r", "obeyed"),
    (b" # a note", "obeyed"),
    (b"\r", "obeyed"),
    (b"next", UNKNOWN),
    (b"next\r", UNKNOWN),
    (b"next\rc,0,show", UNKNOWN),
    (b'"next"', UNKNOWN),
    (b"c,0,show", UNKNOWN),
    (b"c,0,collect,9", UNKNOWN),
    (b"c,0,submit,pipe,1,10.0.0.1,10.0.0.2,17,1000,2000,1000,0,0", UNKNOWN),
    (b"#,next", "obeyed"),
    (b"pipe 1 config\r", "obeyed"),
    (b"\0", UNKNOWN),
    (b"\0pipe 1 config", UNKNOWN),
    (b" \0 # a note", UNKNOWN),
    (b"pipe 1 config\0", "word 3: unknown word"),
    (b"pipe 1 config bw 3x", "word 5: bad number"),
    (b"queue 1 config pipe 9", "no-such-pipe"),
    (b"pipe 1 \xff", "not UTF-8"),
    (b"pipe 1 delete", "obeyed"),
]


def lines_in_c(tally: Tally, program: str, folder: Path) -> None:
    """Checks that lines of every kind are told apart, without waiting."""
    if lacks("configuration lines of a session in C", "cc"):
        return
    done = ran(*STRICT, "-o", folder / "lines", TOP / "tools" / "gate" / "session_lines.c", is_apart=True)
    tally.equal("session_lines.c compiled", (0, ""), (done.returncode, done.stderr))
    lines = b"\n".join(line for line, _ in LINES)
    session = ran(folder / "lines", env={**os.environ, "DUMMYNET": program}, input=lines, timeout=120, stderr=None, text=False)
    told = session.stdout.decode().splitlines()
    for (line, wanted), got in zip(LINES, told):
        tally.equal(f"{line!r} by session.h", f"{wanted}; #,next", got)
    tally.equal("the end of the session", (4, ["more than one line"]), (session.returncode, told[len(LINES) :]))


IN_PYTHON = """
import sys
from session import BadLine, Session, program
with Session(program()) as session:
    for line in eval(sys.stdin.read()):
        try:
            told = session.configure(line) or "obeyed"
        except BadLine as bad:
            told = str(bad)
        print(f"{told}; {session.ask(['next'])[0].outcome}")
"""


def lines_in_python(tally: Tally, program: str, folder: Path) -> None:
    """The same lines in Python, as far as they are text, and two at once."""
    lines = [
        (line.decode(), wanted)
        for line, wanted in [*LINES, (b"pipe 1 config\npipe 2 config", "more than one line")]
        if b"\xff" not in line
    ]
    env = {**os.environ, "DUMMYNET": program}
    text = repr([line for line, _ in lines])
    done = ran(sys.executable, "-c", IN_PYTHON, cwd=LIVE, env=env, input=text, is_apart=True, timeout=120)
    tally.equal("the session in Python at its end", (0, "", len(lines)), (done.returncode, done.stderr, done.stdout.count("\n")))
    for (line, wanted), got in zip(lines, done.stdout.splitlines()):
        tally.equal(f"{line!r} by session.py", f"{wanted.replace('-', ' ')}; next", got)


def main(tally: Tally, program: str) -> None:
    program = str(Path(program).resolve())
    signal.signal(signal.SIGINT, signal.default_int_handler)  # which a shell ignores for what it starts in the background
    for part in (page, cut, example, in_c, lines_in_c, lines_in_python, tests, nets):
        part(tally, program, tally.place)


if __name__ == "__main__":
    judge(main)
