"""The whole command line of the program, as a user gives it.

    python3 tools/gate/command_line.py PROGRAM

Each form, each status from 0 to 6, help and version, broken pipes, full devices, files that may not grow, files that are missing,
unreadable or folders, lines that end in CR LF, and byte order marks. What is wanted stands here in full, from docs/FILES.md.
"""

import os
import shutil
import subprocess
from dataclasses import dataclass, field
from pathlib import Path
from tempfile import TemporaryDirectory
from typing import Optional

from tally import Tally, judge, lacks

HEADER = "moment,target,number,src,dst,proto,sport,dport,len,word\n"
ROW = "0,pipe,1,10.0.0.1,10.0.0.2,17,1000,2000,1000,0\n"
CONFIG = "pipe 1 config bw 8Mbit/s\n"
PACKETS = HEADER + ROW
REPORT = "event,row,flow,packet,at,start,due\nout,1,0,0,0,0,1000000\n"
LOST = HEADER + ROW.replace("pipe,1", "pipe,7")
LOST_REPORT = "event,row,flow,packet,at,start,due\nnone,1,,,0,,\n"
HISTORY = (
    "dummynet-history,3\nc,0,configure,pipe 1 config bw 8000000bit/s\nr,configured\n"
    "c,0,submit,pipe,1,10.0.0.1,10.0.0.2,17,1000,2000,1000,0,0\nr,queued,0,0,0\n"
    "c,0,collect,4611686018427387904\nr,delivered,4611686018427387904,1\nd,0,0,0,1000000\nend,3\n"
)
LOST_HISTORY = (
    "dummynet-history,3\nc,0,configure,pipe 1 config bw 8000000bit/s\nr,configured\n"
    "c,0,submit,pipe,7,10.0.0.1,10.0.0.2,17,1000,2000,1000,0,0\nr,no-target,0\n"
    "c,0,collect,4611686018427387904\nr,delivered,4611686018427387904,0\nend,3\n"
)
TRANSCRIPT = HISTORY.replace("dummynet-history,3", "dummynet-live,1")
CHANGED = HISTORY.replace("r,queued,0,0,0", "r,queued,0,0,1")
FILES = {"c": CONFIG, "p": PACKETS, "h": HISTORY}
OLDER = "dummynet-history,3\nend,0\n"
OTHER = "cannot write history: FILE isn't empty and isn't a history. Give --history another name, or remove FILE first\n"
SUBMIT = "c,0,submit,pipe,1,10.0.0.1,10.0.0.2,17,1000,2000,1000,0,0\n"
SESSION = f"{CONFIG}{SUBMIT}c,0,collect,4611686018427387904\n"
BAD_LINE = "#,bad,4,1,word 1: unknown word\n"


@dataclass(frozen=True)
class Case:
    """A command line, its files, and the expected behaviour. A stream with None isn't compared."""

    name: str
    words: list[str]
    status: int
    stdout: Optional[str] = ""
    stderr: Optional[str] = ""
    stdin: str = ""
    files: dict[str, str] = field(default_factory=lambda: dict(FILES))
    made: dict[str, str] = field(default_factory=dict)


def fault(name: str, words: list[str], status: int, line: str, **rest: object) -> Case:
    return Case(name, words, status, "", f"{line}\n", **rest)  # type: ignore[arg-type]


def replay(*words: str) -> list[str]:
    return ["replay", "c", "p", *words]


MARK = "\ufeff"
# fmt: off
FORMS = [
    Case("joined input", [], 0, REPORT, stdin=f"{CONFIG}--\n{PACKETS}"),
    Case("no input", [], 0, REPORT.partition("\n")[0] + "\n"),
    Case("two files", replay(), 0, REPORT),
    Case("options first", ["replay", "--callers", "1", "--history", "new", "c", "p"], 0, REPORT, made={"new": HISTORY}),
    Case("options with an equals sign", replay("--callers=2", "--history=new"), 0, REPORT, made={"new": HISTORY}),
    Case("files after two dashes", ["replay", "--", "c", "p"], 0, REPORT),
    Case("a history", replay("--history", "new"), 0, REPORT, made={"new": HISTORY}),
    Case("an older history is replaced", replay("--history", "old"), 0, REPORT, files={**FILES, "old": OLDER * 100}, made={"old": HISTORY}),
    Case("a longer history is replaced", replay("--history", "old"), 0, REPORT, files={**FILES, "old": HISTORY + OLDER}, made={"old": HISTORY}),
    Case("a shorter history is replaced", replay("--history", "old"), 0, REPORT, files={**FILES, "old": "dummynet-history,"}, made={"old": HISTORY}),
    Case("an empty file is replaced", replay("--history", "old"), 0, REPORT, files={**FILES, "old": ""}, made={"old": HISTORY}),
    *[Case(f"a history over {what}", replay("--history", name), 6, "", OTHER, files={**FILES, "old": text})
      for what, name, text in (("the packets by another name", "./p", ""), ("the configuration by another name", "./c", ""),
                               ("notes", "old", "notes\n"), ("a transcript", "old", TRANSCRIPT), ("a file of one byte", "old", "d"),
                               ("a part of a history's first record", "old", HISTORY[:16]), ("a file that has a history in it", "old", "\n" + HISTORY))],
    *[Case(f"a history over notes, {how}", replay("--history", "old", *words), 6, "", OTHER, files={**FILES, "old": "notes\n"})
      for how, words in (("two callers", ["--callers", "2"]), ("a limit", ["--most-packets", "999"]))],
    Case("a history over notes, told before a bad configuration", ["replay", "bad", "p", "--history", "old"], 6, "", OTHER,
         files={**FILES, "bad": "bad\n", "old": "notes\n"}),
    Case("no packets, told before a history over notes", ["replay", "c", "none", "--history", "old"], 6, "", "cannot read packets\n",
         files={**FILES, "old": "notes\n"}),
    Case("sixteen callers", replay("--callers", "16"), 0, REPORT),
    Case("two callers", replay("--callers", "2"), 0, REPORT),
    Case("packets of as many bytes as are told", replay("--most-packets", str(len(PACKETS))), 0, REPORT),
    Case("a history of such packets", replay("--most-packets", str(len(PACKETS)), "--history", "new"), 0, REPORT, made={"new": HISTORY}),
    Case("the greatest limit", replay(f"--most-packets={2**40}"), 0, REPORT),
    fault("packets of one byte more", replay("--most-packets", str(len(PACKETS) - 1)), 6, "packets too long"),
    fault("the same with a history", replay("--most-packets", str(len(PACKETS) - 1), "--history", "old"), 6, "packets too long", files={**FILES, "old": OLDER}),
    Case("a history of as many bytes as are told", ["audit", "h", "--most-history", str(len(HISTORY))], 0, "lawful 3\n"),
    fault("a history of one byte more", ["audit", "--most-history", str(len(HISTORY) - 1), "h"], 6, "history too long"),
    Case("lawful history", ["audit", "h"], 0, "lawful 3\n"),
    Case("changed history", ["audit", "h"], 1, "differs 1\n", files={"h": CHANGED}),
    Case("a live session", ["live"], 0, TRANSCRIPT, stdin=SESSION),
    Case("a live session without lines", ["live"], 0, "dummynet-live,1\nend,0\n"),
    Case("a bad line of a live session", ["live"], 4, TRANSCRIPT.replace("end,3\n", f"{BAD_LINE}end,3\n"), stdin=f"{SESSION}hello\n"),
    Case("CR LF in a history", ["audit", "h"], 0, "lawful 3\n", files={"h": HISTORY.replace("\n", "\r\n")}),
    Case("a byte order mark before packets", replay(), 0, REPORT, files={"c": CONFIG, "p": MARK + PACKETS}),
]
# fmt: on
LOST_FILES = {"c": CONFIG, "p": LOST}
# fmt: off
TARGETS = [
    Case("no row of a joined input has a target", [], 0, LOST_REPORT, stdin=f"{CONFIG}--\n{LOST}"),
    *[Case(f"no row has a target, {how}", replay(*words), 0, LOST_REPORT, files=LOST_FILES)
      for how, words in (("two files", []), ("one caller", ["--callers", "1"]), ("two callers", ["--callers", "2"]),
                         ("a limit", ["--most-packets", "999"]))],
    Case("no row has a target, with a history", replay("--history", "new"), 0, LOST_REPORT, files=LOST_FILES, made={"new": LOST_HISTORY}),
    Case("the queue of a row isn't there", replay(), 0, LOST_REPORT, files={"c": CONFIG, "p": PACKETS.replace("pipe,1", "queue,1")}),
    Case("no row of two callers has a target", replay("--callers", "2"), 0, LOST_REPORT + "none,2,,,0,,\n",
         files={"c": CONFIG, "p": LOST + LOST.removeprefix(HEADER)}),
    *[Case(f"one row of two has a target, {how}", replay(*words), 0, REPORT.replace("out,1", "out,2") + "none,1,,,0,,\n", files={"c": CONFIG, "p": LOST + ROW})
      for how, words in (("two files", []), ("two callers", ["--callers", "2"]))],
    *[Case(f"no rows, {how}", replay(*words), 0, REPORT.partition("\n")[0] + "\n", files={"c": CONFIG, "p": HEADER})
      for how, words in (("two files", []), ("two callers", ["--callers", "2"]))],
    Case("a row that is lost has a target", replay(), 0, LOST_REPORT.replace("none,1,,,0", "lost,1,0,,0"), files={"c": "pipe 1 config plr 1\n", "p": PACKETS}),
    Case("no row has a target, and a history in no folder", replay("--history", "no/new"), 6, LOST_REPORT, "cannot write history\n", files=LOST_FILES),
]
# fmt: on
# fmt: off
FAULTS = [
    fault("a byte order mark before a configuration", replay(), 3, "config line 1, word 1: unknown word",
          files={"c": MARK + CONFIG, "p": PACKETS}),
    fault("a row of commas", replay(), 4, "packet row 2, field 0: bad", files={"c": CONFIG, "p": f"{PACKETS}{',' * 90_000}\n"}),
    fault("empty lines and a row of commas", replay(), 4, "packet row 2, field 0: bad",
          files={"c": CONFIG, "p": f"{PACKETS}\n\r\n{',' * 90_000}\n"}),
    fault("a row of commas with a quote", replay(), 4, "packet row 2, field 0: bad",
          files={"c": CONFIG, "p": f'{PACKETS}{"," * 10}"\n{ROW}'}),
    fault("a header of commas", replay(), 4, "packet row 0, field 0: bad", files={"c": CONFIG, "p": f"{MARK}{',' * 90_000}\n"}),
    fault("nine commas and another row", replay(), 4, "packet row 2, field 1: bad",
          files={"c": CONFIG, "p": f"{PACKETS}{',' * 9}\n,{ROW}"}),
    fault("commas in quotes", replay(), 4, "packet row 2, field 1: bad",
          files={"c": CONFIG, "p": f'{PACKETS}"{"," * 10}",pipe{ROW.partition("pipe")[2]}'}),
    *[fault(f"no configuration, {how}", ["replay", "none", packets], 6, "cannot read config") for how, packets in (("but packets", "p"), ("no packets", "no"))],
    fault("a bad configuration, told before packets without an end", ["replay", "c", "/dev/zero"], 3, "config line 1, word 1: unknown word", files={"c": "bad\n"}),
    fault("no packets, told before a bad configuration", ["replay", "c", "none"], 6, "cannot read packets", files={"c": "bad\n"}),
    fault("a folder as configuration", ["replay", ".", "p"], 6, "cannot read config"),
    fault("a folder as packets", ["replay", "c", "."], 6, "cannot read packets"),
    fault("a folder as history", ["audit", "."], 6, "cannot read history"),
    fault("no history", ["audit", "none"], 6, "cannot read history"),
    fault("a read that fails", ["replay", "/proc/self/mem", "p"], 6, "cannot read config"),
    *[fault(f"{told} with {' '.join(options)}", ["replay", *names, *options], status, line, files={**FILES, "bad": "bad\n", "rows": HEADER + "0\n"})
      for options in (["--callers", "2"], ["--history", "new"], ["--callers", "2", "--history", "new"])
      for told, names, status, line in (("a bad configuration", ["bad", "p"], 3, "config line 1, word 1: unknown word"),
                                        ("a bad row", ["c", "rows"], 4, "packet row 1, field 0: bad"),
                                        ("no packets", ["c", "none"], 6, "cannot read packets"))],
    Case("a history of two callers in no folder", replay("--callers", "2", "--history", "no/new"), 6, REPORT, "cannot write history\n"),
    Case("a history in no folder", replay("--history", "no/new"), 6, REPORT, "cannot write history\n"),
    Case("a folder in the place of a history", replay("--history", "."), 6, REPORT, "cannot write history\n"),
    Case("a full device in the place of a history", replay("--history", "/dev/full"), 6, REPORT, "cannot write history\n"),
    Case("a faulty replay leaves an older history", replay("--history", "old"), 4, "", "packet row 1, field 0: bad\n",
         files={"c": CONFIG, "p": HEADER + "0\n", "old": OLDER}),
]
# fmt: on
SAME = "error: --history FILE would overwrite CONFIG or PACKETS\n"
LIMITED = "error: --most-packets BYTES can't be used with --callers N\n"
# fmt: off
USAGES = [
    *[Case(f"usage: {' '.join(words)}", words, 2, "", None)
      for words in (["nothing"], ["--nothing"], ["replay"], ["replay", "c"], replay("more"), replay("--callers", "0"), replay("--callers", "17"),
                    *(replay("--callers", count) for count in ("two", "1.5", "18446744073709551616")), replay("--callers"), replay("--history"), replay("--callers", "17", "--history", "new"),
                    replay("--callers", "2", "--callers", "2"), ["audit"], ["audit", "h", "h"], ["audit", "h", "--history", "new"],
                    ["live", "h"], ["live", "--callers", "2"], ["--callers", "2"], ["-x"],
                    replay("--most-packets"), replay("--most-packets", "0"), replay("--most-packets", str(2**40 + 1)), replay("--most-packets", "x"),
                    replay("--most-packets", "9", "--callers", "2"), replay("--most-history", "9"), ["--most-packets", "9"],
                    replay("--threads", "2"), ["audit", "h", "--threads", "2"], ["audit", "h", "--callers", "2"],
                    ["audit", "h", "--most-history", "0"], ["audit", "h", "--most-history", str(2**40 + 1)], ["audit", "h", "--most-packets", "9"])],
    *[Case(f"a history over {name}, the {word}", ["replay", *names, "--history", name], 2, "", None)
      for names, name, word in ((["c", "p"], "c", "configuration"), (["c", "p"], "p", "packets"), (["none", "p"], "none", "missing file"),
                              (["c", "p", "--callers", "2"], "p", "packets of two callers"))],
]
# fmt: on


def run(program: str, words: list[str], place: str, stdin: str, **how: object) -> subprocess.CompletedProcess[bytes]:
    return subprocess.run(
        [program, *words],
        cwd=place,
        input=stdin.encode("utf-8", "surrogateescape"),
        timeout=120,
        **{"stdout": subprocess.PIPE, "stderr": subprocess.PIPE, **how},
    )  # type: ignore[call-overload, no-any-return]


def laid(place: Path, files: dict[str, str]) -> None:
    for name, text in files.items():
        (place / name).write_bytes(text.encode("utf-8", "surrogateescape"))


def judged(tally: Tally, program: str, case: Case) -> None:
    with TemporaryDirectory() as folder:
        laid(Path(folder), case.files)
        done = run(program, case.words, folder, case.stdin)
        found = {
            it.name: it.read_bytes().decode() for it in Path(folder).iterdir() if it.name not in case.files or it.name in case.made
        }
        left = {
            name: (Path(folder) / name).read_bytes().decode("utf-8", "surrogateescape")
            for name in case.files
            if name not in case.made
        }
    told = done.stdout.decode(), done.stderr.decode()
    tally.note(
        case.name,
        "" if done.returncode == case.status else f"status: want {case.status}, got {done.returncode} {told}",
        "" if case.stdout in (None, told[0]) else f"standard output: want {case.stdout!r}, got {told[0]!r}",
        "" if case.stderr in (None, told[1]) else f"standard error: want {case.stderr!r}, got {told[1]!r}",
        "" if found == case.made else f"files: want {case.made}, got {found}",
        "" if left == {n: t for n, t in case.files.items() if n not in case.made} else "a file that it reads was changed",
    )


def texts(tally: Tally, program: str) -> None:
    """Checks help and version, and the program's own usage fault."""
    with TemporaryDirectory() as folder:
        for words, wanted in (
            (["--version"], ["dummynet 2.", "rattle-kit"]),
            (["-V"], ["dummynet 2.", "rattle-kit"]),
            (["--help"], ["CONFIG", "PACKETS", "HISTORY", "Example:", "replay", "audit", "live"]),
            (["-h"], ["Usage: dummynet"]),
            (["help"], ["Usage: dummynet"]),
            (["replay", "--help"], ["CONFIG", "PACKETS", "--callers", "--history", "--most-packets"]),
            (["help", "replay"], ["CONFIG"]),
            (["audit", "--help"], ["HISTORY", "--most-history", "live"]),
        ):
            done = run(program, words, folder, "")
            lacking = [text for text in wanted if text not in done.stdout.decode()]
            tally.equal(" ".join(words), (0, b"", []), (done.returncode, done.stderr, lacking))
        laid(Path(folder), FILES)
        done = run(program, replay("--history", "p"), folder, "")
        tally.equal("the words of a history over packets", SAME, done.stderr.decode()[: len(SAME)])
        tally.equal("its own usage", True, "\nUsage: dummynet replay [OPTIONS] <CONFIG> <PACKETS>\n" in done.stderr.decode())
        done = run(program, replay("--most-packets", "9", "--callers", "2"), folder, "")
        tally.equal("the words of a limit of callers", LIMITED, done.stderr.decode()[: len(LIMITED)])
        done = run(program, [os.fsdecode(b"\xff")], folder, "")
        tally.ends("an argument that isn't UTF-8", done, 2, b"", b"error: an argument isn't UTF-8\n")


def devices(tally: Tally, program: str) -> None:
    """Checks full and closed standard streams."""
    joined = f"{CONFIG}--\n{PACKETS}"
    with TemporaryDirectory() as folder, open("/dev/full", "wb") as full:
        laid(Path(folder), FILES)
        for name, words in (("a report", []), ("an audit's line", ["audit", "h"])):
            done = run(program, words, folder, joined, stdout=full)
            tally.equal(f"{name} to a full device", (6, b"cannot write report\n"), (done.returncode, done.stderr))
            reader, writer = os.pipe()
            os.close(reader)
            done = run(program, words, folder, joined, stdout=writer)
            os.close(writer)
            tally.equal(f"{name} to a broken pipe", (6, b"cannot write report\n"), (done.returncode, done.stderr))
        done = run(program, replay("--history", "new"), folder, "", stdout=full)
        tally.equal("no history after a report that failed", (6, False), (done.returncode, (Path(folder) / "new").exists()))
        done = run(program, ["live"], folder, SESSION, stdout=full)
        tally.equal("a live session to a full device", (6, b"cannot write history\n"), (done.returncode, done.stderr))
        for word in ("--help", "--version"):
            done = run(program, [word], folder, "", stdout=full)
            tally.equal(f"{word} to a full device", (0, b""), (done.returncode, done.stderr))
        done = run(program, ["replay", "none", "p"], folder, "", stderr=full)
        tally.ends("a fault line to a full device", done, 6, b"")
        done = subprocess.run(["sh", "-c", 'ulimit -s 160; exec "$0" replay c p', program], cwd=folder, capture_output=True)
        tally.ends("160 Kbytes of stack", done, 0, REPORT.encode(), b"")
        done = run(program, replay("--history", "/dev/stdout"), folder, "")
        tally.equal("a history after the report in one pipe", (REPORT + HISTORY).encode(), done.stdout)
        with open(Path(folder) / "both", "wb") as both:
            done = run(program, replay("--history", "both"), folder, "", stdout=both)
        tally.equal(
            "a history over the report",
            (6, REPORT, OTHER),
            (done.returncode, (Path(folder) / "both").read_text(), done.stderr.decode()),
        )
        for name, form, begun in (("", "", b""), (" of a live session", "live", b"dummynet-live,1\n")):
            done = subprocess.run(["sh", "-c", f'exec "$0" {form} <&-', program], cwd=folder, capture_output=True)
            tally.ends(f"standard input{name} closed", done, 6, begun, b"cannot read input\n")


def short_writes(tally: Tally, program: str) -> None:
    """Checks files limited to 512 bytes, which receive the beginning of the output: the status is 6, the history isn't
    complete, and an older one survives."""
    limited = ["sh", "-c", "trap '' XFSZ; ulimit -f 1; exec \"$@\"", "sh", program]
    rows = HEADER + ROW * 40
    packed = [f"{form}\n" for form in (CONFIG.rstrip(), *[SUBMIT.rstrip()] * 40)]
    with TemporaryDirectory() as folder:
        laid(Path(folder), {"c": CONFIG, "p": rows})
        ample = run(program, replay("--history", "whole"), folder, "")
        whole = {
            "report": ample.stdout,
            "history": (Path(folder) / "whole").read_bytes(),
            "session": run(program, ["live"], folder, "".join(packed)).stdout,
        }
        for name, words, what, fault in (
            ("a history", replay("--history", "cut"), "history", "history"),
            ("a history of callers", replay("--callers", "1", "--history", "cut"), "history", "history"),
            ("a report", replay(), "report", "report"),
            ("a joined input's report", [], "report", "report"),
            ("a live session", ["live"], "session", "history"),
        ):
            stdin = "".join(packed) if words == ["live"] else f"{CONFIG}--\n{rows}"
            cut = Path(folder) / "cut"
            with open(os.devnull if "--history" in words else cut, "wb") as out:
                done = subprocess.run(
                    [*limited, *words], cwd=folder, input=stdin.encode(), stdout=out, stderr=subprocess.PIPE, timeout=120
                )
            tally.equal(
                f"{name} that is cut",
                (6, f"cannot write {fault}\n".encode(), whole[what][:512]),
                (done.returncode, done.stderr, cut.read_bytes()),
            )
            tally.equal(f"{name} has more bytes", True, len(whole[what]) > 512)
        (Path(folder) / "old").write_text(HISTORY)
        done = subprocess.run([*limited, *replay("--history", "old")], cwd=folder, capture_output=True, timeout=120)
        told = done.returncode, done.stderr, (Path(folder) / "old").read_text()
        tally.equal("a longer history over an older one", (6, b"cannot write history\n", HISTORY), told)


def links(tally: Tally, program: str) -> None:
    """Checks that a history never replaces an input under any name, and replaces an older history under all of its names."""
    for kind, link in (("a symbolic link", os.symlink), ("a hard link", os.link)):
        with TemporaryDirectory() as folder:
            laid(Path(folder), {**FILES, "old": OLDER})
            for name in ("c", "p", "old"):
                link(Path(folder) / name, Path(folder) / f"{name}.link")
            for name in ("c", "p"):
                done = run(program, replay("--history", f"{name}.link"), folder, "")
                tally.equal(
                    f"a history over {kind} to {name}",
                    (6, b"", OTHER.encode(), FILES[name]),
                    (done.returncode, done.stdout, done.stderr, (Path(folder) / name).read_text()),
                )
            done = run(program, replay("--history", "old.link"), folder, "")
            tally.equal(
                f"a history over {kind} to an older one", (0, HISTORY), (done.returncode, (Path(folder) / "old").read_text())
            )
    with TemporaryDirectory() as folder:
        laid(Path(folder), FILES)
        os.symlink("new", Path(folder) / "link")
        done = run(program, replay("--history", "link"), folder, "")
        tally.equal("a history through a link to no file", (0, HISTORY), (done.returncode, (Path(folder) / "new").read_text()))


def rights(tally: Tally, program: str) -> None:
    """Files that may not be read or written, by a user to whom that matters."""
    drop = ["setpriv", "--reuid=65534", "--regid=65534", "--clear-groups"] if os.geteuid() == 0 else []
    if lacks("rights of files", *drop[:1]):
        return
    with TemporaryDirectory() as folder:
        os.chmod(folder, 0o755)
        laid(Path(folder), {**FILES, "old": OLDER})
        own = shutil.copy(program, folder)
        os.chmod(own, 0o755)
        for name, words, told in (
            ("c", replay(), (6, b"", b"cannot read config\n")),
            ("p", replay(), (6, b"", b"cannot read packets\n")),
            ("h", ["audit", "h"], (6, b"", b"cannot read history\n")),
            ("old", replay("--history", "old"), (6, REPORT.encode(), b"cannot write history\n")),
        ):
            (Path(folder) / name).chmod(0)
            done = subprocess.run([*drop, own, *words], cwd=folder, capture_output=True, stdin=subprocess.DEVNULL)
            tally.equal(f"no right to {name}", told, (done.returncode, done.stdout, done.stderr))
            (Path(folder) / name).chmod(0o644)
        tally.equal("a history without rights is left as it was", OLDER, (Path(folder) / "old").read_text())


def main(tally: Tally, program: str) -> None:
    for case in [*FORMS, *TARGETS, *FAULTS, *USAGES]:
        judged(tally, program, case)
    texts(tally, program)
    devices(tally, program)
    links(tally, program)
    short_writes(tally, program)
    rights(tally, program)


if __name__ == "__main__":
    judge(main)
