"""The scripts ./dummynet, ./build and tools/release/release in copies of the repository, and the words of ./check.

    python3 tools/gate/wrapper.py PROGRAM

The copies have a toolchain that only pretends. Its `rt` proves nothing: it leaves the files that the real one leaves, and fails where it is told to. So which program
runs, what is told, and what is left when a build fails is tried in seconds. The streams and statuses of the real program are
tried through the real ./dummynet.
"""

import os
import re
import resource
import shutil
import subprocess
import sys
from pathlib import Path
from tempfile import TemporaryDirectory

from tally import TOP, Tally, judge, lacks

SCRIPTS = """dummynet build crates.txt HANDLES VERSION LICENSE tools/release/program_sources tools/release/build_program.py
tools/release/link_library.py tools/release/library tools/release/release crates/hingetulip_c/include/hingetulip.h
crates/hingetulip_c/include/hingetulip_service.h""".split()
PRETENDED = """#!/bin/sh
crate=$(basename "$PWD")
case $1 in
version) echo 'rattle-kit-none logic 0'; exit ;;
doc) echo "$KIT/START-HERE.md"; exit ;;
esac
echo "$1 $crate" >>"$CALLS"
[ "$crate" != "$FAILS" ] || { echo 'no proof'; exit 1; }
mkdir -p out/rlib out/incremental
for below in ../*; do [ -d "$below/out/rlib" ] || { echo "$below isn't built"; exit 1; }; done
[ "$crate" != hingetulip_c ] || { echo 'int dn_version(void) { return 1; }' | cc -xc -fPIC -c -o out/it.o - && ar rc out/libhingetulip_c.a out/it.o; }
[ "$1" = lib ] || { printf '#!/bin/sh\\necho built "$@"\\n' >out/dummynet; chmod 755 out/dummynet; }
"""
STRIP = '#!/bin/sh\n[ "$1" = -o ] && cp "$3" "$2"\n'  # as what is pretended to be built is no executable of the system's
PLENTY = 1000  # processes, also beside others of the user without processes
NO_USER = 61_234  # who has no processes
RELEASE = '#!/bin/sh\necho release "$@"\n'


class Copy:
    """A copy of the scripts, with the sources of the program and of one test crate."""

    def __init__(self, place: str) -> None:
        self.top = Path(place) / "repo"
        self.tools = Path(place) / "bin"
        self.plain = Path(place) / "python"
        self.calls, self.temporary = Path(place) / "calls", Path(place) / "tmp"
        self.temporary.mkdir()
        for file in SCRIPTS:
            (self.top / file).parent.mkdir(parents=True, exist_ok=True)
            shutil.copy(TOP / file, self.top / file)
        words = [TOP / "tools" / "release" / "program_sources", "--crates"]
        crates = subprocess.run(words, capture_output=True, text=True, check=True).stdout.split()
        for crate in [*crates, "hingetulip_c", "test_parts"]:
            shutil.copytree(TOP / "crates" / crate / "src", self.top / "crates" / crate / "src")
        self.crates = crates
        self.plain.mkdir()
        (self.plain / "python3").write_text(f'#!/bin/sh\nexec "{sys.executable}" "$@"\n')
        (self.plain / "python3").chmod(0o755)
        self.kit = Path(place) / "kit"
        (self.kit / "c").mkdir(parents=True)
        (self.kit / "c" / "liblibc_c.a").write_bytes(b"!<arch>\n")
        self.tools.mkdir()
        for name, text in (("rt", PRETENDED), ("strip", STRIP)):
            (self.tools / name).write_text(text)
            (self.tools / name).chmod(0o755)

    def run(self, *words: str, fails: str = "", has_rt: bool = True, script: str = "dummynet") -> subprocess.CompletedProcess[str]:
        """Runs a script from another folder. The path has no folder in which the real `rt` lies, and Python all the same."""
        self.calls.write_text("")
        path = os.environ["PATH"].split(":")
        plain = [folder for folder in path if not (Path(folder) / "rt").exists()]
        env = {
            **os.environ,
            "PATH": ":".join(([str(self.tools)] if has_rt else []) + [str(self.plain), *plain]),
            "CALLS": str(self.calls),
            "FAILS": fails,
            "TMPDIR": str(self.temporary),
            "KIT": str(self.kit),
        }
        return subprocess.run(
            [str(self.top / script), *words], cwd="/", env=env, capture_output=True, text=True, stdin=subprocess.DEVNULL
        )

    def sources(self) -> str:
        return subprocess.run(
            [self.top / "tools" / "release" / "program_sources"], capture_output=True, text=True, check=True
        ).stdout

    def release(self, sources: str) -> None:
        (self.top / "release").mkdir(exist_ok=True)
        (self.top / "release" / "dummynet").write_text(RELEASE)
        (self.top / "release" / "dummynet").chmod(0o755)
        (self.top / "release" / "sources").write_text(sources)

    def change(self, file: str, line: str = "const CHANGED: u8 = 0;") -> None:
        with open(self.top / file, "a") as it:
            it.write(f"{line}\n")

    def built(self) -> list[str]:
        return sorted(it.parent.name for it in (self.top / "built").glob("*/dummynet"))


def which_program(tally: Tally, copy: Copy) -> None:
    """Checks which program runs: the release's, then the one built here."""
    copy.release(copy.sources())
    done = copy.run("a", "b c", has_rt=False)
    tally.ends("a release of these sources needs no toolchain", done, 0, "release a b c\n", "")
    done = copy.run(script="build")
    tally.equal("./build builds beside a release", 0, done.returncode)
    tally.equal(
        "./build builds each crate once", sorted(copy.crates), sorted(w.split()[1] for w in copy.calls.read_text().splitlines())
    )
    count = len(copy.crates)
    told = re.findall(rf"(?m)^dummynet: \d+ of {count} crates built \(\w+\), \d+\.\d minutes$", done.stderr)
    tally.equal("./build tells of each crate", count, len(told))
    done = copy.run("x", has_rt=False)
    tally.ends("the program that was built goes before the release", done, 0, "built x\n", "")
    for crate in ("dn_types/src/lib.rt", "dummynet/src/main.rt"):
        os.utime(copy.top / "crates" / crate)
    copy.change("crates/dn_link/src/lib.rt", "// A comment.")
    copy.change("crates/test_parts/src/lib.rt")
    (copy.top / "crates.txt").write_text((copy.top / "crates.txt").read_text() + "# a note\ntest_more: dn_types\n")
    done = copy.run("x")
    tally.equal(
        "a touched file, a comment, a test and another crate build nothing",
        ("built x\n", ""),
        (done.stdout, copy.calls.read_text()),
    )
    link = copy.top.parent / "link"
    link.symlink_to(copy.top / "dummynet")
    done = subprocess.run([link, "x"], cwd="/", capture_output=True, text=True)
    tally.equal("a link to the script", "built x\n", done.stdout)


def stale(tally: Tally, copy: Copy) -> None:
    """Checks sources without a program."""
    before = copy.built()
    copy.change("crates/dn_link/src/lib.rt")
    done = copy.run("x", has_rt=False)
    tally.note("no toolchain: status", "" if done.returncode == 70 and done.stdout == "" else f"got {done}")
    tally.note("no toolchain: told", "" if "no `rt` on the path" in done.stderr else f"got {done.stderr!r}")
    done = copy.run("x", fails="dn_link")
    log = copy.top / "built" / "log" / "dn_link.log"
    tally.note("a failed build: status", "" if done.returncode == 70 and done.stdout == "" else f"got {done}")
    tally.note("a failed build names its log", "" if str(log) in done.stderr else f"got {done.stderr!r}")
    tally.equal("a failed build leaves a log", "no proof\n", log.read_text())
    tally.equal("a failed build loses nothing", (before, True), (copy.built(), (copy.top / "release" / "dummynet").exists()))
    done = copy.run("x", fails="dummynet")
    tally.equal("a failed build of the program itself", (70, before), (done.returncode, copy.built()))
    done = copy.run("x y")
    tally.ends("a stale release and program are replaced", done, 0, "built x y\n")
    tally.note("one program is left", "" if len(copy.built()) == 1 and copy.built() != before else f"got {copy.built()}")
    tally.equal("nothing is left among the temporary files", [], list(copy.temporary.iterdir()))
    shutil.rmtree(copy.top / "release")
    shutil.rmtree(copy.top / "built")
    done = copy.run("x")
    tally.ends("neither release nor program", done, 0, "built x\n")


def few_processes(tally: Tally, copy: Copy) -> None:
    """Checks failing forks: the release runs, or there is a status, but never a build, nor a note on unreadable sources."""
    if os.geteuid() != 0:
        print("few processes: skipped, since only root has a user without processes")
        return
    copy.release(copy.sources())
    copy.calls.write_text("")
    copy.calls.chmod(0o666), copy.top.parent.chmod(0o755)

    def begin() -> None:
        resource.setrlimit(resource.RLIMIT_NPROC, (most, most))
        os.setgroups([]), os.setgid(NO_USER), os.setuid(NO_USER)

    for most in (*range(1, 12), PLENTY):
        shutil.rmtree(copy.top / "built", ignore_errors=True)
        (copy.top / "built").mkdir()
        (copy.top / "built").chmod(0o777)
        environment = {**os.environ, "PATH": f"{copy.tools}:/usr/bin:/bin", "CALLS": str(copy.calls)}
        words = ["/bin/sh", str(copy.top / "dummynet"), "x"]
        done = subprocess.run(words, cwd="/", env=environment, preexec_fn=begin, capture_output=True, text=True)
        note = copy.top / "built" / ".sources"
        got = (done.returncode, done.stdout, copy.calls.read_text(), note.read_text() if note.exists() else copy.sources())
        expected = (*((70, "") if done.returncode else (0, "release x\n")), "", copy.sources())
        tally.equal(f"{most} processes", expected, got)
    tally.equal("enough processes", 0, done.returncode)


def released(tally: Tally, copy: Copy) -> None:
    """Checks tools/release/release with a built program."""
    done = copy.run(script="tools/release/release")
    tally.equal("tools/release/release", 0, done.returncode)
    tally.equal("its sources", copy.sources(), (copy.top / "release" / "sources").read_text())
    done = subprocess.run(["sha256sum", "-c", "--quiet", "SHA256SUMS"], cwd=copy.top / "release", capture_output=True, text=True)
    tally.ends("its checksum", done, 0, "")
    copy.change("crates/dummynet/src/main.rt")
    done = copy.run(script="tools/release/release")
    tally.note("no release of what isn't built", "" if done.returncode == 1 and "isn't built" in done.stderr else f"got {done}")


def the_library(tally: Tally, copy: Copy) -> None:
    """./build --lib, where there is a C compiler."""
    if lacks("the C library", "cc"):
        return
    programs = copy.built()
    done = copy.run("--lib", script="build", fails="hingetulip_c")
    tally.equal("a failed build of the library", 70, done.returncode)
    done = copy.run("--lib", script="build")
    tally.note("./build --lib", "" if done.returncode == 0 else f"got {done}")
    tally.equal("./build --lib leaves the programs", programs, copy.built())
    tally.equal("./build of something else", 2, copy.run("--all", script="build").returncode)


def through_the_wrapper(tally: Tally, program: str) -> None:
    """Checks the streams and the status of the real program through the script."""
    with TemporaryDirectory() as place:
        copy = Copy(place)
        built = copy.top / "built" / copy.sources().strip()
        built.mkdir(parents=True)
        shutil.copy(program, built / "dummynet")
        for words, stdin in (([], "examples/first.txt"), (["audit", "none"], "/dev/null"), (["nothing"], "/dev/null")):
            both = []
            for command in (program, str(copy.top / "dummynet")):
                with open(TOP / stdin, "rb") as given:
                    done = subprocess.run([command, *words], stdin=given, capture_output=True, cwd=place)
                both.append((done.returncode, done.stdout, done.stderr))
            tally.equal(f"./dummynet {' '.join(words)}", both[0], both[1])


def words_of_check(tally: Tally) -> None:
    """Checks that ./check refuses unknown words."""
    for word, status in (("--help", 0), ("--quik", 2), ("quick", 2)):
        done = subprocess.run([TOP / "check", word], capture_output=True, text=True)
        told = (done.stdout if status == 0 else done.stderr).startswith("usage: ./check ")
        tally.equal(f"./check {word}", (status, True), (done.returncode, told))


def main(tally: Tally, program: str) -> None:
    words_of_check(tally)
    with TemporaryDirectory() as place:
        copy = Copy(place)
        few_processes(tally, copy)
        which_program(tally, copy)
        stale(tally, copy)
        released(tally, copy)
        the_library(tally, copy)
    through_the_wrapper(tally, os.path.abspath(program))


if __name__ == "__main__":
    judge(main)
