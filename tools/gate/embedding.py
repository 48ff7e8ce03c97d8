"""The C library and the Python module as a user has them: from a prefix, and as docs/EMBEDDING.md, hingetulip(3) and a README print them.

    python3 tools/gate/embedding.py

`./install --lib` puts the library of the present sources, as tools/release/library finds it, below a new prefix. There pkg-config's
options compile the programs in these pages, and the page's Python session, its simulation and the module's tests run.
"""

import os
import re
import shutil
import subprocess
import sys
from pathlib import Path
from tempfile import TemporaryDirectory

import pytests
from tally import TOP, Ran, Tally, judge, lacks, ran

PAGE = (TOP / "docs" / "EMBEDDING.md").read_text()
MANUAL = TOP / "docs" / "hingetulip.3"
README = TOP / "crates" / "hingetulip_c" / "README.md"
EXAMPLES = TOP / "examples" / "embed"
FIRST, LOOP, THREADS, SIMULATION = (EXAMPLES / name for name in ("first.c", "simulate.c", "threads.c", "aimd.py"))
PROGRAM = os.environ.get("DUMMYNET", TOP / "release" / "dummynet")
HELPERS = "tests tests/run tests/kit_tests tests/simulated"  # the folders of python/ that pytest searches, without python/ itself
WARNINGS = ["-Wall", "-Wextra", "-Werror"]
INSTALLED = """include/hingetulip.h include/hingetulip_service.h lib/cmake/Hingetulip/HingetulipConfig.cmake
lib/cmake/Hingetulip/HingetulipConfigVersion.cmake lib/libhingetulip.a lib/libhingetulip.so lib/libhingetulip.so.1
lib/pkgconfig/hingetulip.pc share/hingetulip/hingetulip.tsan share/hingetulip/installed share/man/man3/hingetulip.3""".split()
AROUND = "#include <hingetulip.h>\n#include <stdio.h>\n#include <string.h>\nint main(void)\n{\n%s\nreturn 0;\n}\n"


class Prefix:
    """A folder into which ./install --lib has put the library, and what a user sets to use it from there."""

    def __init__(self, folder: Path, place: Path) -> None:
        self.folder, self.place = folder, place
        kept = {name: value for name, value in os.environ.items() if name != "HINGETULIP_LIBRARY"}
        self.env = {
            **kept,
            "PKG_CONFIG_PATH": f"{folder}/lib/pkgconfig",
            "LD_LIBRARY_PATH": f"{folder}/lib",
            "PYTHONPATH": f"{folder}/lib/python",
            "PYTHONDONTWRITEBYTECODE": "1",
        }

    def run(self, *words: object) -> Ran:
        return ran(*words, cwd=self.place, env=self.env)

    def built(self, source: Path, *flags: str) -> Ran:
        """A program of a C file, built as the page says, and run."""
        compiled = self.run("sh", "-c", f'cc {" ".join(flags)} "$0" $(pkg-config --cflags --libs hingetulip) -o program', source)
        return self.run("./program") if compiled.returncode == 0 else compiled


def blocks(language: str, page: str = PAGE) -> list[str]:
    return re.findall(rf"^```{language}\n(.*?)^```$", page, re.M | re.S)


def printed_after(command: str) -> str:
    """Returns the text under a command on the page."""
    found = re.search(rf"^\$ [^\n]*{re.escape(command)}[^\n]*\n((?:[^`$][^\n]*\n)*)", PAGE, re.M)
    return found[1] if found else f"the page has no command {command}"


def from_c(tally: Tally, prefix: Prefix) -> None:
    [first] = blocks("c")
    tally.equal("the page's C program is examples/embed/first.c", FIRST.read_text(), first)
    for source in (FIRST, LOOP):
        done = prefix.built(source, *WARNINGS)
        tally.ends(f"examples/embed/{source.name}", done, 0, printed_after(f"./{source.stem}"))
    done = prefix.built(THREADS, *WARNINGS, "-pthread")
    tally.ends("examples/embed/threads.c", done, 0, printed_after("./threads"))
    done = prefix.run(PROGRAM, "audit", "threads.history")
    tally.equal("the history of threads.c", printed_after("dummynet audit"), done.stdout)
    example = re.search(r"^\.Bd -literal[^\n]*\n(.*?)^\.Ed", MANUAL.read_text(), re.M | re.S)
    source = prefix.place / "example.c"
    source.write_text(AROUND % (example[1] if example else "").replace("\\e", "\\"))
    done = prefix.built(source, *WARNINGS)
    tally.ends("the example of hingetulip(3)", done, 0, "packet 0 left at 21000 us\npacket 1 left at 22000 us\n")
    [sample] = blocks("c", README.read_text())
    source.write_text(AROUND % (sample.replace("#include <hingetulip.h>\n", "") + 'printf("%d\\n", fate.outcome == DN_QUEUED);'))
    done = prefix.built(source, *WARNINGS)
    tally.ends("the sample of the README of hingetulip_c", done, 0, "1\n")


def from_python(tally: Tally, prefix: Prefix) -> None:
    session = prefix.place / "session"
    session.write_text("\n".join(blocks("python")))
    done = prefix.run(sys.executable, "-m", "doctest", session)
    tally.ends("the page's Python session", done, 0, "")
    done = prefix.run(sys.executable, SIMULATION)
    tally.ends("the page's simulation", done, 0, printed_after("aimd.py"))
    # The prefix has the module, and the clone hinge, whose plugin of pytest is tried too.
    env = {**prefix.env, "PYTHONPATH": f"{prefix.env['PYTHONPATH']}:{TOP / 'python'}"}
    pytests.count(
        tally, sorted(f"tests/{it.name}" for it in (TOP / "python" / "tests").glob("test_*.py")), env, "-o", f"pythonpath={HELPERS}"
    )


def manual(tally: Tally, prefix: Prefix) -> None:
    """Checks that the manual page names every declaration of the header, and that mandoc has no complaints."""
    header = "".join((prefix.folder / "include" / name).read_text() for name in ("hingetulip.h", "hingetulip_service.h"))
    text = MANUAL.read_text()
    for name in sorted(set(re.findall(r"\b(?:dn_\w+(?=\()|DN_[A-Z0-9_]+(?= = ))", header))):
        tally.note(f"hingetulip(3): {name}", "" if re.search(rf"\b{name}\b", text) else "isn't named")
    if shutil.which("mandoc"):
        tally.equal("mandoc -Tlint", "", prefix.run("mandoc", "-Tlint", "-Wstyle", MANUAL).stdout)


def tried(tally: Tally, folder: Path, place: Path) -> None:
    prefix = Prefix(folder, place)
    pages = [TOP / name for name in ("LICENSE", "NOTICE", "README.md", "CHANGELOG.md")] + list((TOP / "docs").glob("*.md"))
    module_pages = [f"share/doc/hingetulip/{it.relative_to(TOP)}" for it in pages]
    module = [
        f"lib/{it.relative_to(TOP)}"
        for package in ("hingetulip", "hingetulip_words")
        for it in (TOP / "python" / package).rglob("*")
        if it.suffix in (".py", ".typed")
    ]
    tally.equal(
        "what is installed",
        sorted(INSTALLED + module + module_pages),
        sorted(str(it.relative_to(folder)) for it in folder.rglob("*") if not it.is_dir()),
    )
    if not lacks("the programs in C", "pkg-config"):
        from_c(tally, prefix)
    from_python(tally, prefix)
    manual(tally, prefix)


def main(tally: Tally) -> None:
    with TemporaryDirectory() as folder, TemporaryDirectory() as place:
        done = subprocess.run([TOP / "install", "--lib", folder], stdout=subprocess.PIPE, stderr=subprocess.STDOUT, text=True)
        tally.note("./install --lib", "" if done.returncode == 0 else done.stdout)
        if done.returncode == 0:
            tried(tally, Path(folder), Path(place))


if __name__ == "__main__":
    judge(main)
