"""Compares release/ with the program and the C library that were built, and the sources of both with the present ones.

    python3 tools/gate/release.py PROGRAM

The release is checked with the kit that made it; another kit may produce other bytes. A release of other sources fails, since
./dummynet wouldn't run it: `tools/release/release` makes it anew. `rt ci` builds no library. So the library is built here once for
its sources, where this clone keeps what was proved of the crates below it: without that it takes a quarter of an hour, and the
library's bytes aren't compared.
"""

import re
import shutil
import subprocess
from hashlib import sha256
from pathlib import Path
from tempfile import TemporaryDirectory

from tally import TOP, Tally, judge, said

from hinge.simulated.kernel import current_kernels
from link_library import SHARED, STATIC

RELEASE = TOP / "release"
LIBRARY = "hingetulip_c"
COMPILER = re.compile(rb"GCC: \([^)]*\) [\d.]+")
HOSTS = ["hinge-link", "hinge-packets", "hinge-clock.so"]
SUM = re.compile("[0-9a-f]{64}")


def are_kept(crates: list[str]) -> bool:
    """Returns whether rt keeps a built library of each crate."""
    return all((TOP / "crates" / crate / "out" / "rlib" / "stamp").is_file() for crate in crates)


def built_library(sum: str) -> Path | None:
    """The folder with the library that was built here from the sources of this checksum, and None where it wasn't."""
    folder = TOP / "built" / sum
    crates = said(TOP / "tools" / "release" / "program_sources", "--crates", LIBRARY).split()
    if not (folder / STATIC).is_file() and are_kept(crates[:-1]):
        subprocess.run([TOP / "build", "--lib"], check=True)
    return folder if (folder / STATIC).is_file() else None


def stripped(built: Path) -> bytes:
    """The program or the shared library without the names that only a debugger needs, as the release has it."""
    if built.name == STATIC:
        return built.read_bytes()
    with TemporaryDirectory() as folder:
        made = Path(folder) / built.name
        subprocess.run(["strip", "-o", made, built], check=True)
        return made.read_bytes()


def compare_library(tally: Tally, sum: str, anew: str) -> None:
    """Compares the libraries. The system's compiler links the shared one, so its bytes are compared only with the release's
    compiler."""
    folder = built_library(sum)
    if folder is None:
        print("the C library wasn't built here, so its bytes aren't compared; ./build --lib builds it")
        return
    for name in (STATIC, SHARED):
        built, released = stripped(folder / name), stripped(RELEASE / name)
        if name == SHARED and set(COMPILER.findall(built)) != set(COMPILER.findall(released)):
            print(f"{name} was linked by another compiler, so its bytes aren't compared")
        else:
            tally.note(f"bytes of {name}", "" if built == released else f"the release isn't what was built here; {anew}")


def kernel(tally: Tally) -> list[str]:
    """Returns the kernel's files in the list of checksums. tools/gate/simulated.py compares the kernel's bytes."""
    whole = [it for it in current_kernels(RELEASE / "kernels") if it.is_whole]
    there = sorted((RELEASE / "kernels").glob("*"))
    tally.equal("kernels of the present patch and first process", there, [it.folder for it in whole])
    for it in whole:
        tally.equal("the kernel's checksum", it.checksum, sha256(it.linux.read_bytes()).hexdigest())
        unnamed = set(SUM.findall((it.folder / "source").read_text())) - set(SUM.findall((TOP / "NOTICE").read_text()))
        tally.equal("what the kernel is built of, and NOTICE doesn't name", set(), unnamed)
    return [str(path.relative_to(RELEASE)) for it in whole for path in (it.linux, it.init)]


def main(tally: Tally, program: str) -> None:
    if not (RELEASE / "dummynet").is_file():
        tally.note("release", "there is none; tools/release/release makes it from what ./check or ./build has built")
        return
    sources = said(TOP / "tools" / "release" / "program_sources")
    names = ["dummynet", *(name for name in (STATIC, SHARED, *HOSTS) if (RELEASE / name).is_file()), *kernel(tally)]
    anew = "tools/release/release makes it anew from what ./check or ./build has built"
    tally.note(
        "sources", "" if (RELEASE / "sources").read_text() == sources else f"the release was built from other sources; {anew}"
    )
    sums = "".join(f"{sha256((RELEASE / name).read_bytes()).hexdigest()}  {name}\n" for name in names)
    tally.equal("checksums", sums, (RELEASE / "SHA256SUMS").read_text())
    library = said(TOP / "tools" / "release" / "program_sources", LIBRARY)
    is_same = (RELEASE / "library-sources").read_text() == library
    tally.note(
        "sources of the library",
        "" if is_same else f"the released library was built from other sources; {anew}, with ./build --lib before it",
    )
    if shutil.which("rt") is None:
        print("there is no rt on the path, so the release's bytes aren't compared")
        return
    kit = said("rt", "version").split()[0]
    if f"built by {kit}." not in (RELEASE / "README.md").read_text().replace("\n", " "):
        print(f"the release was built by another kit than {kit}, so its bytes aren't compared")
        return
    version = subprocess.run([program, "--version"], capture_output=True, text=True).stdout
    tally.note("version", "" if kit in version else f"{version.strip()} doesn't name {kit}: crates/dummynet/src/form.rt")
    same = stripped(RELEASE / "dummynet") == stripped(Path(program))
    tally.note("bytes", "" if same else f"the release isn't what was built here; {anew}")
    if is_same:
        compare_library(tally, library.strip(), f"{anew}, with ./build --lib before it")


if __name__ == "__main__":
    judge(main)
