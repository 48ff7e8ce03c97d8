"""Programs in simulated time: the released kernel, built anew, and the tests of `hinge run --simulated`.

    python3 tools/gate/simulated.py PROGRAM [TEST ..]

With tests below python/ no kernel is built. Otherwise, where the source package of Linux is, the kernel is built from it, in some 9 minutes of
processor time, once for its recipe: it is kept in what `rt ci` keeps between runs, or else in this user's cache. It is compared with the released one
where both are of the same source and compilers. The host in C is built anew from the present sources.
"""

import os
import shutil
import subprocess

import pytests
from tally import TOP, Tally, judge

from edits.kept import folder
from hinge.command import MISSING
from hinge.simulated.opened_files import sha256_of
from hinge.simulated.kernel import Kernel, cache, current_kernels


def keep_beside() -> None:
    """Makes a user without own kernels keep them beside the results of `rt ci`."""
    place = folder() / "kernels" if shutil.which("rt") else cache()
    if place != cache() and not cache().exists():
        place.mkdir(parents=True, exist_ok=True)
        cache().parent.mkdir(parents=True, exist_ok=True)
        cache().symlink_to(place)


def compare(tally: Tally, built: Kernel, released: Kernel) -> None:
    """Compares the kernel and its first process, byte by byte, for equal sources and compilers."""
    sources = [(kernel.folder / "source").read_text() for kernel in (built, released)]
    if sources[0] != sources[1]:
        print(f"the released kernel was built of another source, so its bytes aren't compared:\n{sources[0]}\n{sources[1]}")
        return
    for one, other in ((built.linux, released.linux), (built.init, released.init)):
        tally.equal(f"{one.name} of the release", sha256_of(one), sha256_of(other))


def build(tally: Tally) -> None:
    done = subprocess.run([TOP / "hinge", "kernel"], capture_output=True, text=True)
    if done.returncode == MISSING:
        print(f"the bytes of the released kernel: skipped: {done.stderr}", end="", flush=True)
        return
    print(done.stderr, end="", flush=True)
    tally.equal("hinge kernel", 0, done.returncode)
    kernels = [next(current_kernels(place), None) for place in (cache(), TOP / "release" / "kernels")]
    tally.note("a kernel of the present patch", "" if all(kernels) else "the release has none: tools/release/release puts it there")
    if all(kernels):
        compare(tally, *(kernel for kernel in kernels if kernel))


def main(tally: Tally, program: str, *tests: str) -> None:
    if not tests:
        keep_beside()
        build(tally)
    subprocess.run([TOP / "tools" / "release" / "hosts", tally.place], check=True, stdout=subprocess.DEVNULL)
    env = {**os.environ, "DUMMYNET": program, "HINGE_LINK": f"{tally.place}/hinge-link"}
    pytests.count(tally, [*tests] or ["tests/simulated"], env, is_alone=True)


if __name__ == "__main__":
    judge(main)
