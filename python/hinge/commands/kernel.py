"""The command `hinge kernel`, which builds the kernel for simulated time from Linux sources."""

from __future__ import annotations

import argparse
import os
import time
from pathlib import Path
from typing import Optional

from hinge.arguments import bounded
from hinge.border.terminal import show
from hinge.command import new_parser, say
from hinge.command_line import add
from hinge.program import clock
from hinge.simulated import build, trial
from hinge.simulated.kernel import cache, current_kernels, usable_kernel

WHAT = """\
Builds a kernel in which `hinge run --simulated` runs programs, in place of the
released one, and prints where it is: User-Mode Linux, with a configuration and
a patch of this project. It is built of a source package of the system, as
Debian's linux-source-6.12, and kept below ~/.cache/hingetulip, or
XDG_CACHE_HOME. HINGE_KERNEL can name the folder of another one.

With --clock it prints where hinge-clock.so is. While hingetulip.aio runs
simulated time in a thread, C code of that thread which asks for the time has
the simulated one if that library is preloaded: time(), gettimeofday() and
clock_gettime(). OpenSSL, for one, asks so when DTLS has to repeat what was
lost."""
EXAMPLE = """\
hinge kernel --path
  sudo apt-get install linux-source-6.12 gcc make flex bison bc && hinge kernel
  LD_PRELOAD=$(hinge kernel --clock) pytest tests"""


def command_line() -> argparse.Namespace:
    parser = new_parser(WHAT, EXAMPLE, "0 done, 2 command line, 6 there is none, or it can't be built, 7 the clock isn't there")
    parser.add_argument("--source", metavar="FILE", type=Path, help="a packed source of Linux (the newest of /usr/src)")
    add(parser, "-j N", "compilers at a time (default: processors)", type=bounded(1, 1024), default=len(os.sched_getaffinity(0)))
    parser.add_argument("--again", action="store_true", help="also where it is built already")
    parser.add_argument("--path", action="store_true", help="print where the kernel is, and build nothing")
    add(parser, "--clock", "print where the library is that gives C code the simulated clock, to be preloaded", action="store_true")
    for option in ("--path", "--clock"):
        parser.yields("--source -j --again", option)
    parser.yields("--path", "--clock")
    return parser.parse_args()


def built_kernel(source: Optional[Path], compilers: int) -> Path:
    """Builds the kernel from the packed source, by default the system's newest, and tests it; returns the kernel's folder."""
    start = time.monotonic()
    steps = build.Build(source or build.source(), compilers).run()
    sleep = trial.try_hour(next(steps))
    began = time.monotonic()
    kernel = next(steps)
    say(f"built in {began - start:.0f} s; it slept for {sleep:.3f} s of simulated time")
    return kernel.folder


def main() -> None:
    arguments = command_line()
    is_new = arguments.again or arguments.source
    kernels = [] if is_new else list(current_kernels(cache()))
    if arguments.clock:
        show(clock())
    elif arguments.path:
        show(str(usable_kernel().folder))
    elif kernels:
        kernel = kernels[0]
        if not kernel.is_whole:
            build.add_init(kernel)
        say("it is built already; --again builds it anew")
        show(str(kernel.folder))
    else:
        show(str(built_kernel(arguments.source, arguments.j)))
