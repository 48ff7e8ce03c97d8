"""The command `hinge doctor`, which prints the kit's abilities on this machine, reasons for missing abilities, and packages to
install."""

from __future__ import annotations

import os
import shutil
import sys
from functools import lru_cache
from typing import Callable, NamedTuple, Optional

from hinge.border.files import read_system
from hinge.border.programs import TimeoutExpired, asked
from hinge.border.terminal import show
from hinge.command import Fault, module, new_parser
from hinge.program import HINGE, dummynet
from hinge.run.processes import SIGNALLED
from hinge.simulated.build import missing_packages, source
from hinge.simulated.kernel import usable_kernel as kernel

WHAT = """\
Tries what the commands of hinge need here: links in real time, the way to the rest of the network, simulated time, tables
and pictures, and a priority for the links. Each line says whether something works and, if it doesn't, why. The last lines
install what is missing. The exit status is 0 if links in real time work, and else 7."""
LIMIT = 20  # s that a trial may take


class Finding(NamedTuple):
    """Describes why something doesn't work, and Debian's packages that would help; the reason is empty if it works."""

    why: str = ""
    packages: tuple[str, ...] = ()


def last_line(text: str) -> str:
    """Returns the last line of a program's messages."""
    return (text.strip().splitlines() or ["it ended without a word"])[-1]


@lru_cache(maxsize=None)
def of_run(*options: str) -> Finding:
    """Runs `true` over a link with these options for `hinge run`; returns the finding."""
    words = [*HINGE, "run", "--quiet", *options, "--", "true"]
    try:
        answer = asked(words, statuses=range(SIGNALLED), limit=LIMIT)
    except TimeoutExpired:
        return Finding(f"it hasn't ended after {LIMIT} s")
    except Fault as fault:
        return Finding(str(fault))
    if answer.status == 0:
        return Finding()
    return Finding(last_line(answer.told).removeprefix("hinge run: "))


def programs() -> Finding:
    """Returns whether dummynet runs."""
    try:
        asked([dummynet(), "--version"], limit=LIMIT)
    except (Fault, OSError, TimeoutExpired) as fault:
        return Finding(str(fault))
    return Finding()


def first_words() -> Finding:
    """Finds missing programs and files that the first samples in the documentation need; returns them with the Debian packages
    to install."""
    packages = {"ping": "iputils-ping", "git": "git", "redis-server": "redis-server"}
    missing = {name: package for name, package in packages.items() if shutil.which(name) is None}
    names = [*missing]
    if not os.path.exists("/etc/hosts"):
        names.append("/etc/hosts (touch it)")
    if not names:
        return Finding()
    return Finding(f"there is no {' and no '.join(names)}", tuple(missing.values()))


def has_outside() -> bool:
    """Returns whether a program is there that connects a host with the rest of the network."""
    return any(map(shutil.which, ("slirp4netns", "pasta")))


def links() -> Finding:
    """Returns whether links in real time work. A run with --outside uses links, too, so no second run is needed if it works."""
    if has_outside() and not of_run("--outside").why:
        return Finding()
    return of_run()


def outside() -> Finding:
    """Returns whether hosts can reach the rest of the network."""
    if not has_outside():
        return Finding("there is neither slirp4netns nor pasta", ("slirp4netns",))
    return of_run("--outside")


def simulated() -> Finding:
    """Returns whether runs in simulated time work."""
    try:
        kernel()
    except Fault as missing:
        return Finding(str(missing), tuple(missing_packages(source()).values()))
    return of_run("--simulated")


def modules(**packages: str) -> Finding:
    """Returns whether all these Python modules load; each argument is a module's name and Debian's package."""
    missing = {name: package for name, package in packages.items() if not is_loaded(name, package)}
    if not missing:
        return Finding()
    return Finding(f"Python lacks {', '.join(missing)}", tuple(missing.values()))


def is_loaded(name: str, package: str) -> bool:
    """Returns whether a module loads. A search for the module's file isn't enough, since the module may be broken."""
    try:
        return bool(module(name, package))
    except Fault:
        return False


def realtime() -> Finding:
    """Returns whether this process can get real-time priority."""
    try:
        os.sched_setscheduler(0, os.SCHED_FIFO, os.sched_param(1))
        os.sched_setscheduler(0, os.SCHED_OTHER, os.sched_param(0))
    except OSError:
        return Finding("the system keeps users from it: run as root, or after `ulimit -r 10`")
    return Finding()


def users() -> Finding:
    """Returns whether hosts can have separate users, which servers need that give up root."""
    if os.geteuid() == 0:
        return Finding()
    if shutil.which("newuidmap") is None:
        return Finding("there is no newuidmap", ("uidmap",))
    name = os.environ.get("USER", "")
    try:
        lines = read_system("/etc/subuid").splitlines()
    except OSError:
        lines = []
    has_ids = any(line.startswith((f"{name}:", f"{os.getuid()}:")) for line in lines)
    if has_ids:
        return Finding()
    return Finding(f"/etc/subuid has no line of {name or os.getuid()}")


TRIALS: dict[str, Callable[[], Finding]] = {
    "dummynet": programs,
    "hinge run, net: links in real time": links,
    "the samples of the pages": first_words,
    "--outside: the rest of the network": outside,
    "--simulated: simulated time": simulated,
    "pictures (.png, .svg, .pdf)": lambda: modules(numpy="python3-numpy", matplotlib="python3-matplotlib"),
    "pages (.html)": lambda: modules(numpy="python3-numpy"),
    "the plugin of pytest": lambda: modules(pytest="python3-pytest"),
    "--realtime: links before other programs": realtime,
    "hosts with users of their own": users,
}


def line_of(what: str, finding: Finding) -> str:
    """Returns the line that reports on a trial."""
    return f"no   {what}: {finding.why}" if finding.why else f"yes  {what}"


def install(packages: list[str]) -> Optional[str]:
    """Returns the line that installs missing packages, or None if Debian lacks them. A virtual environment doesn't see Debian's
    modules."""
    names = [*dict.fromkeys(packages)]
    own = [name for name in names if name.startswith("python3-") and sys.prefix != sys.base_prefix]
    rest = [name for name in names if name not in own]
    lines = [f"sudo apt-get install {' '.join(rest)}"] if rest else []
    if own:
        lines.append(f"{sys.executable} -m pip install {' '.join(name.partition('-')[2] for name in own)}")
    return "\n  ".join(lines) or None


def main() -> None:
    new_parser(WHAT, "hinge doctor", "0 links in real time work, 7 they don't").parse_args()
    packages = list[str]()
    works = True
    for what, trial in TRIALS.items():
        finding = trial()
        show(line_of(what, finding))
        sys.stdout.flush()
        packages += finding.packages
        if finding.why and what.startswith("hinge run"):
            works = False
    line = install(packages)
    if line is not None:
        show(f"\nOn Debian this installs what is missing:\n  {line}")
    sys.stdout.flush()
    sys.exit(0 if works else 7)
