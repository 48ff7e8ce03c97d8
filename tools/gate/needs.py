"""Says which of the packages that the gate wants are missing here: tools/gate/packages has the list.

    python3 tools/gate/needs.py [--missing]

A package is installed if its command is on the path, or if Debian's list contains it. The last line is the command that installs
the others. With --missing their names alone are printed.
"""

import os
import re
import shutil
import subprocess
import sys
from pathlib import Path
from typing import NamedTuple

LIST = Path(__file__).resolve().with_name("packages")
LINE = re.compile(r"(\S+)(?: (\S+))?: (.+)")
PATH = f"{os.environ.get('PATH', '')}:/usr/sbin:/sbin"


class Package(NamedTuple):
    """A package, its command if any, and its users."""

    name: str
    command: str
    wanted_by: str


def packages() -> list[Package]:
    return [Package(*found.groups("")) for line in LIST.read_text().splitlines() if (found := LINE.fullmatch(line))]


def installed() -> set[str]:
    """The names of Debian's packages that are installed here."""
    if shutil.which("dpkg-query") is None:
        return set()
    words = ["dpkg-query", "--show", "--showformat=${Package} ${db:Status-Status}\n"]
    told = subprocess.run(words, stdout=subprocess.PIPE, text=True, check=True).stdout
    return set(re.findall(r"^(\S+) installed$", told, re.M))


def main(words: list[str]) -> int:
    own = installed()
    all = {one: one.name in own or bool(one.command and shutil.which(one.command, path=PATH)) for one in packages()}
    missing = [one.name for one, is_there in all.items() if not is_there]
    if words != ["--missing"]:
        for one, is_there in all.items():
            print(f"{'there' if is_there else 'missing':8} {one.name:24} {one.wanted_by}")
    if missing:
        print(" ".join([*(["apt-get install --no-install-recommends"] if words != ["--missing"] else []), *missing]))
    return 0


if __name__ == "__main__":
    sys.exit(main(sys.argv[1:]))
