"""The version: whether all that tells one tells that of the file VERSION.

    python3 tools/gate/version.py PROGRAM

These are the program, the header of the C library, the crate for cargo, `hinge`, CITATION.cff, and the newest release in CHANGELOG.md. installs.py
looks at what ./install puts.
"""

import re
import sys
from pathlib import Path

from tally import TOP, Tally, judge, ran

VERSION = (TOP / "VERSION").read_text().strip()


def found(path: Path, pattern: str) -> str:
    """Returns the first text of a file that a pattern's group matches."""
    match = re.search(pattern, path.read_text(), re.M) if path.is_file() else None
    return match[1] if match else f"none in {path}"


def spelled(number: int) -> str:
    """A version as the C library counts it: major * 1000000 + minor * 1000 + patch."""
    return f"{number // 1_000_000}.{number // 1_000 % 1_000}.{number % 1_000}"


def main(tally: Tally, program: str) -> None:
    tally.note("the form of VERSION", "" if re.fullmatch(r"\d+\.\d+\.\d+", VERSION) else VERSION)
    told = ran(program, "--version").stdout
    tally.equal("the program (crates/dummynet/src/form.rt)", ["dummynet", VERSION], told.split()[:2])
    header = found(TOP / "crates" / "hingetulip_c" / "include" / "hingetulip.h", r"^#define DN_VERSION (\d+)u$")
    tally.equal("hingetulip.h", VERSION, spelled(int(header)) if header.isdigit() else header)
    for crate in ("hingetulip", "hingetulip-tokio"):
        tally.equal(f"the crate {crate}", VERSION, found(TOP / "rust" / crate / "Cargo.toml", r'^version = "(.*)"$'))
    tally.equal("CHANGELOG.md", VERSION, found(TOP / "CHANGELOG.md", r"^## \[(\d.*?)\]"))
    tally.equal("CITATION.cff", VERSION, found(TOP / "CITATION.cff", r"^version: (.*)$"))
    told = ran(sys.executable, TOP / "hinge", "--version").stdout
    tally.equal("hinge", f"hinge {VERSION}\n", told)


if __name__ == "__main__":
    judge(main)
