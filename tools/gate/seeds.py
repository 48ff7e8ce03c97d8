"""The seed of a random part of the gate follows from the sources that the part tries: the same sources are tried in the same way.

    python3 tools/gate/seeds.py PATTERN..

prints the seed of the files that match, from the top of the repository. `fresh` in the place of a seed draws one.
"""

import secrets
import subprocess
import sys
from hashlib import sha256
from pathlib import Path
from typing import Optional

TOP = Path(__file__).resolve().parents[2]
PROGRAMS = ("dummynet", "hingetulip_c")
KIT = tuple(f"python/{package}/**/*.py" for package in ("hinge", "hingetulip", "hingetulip_words"))
HOSTS, LAWS = ("hosts/*/*.[ch]",), ("crates/*/specs/*", "tools/laws/*.py")
GATE = ("tools/gate/*", *KIT, *HOSTS, "docs/*.md")
FRESH = "fresh"
BITS = 32


def number_of(data: bytes) -> int:
    """libFuzzer takes 0 for no seed."""
    return int(sha256(data).hexdigest()[: BITS // 4], 16) or 1


def of_files(*patterns: str) -> int:
    files = sorted({path for pattern in patterns for path in TOP.glob(pattern) if path.is_file()})
    return number_of(
        b"".join(b"%s %s\n" % (str(path.relative_to(TOP)).encode(), sha256(path.read_bytes()).digest()) for path in files)
    )


def of_programs() -> int:
    """Returns the seed from the checksums of the lines of code."""
    script = TOP / "tools" / "release" / "program_sources"
    return number_of(b"".join(subprocess.run([script, name], stdout=subprocess.PIPE, check=True).stdout for name in PROGRAMS))


def fresh() -> int:
    return secrets.randbelow(2**BITS - 1) + 1


def chosen(word: Optional[str], *patterns: str) -> int:
    """Returns the seed: an option's, a fresh one, or that of the files."""
    return of_files(*patterns) if word is None else fresh() if word == FRESH else int(word)


if __name__ == "__main__":
    print(of_files(*sys.argv[1:]))
