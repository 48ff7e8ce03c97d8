#!/usr/bin/env python3
"""Makes the source archive of a version, or of any commit, with its checksum: the same bytes each time.

    tools/release/source_archive.py VERSION|REVISION FOLDER

FOLDER gets hingetulip-VERSION.tar.gz and a line in SHA256SUMS. A version is the tag vVERSION, or else the last commit
that changed VERSION, CHANGELOG or release/ while VERSION named it and CHANGELOG listed nothing as unreleased. For
another commit the archive's name ends in the commit's.
"""

import re
import subprocess
import sys
import zlib
from hashlib import sha256
from pathlib import Path
from typing import Optional

TOP = Path(__file__).resolve().parents[2]
# Whatever a user's own configuration of git says, which could change the bytes.
GIT = ["git", "-c", "tar.umask=0022", "-c", "core.autocrlf=false", "-c", "core.eol=lf"]
VERSION = re.compile(r"\d+\.\d+\.\d+")
UNRELEASED = re.compile(r"^## \[Unreleased\]\n(.*?)(?=^## \[)", re.M | re.S)


def git(*words: str) -> bytes:
    return subprocess.run([*GIT, *words], cwd=TOP, stdout=subprocess.PIPE, stderr=subprocess.DEVNULL, check=True).stdout


def text_at(commit: str, name: str) -> str:
    """Returns a file at a commit, or an empty text."""
    try:
        return git("show", f"{commit}:{name}").decode()
    except subprocess.CalledProcessError:
        return ""


def commit_named(word: str) -> Optional[str]:
    try:
        return git("rev-parse", "--verify", f"{word}^{{commit}}").decode().strip()
    except subprocess.CalledProcessError:
        return None


def is_released(commit: str, version: str) -> bool:
    if text_at(commit, "VERSION").strip() != version:
        return False
    changes = text_at(commit, "CHANGELOG.md")
    unreleased = UNRELEASED.search(changes)
    return f"## [{version}]" in changes and not (unreleased and unreleased[1].strip())


def released(version: str) -> Optional[str]:
    """Returns the commit that completed a version: the last that changed its number, its changes or its binaries."""
    commits = git("rev-list", "--first-parent", "HEAD", "--", "VERSION", "CHANGELOG.md", "release").decode().split()
    return next((commit for commit in commits if is_released(commit, version)), None)


def compressed(data: bytes) -> bytes:
    """In the form of gzip, whose head zlib writes without a time. Python's own head differs from version to version."""
    stream = zlib.compressobj(9, zlib.DEFLATED, 31)
    return stream.compress(data) + stream.flush()


def main(words: list[str]) -> int:
    if len(words) != 2:
        sys.exit(__doc__)
    word, folder = words[0], Path(words[1])
    version = word.removeprefix("v")
    commit = commit_named(f"v{version}") or released(version) if VERSION.fullmatch(version) else commit_named(word)
    if commit is None:
        sys.exit(f"{word}: no such version or revision: CHANGELOG.md lists the versions")
    of_commit = "" if VERSION.fullmatch(version) else f"-{commit[:12]}"
    name = f"hingetulip-{text_at(commit, 'VERSION').strip()}{of_commit}"
    data = compressed(git("archive", "--format=tar", f"--prefix={name}/", commit))
    folder.mkdir(parents=True, exist_ok=True)
    (folder / f"{name}.tar.gz").write_bytes(data)
    (folder / "SHA256SUMS").write_text(sums(folder, f"{name}.tar.gz", sha256(data).hexdigest()))
    print(f"{folder / name}.tar.gz: commit {commit}")
    return 0


def sums(folder: Path, name: str, sum: str) -> str:
    """Returns the list of checksums, a line for each archive in the folder."""
    path = folder / "SHA256SUMS"
    others = [line for line in path.read_text().splitlines() if not line.endswith(f"  {name}")] if path.exists() else []
    return "".join(f"{line}\n" for line in sorted([*others, f"{sum}  {name}"], key=lambda line: line[66:]))


if __name__ == "__main__":
    sys.exit(main(sys.argv[1:]))
