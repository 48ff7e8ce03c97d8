"""The source archive of a commit: all tracked files and a checksum, and the same bytes whatever a user's git is set to.

    python3 tools/gate/archive.py
"""

import os
import re
import tarfile
from pathlib import Path

from tally import TOP, Ran, Tally, judge, ran

SCRIPT = TOP / "tools" / "release" / "source_archive.py"
LEFTOVER = re.compile(r".*(?:\.orig|\.rej|\.pyc|\.sw[op]|~)")  # what a merge, an interpreter or an editor leaves
SETTINGS = {"tar.umask": "0077", "core.autocrlf": "true", "tar.tar.gz.command": "cat"}
OF_A_USER = {
    "TZ": "Pacific/Auckland",
    "GIT_CONFIG_COUNT": str(len(SETTINGS)),
    **{f"GIT_CONFIG_KEY_{place}": name for place, name in enumerate(SETTINGS)},
    **{f"GIT_CONFIG_VALUE_{place}": value for place, value in enumerate(SETTINGS.values())},
}


def run(*words: object, **variables: str) -> Ran:
    return ran(*words, cwd=TOP, env={**os.environ, **variables})


def main(tally: Tally) -> None:
    first, again = tally.place / "first", tally.place / "again"
    settings: dict[Path, dict[str, str]] = {first: {}, again: OF_A_USER}
    for place, variables in settings.items():
        done = run(SCRIPT, "HEAD", place, **variables)
        tally.equal(f"the archive in {place.name}", 0, done.returncode)
    [archive] = first.glob("*.tar.gz")
    is_same = archive.read_bytes() == (again / archive.name).read_bytes()
    tally.note("the archive made again", "" if is_same else "other bytes")
    checked = run("sh", "-c", f"cd '{first}' && sha256sum -c SHA256SUMS").stdout
    tally.equal("its checksum", f"{archive.name}: OK\n", checked)
    with tarfile.open(archive) as tar:
        names = sorted(it.name.partition("/")[2] for it in tar if not it.isdir())
    listed = run("git", "-c", "core.quotePath=false", "ls-tree", "-r", "--name-only", "HEAD").stdout.splitlines()
    tally.equal("its files", sorted(listed), names)
    tally.equal("leftovers among them", [], [name for name in listed if LEFTOVER.fullmatch(name)])
    refused = run(SCRIPT, "9.9.9", first)
    advice = "9.9.9: no such version or revision: CHANGELOG.md lists the versions\n"
    tally.ends("a version that isn't", refused, 1, advice)


if __name__ == "__main__":
    judge(main)
