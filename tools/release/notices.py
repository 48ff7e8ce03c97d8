"""The licences for the crates whose code the program and the C library contain, written into NOTICE after its text.

    python3 tools/release/notices.py [--check]

With --check nothing is written, and the last line says whether NOTICE has those of crates.txt. The crates are those that crates.txt names for
`dummynet` and `hingetulip_c`, and those that these use, as the toolchain has them: `rt doc` tells where.
"""

import re
import subprocess
import sys
import textwrap
from pathlib import Path

TOP = Path(__file__).resolve().parents[2]
NOTICE = TOP / "release" / "NOTICE"
SHIPPED = ("dummynet", "hingetulip_c")
BEGIN = "The program and the C library have code of these crates, as Rattle's toolchain has them"
LICENCES = ("LICENSE-MIT", "LICENSE", "LICENSE-APACHE")  # of several, the first that is there


def own_crates() -> dict[str, list[str]]:
    """Returns the repository's crates with their dependencies."""
    lines = (line.partition("#")[0].partition(":") for line in (TOP / "crates.txt").read_text().splitlines())
    return {name.split()[0]: uses.split() for name, _, uses in lines if name.split()}


def toolchain() -> Path:
    """Returns the folder of the toolchain's crates."""
    page = subprocess.run(["rt", "doc"], capture_output=True, text=True, check=True).stdout.split()[0]
    return Path(page).parent / "rattle"


def used_by(folder: Path, name: str) -> set[str]:
    """Returns the toolchain's crates that one of them uses outside its tests."""
    source = folder / name / "src"
    files = [path for path in source.rglob("*.rt") if "tests" not in path.name]
    modules = {path.stem for path in files} | {path.name for path in source.rglob("*") if path.is_dir()} | {name}
    named = {word for path in files for word in re.findall(r"\b([a-z_]\w*)::", path.read_text(encoding="utf-8"))}
    return {word for word in named - modules if (folder / word / "src").is_dir()}


def shipped(folder: Path) -> list[str]:
    """Returns the toolchain's crates in the released files."""
    own, found, left = own_crates(), set[str](), list(SHIPPED)
    while left:
        name = left.pop()
        if name not in found:
            found.add(name)
            left += own[name] if name in own else used_by(folder, name)
    return sorted(found - set(own))


def version_of(folder: Path, name: str) -> str:
    """Returns the version of the ported crate from its page."""
    page = folder / name / "README.md"
    told = re.search(rf"`{name}` (\d+\.\d+\.\d+)", page.read_text(encoding="utf-8")) if page.is_file() else None
    return f" {told[1]}" if told else ""


def text() -> str:
    """Returns the part of NOTICE after its own text."""
    folder = toolchain()
    crates = shipped(folder)
    files = {name: next((folder / name / file for file in LICENCES if (folder / name / file).is_file()), None) for name in crates}
    by_text: dict[str, list[str]] = {}
    for name, file in files.items():
        if file is not None:
            by_text.setdefault(file.read_text(encoding="utf-8").strip(), []).append(f"{name}{version_of(folder, name)}")
    without = [name for name, file in files.items() if file is None]
    head = (
        f"{BEGIN}. Their licences follow. {', '.join(without)} are of the toolchain itself, and come without a text of their own."
    )
    parts = ["\n".join(textwrap.wrap(head, 115)), *(f"---- {', '.join(names)}\n\n{body}" for body, names in by_text.items())]
    return "\n\n".join(parts) + "\n"


def main() -> int:
    before, begin, _ = NOTICE.read_text(encoding="utf-8").partition(BEGIN)
    wanted = f"{before.rstrip()}\n\n{text()}"
    if sys.argv[1:] == ["--check"]:
        same = NOTICE.read_text(encoding="utf-8") == wanted
        count = len(shipped(toolchain()))
        print(
            f"{count} passed, 0 failed"
            if same
            else "NOTICE isn't of these crates: tools/release/notices.py writes it\n0 passed, 1 failed"
        )
        return 0 if same else 1
    NOTICE.write_text(wanted, encoding="utf-8")
    return 0


if __name__ == "__main__":
    sys.exit(main())
