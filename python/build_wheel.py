"""Builds the wheel, from release/ and without a compiler: a backend of PEP 517 that needs nothing but Python.

The wheel is the same, byte by byte, wherever and whenever it is built: its files come in order, stored, with one date.
It is refused where release/ was built from other sources than those that are here.
"""

from __future__ import annotations

import base64
import hashlib
import os
import subprocess
import sys
import time
import zipfile
from pathlib import Path
from typing import Iterator, NamedTuple, Optional

HERE = Path(__file__).resolve().parent


def clone() -> Path:
    """The clone: the folder above this one, or the one in which pip was called, since pip before 21.3 builds from a
    copy of this folder alone."""
    called = Path(os.environ.get("PWD", "/"))
    for folder in (HERE.parent, called, called.parent):
        if (folder / "VERSION").is_file() and (folder / "python" / "build_wheel.py").is_file():
            return folder
    raise SystemExit(
        "this folder isn't in its clone, since pip before 21.3 copies it: in the clone's folder do pip "
        "install ./python, or pip install --upgrade pip"
    )


TOP = clone()
RELEASE = TOP / "release"
NAME = "hingetulip"
VERSION = (TOP / "VERSION").read_text(encoding="ascii").strip()
BASE = f"{NAME}-{VERSION}"
PACKAGES = ("hingetulip", "hingetulip_words", "hinge")
TAG = "py3-none-manylinux_2_34_x86_64"
LIBRARY = "libhingetulip.so.1"
# Built from C, where the release has them.
HOSTS = {"hinge-link": "hinge/run/hinge-link", "hinge-packets": "hinge/hinge-packets", "hinge-clock.so": "hinge/hinge-clock.so"}
FIRST_DATE = 315532800  # 1980-01-01, the first that a zip file can have
METADATA = f"""\
Metadata-Version: 2.1
Name: {NAME}
Version: {VERSION}
Summary: The link emulator dummynet, as ipfw(8) configures it: a library, the program, and the kit round them
License: BSD-2-Clause
Requires-Python: >=3.9
Classifier: Operating System :: POSIX :: Linux
Classifier: Programming Language :: Python :: 3
Classifier: Typing :: Typed
Classifier: Framework :: Pytest
Description-Content-Type: text/markdown
Provides-Extra: capture
Requires-Dist: numpy>=1.21 ; extra == "capture"
Requires-Dist: matplotlib>=3.3 ; extra == "capture"
"""
ENTRY_POINTS = """\
[console_scripts]
hinge = hinge.__main__:main

[pytest11]
hingetulip = hinge.pytest_plugin
"""
WHEEL = f"Wheel-Version: 1.0\nGenerator: {NAME}\nRoot-Is-Purelib: false\nTag: {TAG}\n"


class File(NamedTuple):
    """A file of the wheel."""

    name: str
    data: bytes
    mode: int = 0o644


def released(name: str, sources: str, crate: str) -> Path:
    """A file of the release, if it was built from the present sources."""
    present = subprocess.run(
        [TOP / "tools" / "release" / "program_sources", crate], capture_output=True, text=True, check=True
    ).stdout
    noted = RELEASE / sources
    if not noted.is_file() or noted.read_text() != present:
        raise SystemExit(f"release/{name} isn't of these sources: tools/release/release makes it anew")
    return RELEASE / name


def library() -> Path:
    return released(LIBRARY, "library-sources", "hingetulip_c")


def manual(name: str) -> bytes:
    """A manual page, with the version in its last line."""
    return (TOP / "docs" / name).read_text(encoding="utf-8").replace("\n.Os\n", f"\n.Os Hingetulip {VERSION}\n", 1).encode()


def packages() -> Iterator[File]:
    """The modules, with the library and the version, which is what an installation needs beside the clone's files."""
    for package in PACKAGES:
        for path in sorted((HERE / package).rglob("*")):
            if path.is_file() and "__pycache__" not in path.parts and not path.name.startswith("libhingetulip."):
                yield File(str(path.relative_to(HERE)), path.read_bytes())
    yield File(f"hingetulip/{LIBRARY}", library().read_bytes(), 0o755)
    yield File("hinge/VERSION", f"{VERSION}\n".encode())
    for name, place in HOSTS.items():
        if (RELEASE / name).is_file():
            yield File(place, (RELEASE / name).read_bytes(), 0o755)
    for path in sorted(RELEASE.glob("kernels/*/*")):
        mode = 0o755 if os.access(path, os.X_OK) else 0o644
        yield File(f"hinge/simulated/{path.relative_to(RELEASE)}", path.read_bytes(), mode)


def links_to_clone() -> Iterator[File]:
    """For an editable installation: the clone's folder on the path, and its library."""
    names_it = f"import os; os.environ.setdefault('HINGETULIP_LIBRARY', {str(library())!r})"
    yield File(f"{NAME}.pth", f"{HERE}\n{names_it}\n".encode())


def beside() -> Iterator[File]:
    """The program, the pages, the manual pages and the completion."""
    yield File(f"{BASE}.data/scripts/dummynet", released("dummynet", "sources", "dummynet").read_bytes(), 0o755)
    share = f"{BASE}.data/data/share"
    for page in ("README.md", "CHANGELOG.md", *sorted(str(path.relative_to(TOP)) for path in TOP.glob("docs/*.md"))):
        yield File(f"{share}/doc/{NAME}/{page}", (TOP / page).read_bytes())
    for shell, place in (("zsh", "zsh/site-functions/_hinge"), ("fish", "fish/vendor_completions.d/hinge.fish")):
        yield File(f"{share}/{place}", (TOP / "tools" / "release" / f"hinge-completion.{shell}").read_bytes())
    for name in ("dummynet", "hinge"):
        yield File(f"{share}/man/man1/{name}.1", manual(f"{name}.1"))
        yield File(
            f"{share}/bash-completion/completions/{name}", (TOP / "tools" / "release" / f"{name}-completion.bash").read_bytes()
        )


def information() -> Iterator[File]:
    """The metadata that pip reads in a wheel."""
    page = (HERE / "README.md").read_text(encoding="utf-8")
    for name, data in (
        ("LICENSE", (TOP / "LICENSE").read_bytes()),
        ("NOTICE", (TOP / "NOTICE").read_bytes()),
        ("METADATA", f"{METADATA}\n{page}".encode()),
        ("WHEEL", WHEEL.encode()),
        ("entry_points.txt", ENTRY_POINTS.encode()),
    ):
        yield File(f"{BASE}.dist-info/{name}", data)


def recorded(file: File) -> str:
    """The line of RECORD about a file."""
    digest = base64.urlsafe_b64encode(hashlib.sha256(file.data).digest()).rstrip(b"=").decode()
    return f"{file.name},sha256={digest},{len(file.data)}\n"


def write(path: Path, files: list[File]) -> None:
    date = time.gmtime(max(int(os.environ.get("SOURCE_DATE_EPOCH", FIRST_DATE)), FIRST_DATE))[:6]
    with zipfile.ZipFile(path, "w", zipfile.ZIP_STORED) as wheel:
        for file in files:
            entry = zipfile.ZipInfo(file.name, date)
            entry.external_attr, entry.create_system = (0o100000 | file.mode) << 16, 3
            wheel.writestr(entry, file.data)


def built(folder: str, editable: bool = False) -> str:
    """Writes the wheel into the folder, and returns its name."""
    files = [*(links_to_clone() if editable else packages()), *beside(), *information()]
    record = f"{BASE}.dist-info/RECORD"
    lines = "".join(map(recorded, files)) + f"{record},,\n"
    name = f"{BASE}-{TAG}.whl"
    write(Path(folder) / name, [*files, File(record, lines.encode())])
    return name


def write_information(folder: str) -> str:
    """What pip and pytest read of an installation that ./install makes, and the name of the folder where they look for
    it."""
    (Path(folder) / "METADATA").write_text(METADATA)
    (Path(folder) / "entry_points.txt").write_text(ENTRY_POINTS)
    return f"{BASE}.dist-info"


def build_wheel(
    wheel_directory: str, config_settings: Optional[dict[str, str]] = None, metadata_directory: Optional[str] = None
) -> str:
    return built(wheel_directory)


def build_editable(
    wheel_directory: str, config_settings: Optional[dict[str, str]] = None, metadata_directory: Optional[str] = None
) -> str:
    return built(wheel_directory, editable=True)


def build_sdist(sdist_directory: str, config_settings: Optional[dict[str, str]] = None) -> str:
    raise SystemExit("there is no source distribution: the sources are proved and built by rt, not by pip")


if __name__ == "__main__":
    print(write_information(sys.argv[1]))
