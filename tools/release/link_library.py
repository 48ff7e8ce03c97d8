"""Makes the C library of the archive that rt has built of crates/hingetulip_c: libhingetulip.a and libhingetulip.so.1.

    python3 tools/release/link_library.py ARCHIVE FOLDER
    python3 tools/release/link_library.py --symbols < NAMES

The toolchain's small C file between its allocator and malloc goes into both, so that a program needs nothing beside them. The
shared one gives out the names of the headers alone. Each function has the version that introduced it: a program that needs a later
version than the library's is refused at its start. With --symbols it prints the names with their versions, in the form of Debian's
deb-symbols(5).
"""

import subprocess
import sys
from fnmatch import fnmatch
from pathlib import Path
from tempfile import TemporaryDirectory

STATIC, SHARED = "libhingetulip.a", "libhingetulip.so.1"
VERSIONS = {
    "HINGETULIP_1.0": (
        *("dn_version", "dn_open", "dn_open_with_key", "dn_close", "dn_configure", "dn_submit", "dn_submit_many"),
        *("dn_advance", "dn_collect", "dn_show", "dn_wake"),
    ),
    "HINGETULIP_1.1": ("dn_service_*", "dn_caller_*"),
    "HINGETULIP_1.2": ("dn_reserve", "dn_submit_text", "dn_advance_text", "dn_collect_text"),
    "HINGETULIP_1.3": ("dn_configure_text", "dn_read_packets", "dn_service_texts"),
    "HINGETULIP_1.4": ("dn_audit_*",),
    "HINGETULIP_2.0": ("dn_reason", "dn_read_history"),
}


def version_of(name: str) -> str:
    """Returns the version of a name. As in the linker, a literal name takes precedence over a matching pattern."""
    named = [version for version, names in VERSIONS.items() if name in names]
    return next(iter([*named, *(version for version, names in VERSIONS.items() if any(fnmatch(name, it) for it in names))]))


def symbols(names: list[str]) -> str:
    return "".join(f" {name}@{version_of(name)} {version_of(name).rpartition('_')[2]}\n" for name in names)


def kit_archive() -> Path:
    """Returns the toolchain's archive of C code for its crate `libc`."""
    page = subprocess.run(["rt", "doc"], capture_output=True, text=True, check=True).stdout.split()[-1]
    return Path(page).parent / "c" / "liblibc_c.a"


def run(*words: str | Path, text: str = "") -> None:
    done = subprocess.run(words, input=text, stdout=subprocess.PIPE, stderr=subprocess.STDOUT, text=True)
    if done.returncode:
        raise OSError(f"{' '.join(map(str, words))} failed: {done.stdout.strip()}")


def version_script() -> str:
    """Returns the script with the shared library's exported names by version, each version based on the one before."""
    text, before = "", ""
    for version, names in VERSIONS.items():
        hidden = "" if before else " local: *;"
        text += f"{version} {{ global: {' '.join(f'{name};' for name in names)}{hidden} }}{before};\n"
        before = f" {version}"
    return text


def link(archive: Path, folder: Path) -> None:
    """Puts the libraries into the folder, each whole from its first moment."""
    folder.mkdir(parents=True, exist_ok=True)
    with TemporaryDirectory(dir=folder) as place:
        static, shared, names = (Path(place) / name for name in (STATIC, SHARED, "names"))
        run("ar", "-M", text=f"create {static}\naddlib {archive}\naddlib {kit_archive()}\nsave\nend\n")
        names.write_text(version_script())
        named = [f"-Wl,-soname,{SHARED}", f"-Wl,--version-script,{names}"]
        whole = ["-Wl,--whole-archive", static, "-Wl,--no-whole-archive"]
        run("cc", "-shared", "-o", shared, *named, "-Wl,-z,defs", "-Wl,-z,relro,-z,now", "-Wl,--gc-sections", *whole)
        static.replace(folder / STATIC)
        shared.replace(folder / SHARED)


if __name__ == "__main__":
    if sys.argv[1:] == ["--symbols"]:
        print(symbols(sys.stdin.read().split()), end="")
    else:
        link(Path(sys.argv[1]).resolve(), Path(sys.argv[2]).resolve())
