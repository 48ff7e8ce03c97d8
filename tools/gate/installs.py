"""What a team installs, tried where it is installed: the wheel by pip, a prefix by ./install, CMake and pkg-config, and Debian's packages.

    python3 tools/gate/installs.py PROGRAM

All of it is made from a copy of the repository whose release/ has this program and the C library of the present sources. The commands that
the pages show are run from the installed place, in a folder that has the examples and captures, and the clone's files stay as they are.
What needs numpy, cmake, pkg-config, dpkg-deb or lintian is skipped, and told, where they aren't there.
"""

import ctypes
import itertools
import os
import re
import shlex
import shutil
import sys
from hashlib import sha256
from pathlib import Path
from typing import Iterator, Optional

from tally import TOP, Ran, Tally, judge, lacks, ran
from version import found, spelled

VERSION = (TOP / "VERSION").read_text().strip()
LEAST = {"docs/CAPTURE.md": 20, "docs/FILES.md": 1, "README.md": 1, "examples/README.md": 1}  # commands of a page
RUN = ("hinge", "dummynet", "echo", "printf")
NEEDS_MORE = ("hinge udp", "hinge run", "hinge net")  # another program, or rights: tools/gate/hosts.py tries these
STATUSES = {"hinge ipfw ": 3}  # other than 0: the page's file has lines that are left out
MULTIARCH = "lib/x86_64-linux-gnu"
VERSIONS = {
    "lib/pkgconfig/hingetulip.pc": r"^Version: (.*)$",
    "lib/cmake/Hingetulip/HingetulipConfigVersion.cmake": r"^set\(PACKAGE_VERSION (.*)\)$",
    "lib/python/hinge/VERSION": r"^(.*)$",
    f"lib/python/hingetulip-{VERSION}.dist-info/METADATA": r"^Version: (.*)$",
    **{f"share/man/{name}": r"^\.Os Hingetulip (.*)$" for name in ("man1/dummynet.1", "man1/hinge.1", "man3/hingetulip.3")},
}
CMAKE = """\
cmake_minimum_required(VERSION 3.13)
project(first C)
find_package(Hingetulip {} REQUIRED)
add_executable(shared first.c)
target_link_libraries(shared Hingetulip::Hingetulip)
add_executable(static first.c)
target_link_libraries(static Hingetulip::static)
"""


def run(*words: object, cwd: Path = TOP, **more: str) -> Ran:
    env = {**os.environ, **more}
    for name in ("DUMMYNET", "PYTHONPATH", "HINGETULIP_LIBRARY"):
        if name not in more:
            env.pop(name, None)
    return ran(*words, cwd=cwd, env=env)


def done(tally: Tally, name: str, *words: object, cwd: Path = TOP, wanted: int = 0, **more: str) -> str:
    """Returns a command's output; its status must be the expected one."""
    it = run(*words, cwd=cwd, **more)
    tally.note(name, "" if it.returncode == wanted else f"status {it.returncode}: {it.stdout[-2000:]}")
    return it.stdout


def status() -> str:
    return run("git", "status", "--porcelain").stdout


def copied(place: Path, program: str) -> Path:
    """Returns a copy of the repository, released with this program and the library from tools/release/library."""
    copy = place / "repository"
    names = run("git", "ls-files", "-co", "--exclude-standard").stdout.splitlines()
    for name in names:
        if (TOP / name).is_file():
            (copy / name).parent.mkdir(parents=True, exist_ok=True)
            shutil.copy2(TOP / name, copy / name)
    library = Path(run(TOP / "tools" / "release" / "library").stdout.strip())
    for file in (Path(program), library / "libhingetulip.a", library / "libhingetulip.so.1"):
        shutil.copy2(file, copy / "release" / ("dummynet" if file == Path(program) else file.name))
    (copy / "release" / "sources").write_text(run(copy / "tools" / "release" / "program_sources").stdout)
    (copy / "release" / "library-sources").write_text(run(copy / "tools" / "release" / "program_sources", "hingetulip_c").stdout)
    released = [line.split()[1] for line in (copy / "release" / "SHA256SUMS").read_text().splitlines()]
    sums = [f"{sha256((copy / 'release' / name).read_bytes()).hexdigest()}  {name}\n" for name in released]
    (copy / "release" / "SHA256SUMS").write_text("".join(sums))
    return copy


def with_hosts(tally: Tally, copy: Path) -> None:
    """The programs in C that hinge runs, in the copy's release, where there is a compiler."""
    if lacks("hinge-link, hinge-packets and hinge-clock.so", "cc"):
        return
    done(tally, "tools/release/hosts release", copy / "tools" / "release" / "hosts", "release")


def python() -> Optional[str]:
    """A Python that can make a virtual environment, with numpy and matplotlib where there is one."""
    asked = [word for word in ("/usr/bin/python3", sys.executable) if shutil.which(word)]
    for modules in ("ensurepip, numpy, matplotlib", "ensurepip"):
        for word in asked:
            if run(word, "-c", f"import {modules}").returncode == 0:
                return word
    return None


def joined(block: str) -> Iterator[str]:
    """Yields the commands of a block: its lines after `$ `, or all lines if none begins so, with continuation lines."""
    lines = re.sub(r"\\\n *", "", block).splitlines()
    prompts = [line[2:] for line in lines if line.startswith("$ ")]
    yield from prompts or lines


def is_tried(line: str) -> bool:
    return line.split(" ")[0] in RUN and not line.startswith(NEEDS_MORE) and not any(mark in line for mark in ("..", "<<", "$"))


def commands(page: str) -> list[str]:
    """Returns the commands of a page that are tried, in their installed form: for each block those before the first one that isn't
    tried, since later ones may depend on it."""
    found: list[str] = []
    for block in re.findall(r"^```\w*\n(.*?)^```$", (TOP / page).read_text(), re.M | re.S):
        lines = [re.sub(r"(^|[ (|])\./(hinge|dummynet)\b", r"\1\2", line.partition("    #")[0]) for line in joined(block)]
        found += itertools.takewhile(is_tried, lines)
    return found


def pages(tally: Tally, place: Path, folder: Path) -> None:
    """The pages' commands, one after the other, with the installed programs first on the path."""
    folder.mkdir()
    for name in ("examples", "python"):
        (folder / name).symlink_to(TOP / name)
    for page, least in LEAST.items():
        found = commands(page)
        tally.note(f"commands of {page}", "" if len(found) >= least else f"only {found}")
        for line in found:
            wanted = next((status for begin, status in STATUSES.items() if line.startswith(begin)), 0)
            done(tally, f"{page}: {line}", "sh", "-c", line, cwd=folder, wanted=wanted, PATH=f"{place}/bin:{os.environ['PATH']}")
    for left in sorted(it.name + ("/" if it.is_dir() else "") for it in folder.iterdir() if not it.is_symlink()):
        tally.note(
            f"git ignores {left}",
            "" if run("git", "check-ignore", "-q", left).returncode == 0 else "in a clone it would be a new file",
        )


def behind_a_link(tally: Tally, place: Path, folder: Path) -> None:
    """Runs README's ping behind a link, if users may create links here."""
    [line] = re.findall(r"^\$ (hinge run (?!--simulated).* ping .*)$", (TOP / "README.md").read_text(), re.M)
    it = run("sh", "-c", line, cwd=folder, PATH=f"{place}/bin:{os.environ['PATH']}")
    if shutil.which("ping") is None or it.returncode == 6:
        print(f"{line}: skipped, since there is no ping, or the system refuses: {it.stdout.strip()}")
        return
    tally.note(line, "" if it.returncode == 0 and it.stdout.count(" 3 came, 3 delivered") == 2 else it.stdout)


def simulated(tally: Tally, hinge: Path, place: Path) -> None:
    """Runs a command in simulated time with only the installation: this user has built no kernel."""
    names = {"XDG_CACHE_HOME": str(place / "no cache"), "HINGE_KERNEL": ""}
    told = done(tally, "an hour", hinge, "run", "--simulated", "--", "sleep", "3600", cwd=place, **names)
    tally.note("an hour's line", "" if "simulated 3600.0" in told else told)


def leftover(folder: Path) -> list[str]:
    return sorted(str(it.relative_to(folder)) for it in folder.rglob("*") if re.search("hinge|dummynet", it.name, re.I))


def wheel(tally: Tally, copy: Path, place: Path) -> None:
    """Checks that the wheel is reproducible, and that a release of other sources is refused."""
    sums = []
    for name in ("one", "other"):
        (place / name).mkdir()
        code = f"import sys; sys.path.insert(0, {str(copy / 'python')!r}); import build_wheel; print(build_wheel.build_wheel({str(place / name)!r}))"
        built = done(tally, "a wheel", sys.executable, "-c", code, cwd=place).strip()
        tally.equal("its name", f"hingetulip-{VERSION}-py3-none-manylinux_2_34_x86_64.whl", built)
        sums.append(sha256((place / name / built).read_bytes()).hexdigest())
    tally.equal("two wheels", sums[0], sums[1])
    for name in ("sources", "library-sources"):
        file = copy / "release" / name
        kept = file.read_text()
        file.write_text("of others\n")
        refused = run(sys.executable, "-c", code, cwd=place)
        tally.note(
            f"a wheel of other {name}", "" if refused.returncode and "isn't of these sources" in refused.stdout else refused.stdout
        )
        file.write_text(kept)


def try_hinge(tally: Tally, hinge: Path, place: Path) -> None:
    """Checks an installed hinge's version, and that it prints a page."""
    page = (TOP / "docs" / "LIVE.md").read_text()
    for words, wanted in ((["--version"], f"hinge {VERSION}\n"), (["docs", "LIVE"], page)):
        told = done(tally, f"{hinge} {words[0]}", hinge, *words, cwd=place)
        tally.equal(f"what {hinge} {words[0]} prints", wanted, told)


def by_pip(tally: Tally, copy: Path, place: Path) -> None:
    """An installation in a virtual environment, the pages from there, and an uninstall; then one that leads to the clone."""
    venv, interpreter = place / "venv", python()
    if interpreter is None:
        print("pip: skipped, since no Python can make a virtual environment")
        return
    done(tally, "a virtual environment", interpreter, "-m", "venv", "--system-site-packages", venv)
    own, pip = venv / "bin" / "python", [venv / "bin" / "pip", "--disable-pip-version-check", "-q"]
    done(tally, "pip install ./python", *pip, "install", "--no-index", copy / "python")
    where = "import hingetulip, hinge; print(hingetulip.LIBRARY, hinge.__file__)"
    library, modules = done(tally, "import", own, "-c", where, cwd=place).split()
    tally.equal("where the modules are", 2, f"{library} {modules}".count(f"{venv}/"))
    try_hinge(tally, venv / "bin" / "hinge", place)
    for module, name, where_it_is in (
        ("program", "dummynet", "bin/dummynet"),
        ("program", "clock", f"{Path(modules).parent}/hinge-clock.so"),
        ("program", "packets_program", f"{Path(modules).parent}/hinge-packets"),
        ("run.host", "program", f"{Path(modules).parent}/run/hinge-link"),
    ):
        told = done(tally, f"hinge.{module}", own, "-c", f"from hinge.{module} import {name}; print({name}())", cwd=place)
        tally.equal("a program that hinge takes", f"{venv / where_it_is}\n", told)
    if run(own, "-c", "import numpy, matplotlib").returncode:
        print("the pages' commands: skipped, since no Python has numpy and matplotlib")
    else:
        pages(tally, venv, place / "pages")
        behind_a_link(tally, venv, place / "pages")
    simulated(tally, venv / "bin" / "hinge", place)
    done(tally, "pip uninstall", *pip, "uninstall", "-y", "hingetulip")
    tally.equal("what pip leaves", [], leftover(venv))
    done(tally, "pip install -e ./python", *pip, "install", "--no-index", "-e", copy / "python")
    told = done(tally, "import from the clone", own, "-c", where, cwd=place)
    tally.equal("modules of the clone", f"{copy}/release/libhingetulip.so.1 {copy}/python/hinge/__init__.py\n", told)
    done(tally, "pip uninstall of it", *pip, "uninstall", "-y", "hingetulip")
    tally.equal("what pip leaves of it", [], leftover(venv))


def by_each_python(tally: Tally, copy: Path, place: Path) -> None:
    """Checks the wheel with each supported Python on this machine."""
    for minor in range(9, 14):
        own = [f"python3.{minor}", *map(str, Path.home().glob(f".pyenv/versions/3.{minor}.*/bin/python3"))]
        interpreter = next((it for it in own if shutil.which(it) and run(it, "-c", "import ensurepip").returncode == 0), None)
        venv = place / f"venv-{minor}"
        if interpreter is None:
            print(f"Python 3.{minor}: skipped, since it isn't there, or has no pip")
            continue
        done(tally, f"an environment of {interpreter}", interpreter, "-m", "venv", venv)
        pip = [venv / "bin" / "pip", "-q", "--disable-pip-version-check", "install", "--no-index"]
        done(tally, f"pip install by {interpreter}", *pip, copy / "python")
        script = "import hingetulip.aio as it; print(it.__file__)"
        told = done(tally, f"import by {interpreter}", venv / "bin" / "python", "-c", script, cwd=place)
        tally.note(f"the module by {interpreter}", "" if told.startswith(f"{venv}/") else told)
        try_hinge(tally, venv / "bin" / "hinge", place)


def glibc(tally: Tally, copy: Path, place: Path) -> None:
    """Checks that the released files need no later glibc than the wheel's tag and the packages declare: 2.34."""
    for name in ("dummynet", "libhingetulip.so.1", "hinge-link", "hinge-packets", "hinge-clock.so"):
        file = copy / "release" / name
        if file.is_file():
            asked = {tuple(map(int, it.split(b"."))) for it in re.findall(rb"GLIBC_(\d+\.\d+)", file.read_bytes())}
            tally.note(f"glibc that {name} needs", "" if max(asked, default=(0, 0)) <= (2, 34) else f"{max(asked)}")


def with_cmake(tally: Tally, prefix: Path, place: Path) -> None:
    if lacks("CMake", "cmake", "cc"):
        return
    for version, is_taken in ((VERSION, True), ("1.0", True), ("3.0", False)):
        source = place / f"cmake-{version}"
        source.mkdir()
        shutil.copy(TOP / "examples" / "embed" / "first.c", source)
        (source / "CMakeLists.txt").write_text(CMAKE.format(version))
        made = run("cmake", "-S", source, "-B", source / "made", f"-DCMAKE_PREFIX_PATH={prefix}")
        tally.equal(f"find_package(Hingetulip {version})", is_taken, made.returncode == 0)
        if made.returncode == 0:
            done(tally, "cmake --build", "cmake", "--build", source / "made")
            told = [done(tally, kind, source / "made" / kind, LD_LIBRARY_PATH="") for kind in ("shared", "static")]
            tally.note("first.c by CMake", "" if told[0] == told[1] and told[0].count("\n") == 7 else f"got {told}")


def with_pkg_config(tally: Tally, prefix: Path, lib: str, place: Path) -> None:
    if lacks("pkg-config", "pkg-config", "cc"):
        return
    path = f"{prefix}/{lib}/pkgconfig"
    flags = done(tally, "pkg-config", "pkg-config", "--cflags", "--libs", "hingetulip", PKG_CONFIG_PATH=path)
    program = place / "first"
    done(tally, "cc", "cc", TOP / "examples" / "embed" / "first.c", *shlex.split(flags), "-o", program)
    told = done(tally, "first", program, LD_LIBRARY_PATH=f"{prefix}/{lib}")
    tally.equal(f"first.c by pkg-config from {lib}", 7, told.count("\n"))
    told = done(tally, "pkg-config", "pkg-config", "--modversion", "hingetulip", PKG_CONFIG_PATH=path)
    tally.equal("the version by pkg-config", f"{VERSION}\n", told)


def in_prefix(tally: Tally, copy: Path, place: Path) -> None:
    """Checks ./install --all, as it is and in the form for Debian's package, and --uninstall."""
    prefix, root = place / "a prefix", place / "root"
    done(tally, "./install --all", copy / "install", "--all", prefix)
    try_hinge(tally, prefix / "bin" / "hinge", place)
    python, script = [sys.executable, "-B", "-c"], "import hingetulip; print(hingetulip.LIBRARY)"
    told = done(tally, "the module", *python, script, cwd=place, PYTHONPATH=f"{prefix}/lib/python")
    tally.equal("its library", f"{prefix}/lib/libhingetulip.so.1\n", told)
    told = done(tally, "dummynet", prefix / "bin" / "dummynet", "--version")
    tally.equal("the program", f"dummynet {VERSION}", " ".join(told.split()[:2]))
    simulated(tally, prefix / "bin" / "hinge", place)
    with_cmake(tally, prefix, place)
    where_installed(tally, prefix)
    trees = [contents(prefix)]
    for part in ("--all", "", "--lib"):
        older = [prefix / "lib" / "python" / name / "older.py" for name in ("hinge", "hingetulip")]
        with open(prefix / "share" / "hingetulip" / "installed", "a") as noted:
            for path in older:
                path.write_text(""), print(path.relative_to(prefix), file=noted)
        done(tally, f"./install {part} over an older version", copy / "install", *([part] if part else []), prefix)
        stay = {"--all": [], "": older[1:], "--lib": older[:1]}[part]
        tally.equal(f"what ./install {part} leaves of it", stay, [path for path in older if path.exists()])
    done(tally, "./install --all once more", copy / "install", "--all", prefix)
    tally.equal("./install more than once", trees[0], contents(prefix))
    done(tally, "./install without a folder", copy / "install", wanted=2)
    uninstalled(tally, copy, prefix)
    places = {"DESTDIR": str(root), "LIBDIR": MULTIARCH, "PYTHONDIR": "lib/python3/dist-packages"}
    done(tally, "./install below DESTDIR", copy / "install", "--all", "/usr", **places)
    with_pkg_config(tally, root / "usr", MULTIARCH, place)
    tally.equal("a list of what is installed below DESTDIR", False, (root / "usr" / "share" / "hingetulip" / "installed").exists())


def contents(prefix: Path) -> dict[str, bytes]:
    return {str(it.relative_to(prefix)): it.read_bytes() for it in prefix.rglob("*") if it.is_file()}


def where_installed(tally: Tally, prefix: Path) -> None:
    """Checks that every version is that of the file VERSION."""
    for name, pattern in VERSIONS.items():
        tally.equal(f"the version in {name}", VERSION, found(prefix / name, pattern))
    number = ctypes.CDLL(str(prefix / "lib" / "libhingetulip.so.1")).dn_version()
    tally.equal("the version of the C library (crates/hingetulip_c/src/exports/lifetime.rt)", VERSION, spelled(number))


def uninstalled(tally: Tally, copy: Path, prefix: Path) -> None:
    """Checks that ./install --uninstall removes what it installed and its byte code, and leaves a user's file."""
    (prefix / "lib" / "own").write_text("")
    kept = prefix / "lib" / "python" / "hingetulip" / "__pycache__"
    kept.mkdir(exist_ok=True)
    (kept / "errors.cpython-39.pyc").write_text("")
    done(tally, "./install --uninstall", copy / "install", "--uninstall", prefix)
    tally.equal("what it leaves", [prefix / "lib", prefix / "lib" / "own"], sorted(prefix.rglob("*")))
    told = done(tally, "nothing to uninstall", copy / "install", "--uninstall", prefix, wanted=1)
    tally.note("what is told of it", "" if "isn't there" in told else told)


def as_packages(tally: Tally, copy: Path, place: Path) -> None:
    """Debian's packages and the tarball: the same bytes twice, and nothing that lintian calls an error."""
    if lacks("Debian's packages", "dpkg-deb"):
        return
    sums = []
    for name in ("debs", "debs again"):
        done(tally, "tools/release/deb", copy / "tools" / "release" / "deb", place / name)
        sums.append({it.name: sha256(it.read_bytes()).hexdigest() for it in (place / name).iterdir()})
    packages = ["hingetulip", "libhingetulip-dev", "libhingetulip1", "python3-hingetulip"]
    names = [f"hingetulip-{VERSION}-x86_64.tar.gz", *(f"{name}_{VERSION}-1_amd64.deb" for name in packages)]
    tally.equal("the packages", sorted(names), sorted(sums[0]))
    tally.equal("packages made twice", sums[0], sums[1])
    if lacks("lintian", "lintian"):
        return
    symbols(tally, copy, place)
    told = run("lintian", "--allow-root", *sorted((place / "debs").glob("*.deb"))).stdout
    tally.equal("errors of lintian", [], re.findall(r"^E: .*", told, re.M))


def symbols(tally: Tally, copy: Path, place: Path) -> None:
    """Checks that the library's package lists each symbol with its version in the library."""
    done(tally, "dpkg-deb -e", "dpkg-deb", "-e", place / "debs" / f"libhingetulip1_{VERSION}-1_amd64.deb", place / "control")
    told = (place / "control" / "symbols").read_text().splitlines()[1:]
    names = run("nm", "-D", "--defined-only", "--with-symbol-versions", copy / "release" / "libhingetulip.so.1").stdout
    wanted = [f" {name}@{version} {version.rpartition('_')[2]}" for name, version in re.findall(r" T (dn_\w+)@@(\S+)", names)]
    tally.equal("symbols of the library's package", sorted(wanted), told)


def main(tally: Tally, program: str) -> None:
    before = status()
    place = tally.place
    copy = copied(place, str(Path(program).resolve()))
    with_hosts(tally, copy)
    for part in (glibc, wheel, by_pip, by_each_python, in_prefix, as_packages):
        part(tally, copy, place)
    tally.equal("git status of the clone", before, status())


if __name__ == "__main__":
    judge(main)
