"""The border of the kit: what others wrote comes in, and text goes out, by python/hinge/border and python/hinge/outputs.py alone.

    python3 tools/gate/border.py

A module of the kit that itself uses one of NAMES or METHODS is refused, by whatever name it imports that, unless ALLOWED has the reason. So is
one that imports a module which MODULES doesn't list, leaves the place of a temporary file to `tempfile` or has it make a folder, or takes
argparse's Namespace, but for commands and the modules that give it options. Lines that do each of this are planted, and must be refused.
"""

import ast
from pathlib import Path
from typing import Iterator

from tally import Tally, judge

KIT = Path(__file__).resolve().parents[2] / "python" / "hinge"
BORDER = ("border/", "outputs.py")
OPTIONS = ("options.py", "command_line.py")
NAMES = {  # of each module, by which others' files, programs, threads and streams are reached
    "builtins": "print open eval exec compile __import__ __builtins__",
    "io": "open open_code FileIO",
    "codecs": "open",
    "gzip": "open GzipFile",
    "os": "open fdopen popen read readv pread preadv sendfile splice copy_file_range pidfd_open system fork forkpty posix_spawn"
    " posix_spawnp execl execle execlp execlpe execv execve execvp execvpe spawnl spawnle spawnlp spawnlpe spawnv spawnve spawnvp spawnvpe",
    "json": "load loads JSONDecoder",
    "csv": "reader DictReader",
    "fileinput": "input",
    "linecache": "getlines",
    "sys": "stdin stdout stderr __stdin__ __stdout__ __stderr__ modules",
    "np": "load",
    "numpy": "load",
    "tempfile": "gettempdir gettempdirb mktemp",
    "importlib": "import_module",
    "mmap": "mmap",
    "shutil": "copyfile copyfileobj copy copy2 copytree move rmtree unpack_archive",
    "ctypes": "CDLL PyDLL cdll pythonapi",
    "concurrent.futures": "ThreadPoolExecutor ProcessPoolExecutor",
    "threading": "Thread Timer",
    "logging": "FileHandler basicConfig config handlers",
    "pty": "spawn",
    "select": "select",  # which takes no descriptor from 1,024 on: border/programs.py has another wait
}
REFUSED = [f"{module}.{name}".removeprefix("builtins.") for module, names in NAMES.items() for name in names.split()]
REFUSED += ["subprocess", "multiprocessing"]
FOLDERS = ("tempfile.mkdtemp", "tempfile.TemporaryDirectory")  # which have no mark: border/scratch.py makes them
TEMPORARY = ("TemporaryFile", "NamedTemporaryFile", "SpooledTemporaryFile", "TemporaryDirectory", "mkstemp", "mkdtemp")
ABOUT_STREAMS = ("flush", "isatty", "encoding", "fileno")  # which write nothing
METHODS = (
    "open read_text read_bytes write_text write_bytes recv recv_into recvmsg recvmsg_into recvfrom recvfrom_into recv_fds accept makefile mkdir"
    " makedirs listen create_server start_server start_unix_server create_subprocess_exec create_subprocess_shell fromfile memmap loadtxt"
    " genfromtxt imread"
).split()
MODULES = {  # that reach no file, program or socket but by these names
    *"__future__ _pytest _signal abc argparse array asyncio binascii bisect collections concurrent contextlib csv ctypes".split(),
    *"dataclasses datetime decimal difflib enum errno fcntl fractions functools gc grp hashlib heapq base64 hinge hingetulip".split(),
    *"hingetulip_words html hypothesis importlib inspect io ipaddress itertools json math matplotlib mmap numpy operator os".split(),
    *"pathlib pwd pytest queue random re resource select shlex shutil signal socket stat string struct sys tempfile textwrap".split(),
    *"threading time traceback types typing unittest warnings weakref gzip pydoc logging".split(),
}
CALLED = ("input",)  # which is a name of parameters, too
PLANTED = {  # beside each of NAMES and METHODS
    "input()": "input",
    "from pathlib import Path\nlist(map(Path.read_text, []))": "read_text",
    "from json import *": "json.*",
    "import subprocess\nsubprocess.run(['x'])": "subprocess.run",
    "import subprocess as other\nother.Popen(['x'])": "subprocess.Popen",
    "import socketserver": "import of socketserver",
    "from zipfile import ZipFile as other": "import of zipfile",
    "import threading\nclass Other(threading.Thread): pass": "threading.Thread",
    "import os\ngetattr(os, 'pidfd_open')(1)": "pidfd_open",
    "import tempfile\ntempfile.mkdtemp(prefix='x', dir='y')": "tempfile.mkdtemp",
    "from tempfile import TemporaryDirectory as other\nother(dir='y')": "tempfile.TemporaryDirectory",
    "from tempfile import TemporaryFile as other\nother()": "tempfile.TemporaryFile",
}
READS = ("opened", "read_bytes", "read_text", "read_object", "lines_in")  # of border/files.py, by which others' files come in
MEASURED = "python/tests/kit_tests/test_hostile.py"  # whose READERS says by what command each reader is reached
OTHERS = {  # the other modules that read so, by why READERS has none of each
    "it hands bytes to another program": "captures/capture_reader.py simulated/streams.py",
    "HISTORIES and PACKETS have rows for them": "replays/columns.py replays/parting.py replays/record_lines.py plans/sessions.py",
    "the kernel's own files": "run/verdict.py run/cgroups.py",
    "the kit's own files": "searches/runs.py simulated/likeness.py net/running.py configurations/configured.py",
}
READER = "from hinge.border.files import read_text as other, untrusted"
HARMLESS = (
    "import json, os, sys, tempfile\nsys.stdout.flush()\njson.dumps(1)\nos.path.exists('x')\nlines.opened('x')\n"
    "def run(input): return input\ntempfile.TemporaryFile(dir='x')"
)
OWN = "a file of its own"
PIPE = "a pipe of its own"
OUTPUT = "within `written`"
SYSTEM = "the system's own"
NAMED, PAGES, LINES = "a folder that the user names", "a file that the border has opened", "lines that the border gives out"
LOADED, WAITS = "a module of the kit or of what it needs", "a thread that waits for the kit's own processes or for the user"
ALLOWED = {  # of each module, by the reason
    "__main__.py": {LOADED: "importlib.import_module"},
    "captures/addresses.py": {OUTPUT: "write_text", LINES: "csv.reader"},
    "captures/capture_file.py": {PAGES: "mmap.mmap"},
    "captures/capture_reader.py": {PAGES: "mmap.mmap"},
    "captures/through.py": {OUTPUT: "open"},
    "command.py": {LOADED: "importlib.import_module", "a standard stream that was closed": "open", WAITS: "threading.Timer"},
    "commands/docs.py": {"the kit's own pages": "read_text"},
    "commands/try.py": {OWN: "shutil.copyfile"},
    "commands/up.py": {NAMED: "mkdir"},
    "lazy.py": {LOADED: "importlib.import_module"},
    "net/begun.py": {NAMED: "makedirs shutil.copyfile", "the launcher's own words": "json.loads"},
    "net/described.py": {NAMED: "mkdir", OWN: "write_text"},
    "net/disks.py": {"the root and the mounts of this process": "os.open"},
    "net/net_inside.py": {PIPE: "os.read"},
    "net/running.py": {NAMED: "mkdir", OWN: "write_text"},
    "pictures/html_page.py": {OWN: "read_text", OUTPUT: "write_text"},
    "replays/record_lines.py": {LINES: "csv.reader"},
    "run/cgroups.py": {SYSTEM: "mkdir os.open"},
    "run/first.py": {PIPE: "os.read", "this process": "os.pidfd_open"},
    "run/host.py": {OWN: "os.fdopen"},
    "run/host_lines.py": {"the host's own line": "recv"},
    "run/interfaces.py": {"the system's /dev/net/tun": "os.open"},
    "run/names.py": {"of names, whose owner it looks at": "makedirs"},
    "run/outside.py": {PIPE: "os.read", OWN: "os.pread"},
    "run/page.py": {OWN: "mmap.mmap"},
    "run/ports.py": {"the kit's own doors": "start_server listen recvmsg"},
    "run/rtnetlink.py": {"the kernel's answer": "recv"},
    "run/system.py": {"calls of the system that Python lacks": "ctypes.CDLL", SYSTEM: "open"},
    "run/users.py": {PIPE: "os.read"},
    "searches/cause.py": {OWN: "open"},
    "searches/runs.py": {NAMED: "mkdir", OWN: "read_text", WAITS: "concurrent.futures.ThreadPoolExecutor"},
    "simulated/build.py": {OWN: "shutil.copyfile mkdir read_text write_text", "an old kernel of its own": "shutil.rmtree"},
    "simulated/calls_kept.py": {OWN: "read_text"},
    "simulated/failures.py": {"a file of its own, which is none that is there": "open"},
    "simulated/job.py": {OWN: "read_bytes"},
    "simulated/kernel.py": {OWN: "read_text read_bytes"},
    "simulated/link_rooms.py": {OWN: "read_text read_bytes"},
    "simulated/machine.py": {
        OWN: "shutil.copy shutil.copyfile read_text write_bytes open",
        "the machine that it began": "os.pidfd_open",
    },
    "simulated/one_test.py": {
        OWN: "mkdir read_text open json.loads",
        "of the test that passed, which has no files": "shutil.rmtree",
        "of the test that failed, which stays": "tempfile.mkdtemp",
    },
    "simulated/opened_files.py": {OWN: "read_bytes", "a file that a run has read, whose checksum alone is kept": "open"},
    "simulated/own_random.py": {"a program that a run has read, of which one instruction is looked for": "open"},
    "simulated/pauses.py": {OWN: "read_text"},
    "simulated/room.py": {OWN: "mmap.mmap"},
    "simulated/start.py": {OUTPUT: "shutil.copyfile", OWN: "read_text json.loads", WAITS: "threading.Thread"},
    "simulated/stood.py": {OWN: "read_bytes write_bytes"},
    "simulated/streams.py": {PAGES: "shutil.copyfileobj", OWN: "open os.open os.pread", WAITS: "threading.Thread threading.Timer"},
    "simulated/twice.py": {OWN: "open"},
    "simulated/verdict.py": {OWN: "read_text"},
    "testing/emulated.py": {"the history of a test": "open", OWN: "write_text"},
    "testing/table.py": {"whether a module was loaded": "sys.modules.get"},
    "version.py": {OWN: "open"},
}


def dotted(node: ast.AST) -> str:
    """Returns a name such as `json.loads`; parts that aren't names become `?`."""
    if isinstance(node, ast.Name):
        return node.id
    return f"{dotted(node.value)}.{node.attr}" if isinstance(node, ast.Attribute) else "?"


def namespaces(name: str, tree: ast.AST) -> Iterator[str]:
    """Yields the places at which a module uses argparse's namespace. Commands convert it into options with types."""
    if not name.startswith("commands/") and not name.endswith(OPTIONS):
        yield from (
            f"line {node.lineno}: argparse.Namespace: commands/ make options of it"
            for node in ast.walk(tree)
            if isinstance(node, ast.Attribute) and dotted(node) == "argparse.Namespace"
        )


def imports(tree: ast.AST) -> Iterator[tuple[int, str, str]]:
    """Yields the line, the name and the origin of each import."""
    for node in ast.walk(tree):
        if isinstance(node, ast.Import):
            yield from ((node.lineno, one.asname, one.name) for one in node.names if one.asname)
        elif isinstance(node, ast.ImportFrom) and not node.level:
            yield from ((node.lineno, one.asname or one.name, f"{node.module}.{one.name}") for one in node.names)


def modules(tree: ast.AST) -> Iterator[tuple[int, str]]:
    """Yields the line and the module of each import, but for relative ones."""
    for node in ast.walk(tree):
        if isinstance(node, ast.Import):
            yield from ((node.lineno, one.name) for one in node.names)
        elif isinstance(node, ast.ImportFrom) and node.module and not node.level:
            yield node.lineno, node.module


def is_refused(name: str) -> bool:
    """Returns whether a Python name crosses the border."""
    for one in REFUSED:
        if name == one or name.startswith(f"{one}."):
            return not (one.startswith("sys.") and name.removeprefix(f"{one}.") in ABOUT_STREAMS)
    return name.endswith(".*") and name[:-2] in (*NAMES, *REFUSED)


def origin(node: ast.AST, origins: dict[str, str]) -> str:
    """Returns the original Python name of a name in the kit."""
    first, dot, rest = dotted(node).partition(".")
    return (origins.get(first, first) + dot + rest).removeprefix("builtins.")


def is_crossing(call: ast.Call, name: str) -> bool:
    """Returns whether a call crosses the border although its name doesn't show it, such as a temporary file without a folder."""
    is_temporary = name in [f"tempfile.{one}" for one in TEMPORARY]
    return name in (*CALLED, *FOLDERS) or is_temporary and "dir" not in [one.arg for one in call.keywords]


def is_named(call: ast.Call, origins: dict[str, str]) -> bool:
    """Returns whether a call of `getattr` gets what is refused under its own name."""
    name = getattr(call.args[1], "value", "")
    return name in METHODS or is_refused(f"{origin(call.args[0], origins)}.{name}")


def crossings(tree: ast.AST) -> Iterator[tuple[int, str]]:
    """Yields the places at which a module crosses the border itself, with the names."""
    origins = {name: whole for _, name, whole in imports(tree)}
    yield from ((line, whole) for line, _, whole in imports(tree) if is_refused(whole))
    yield from ((line, f"import of {name}") for line, name in modules(tree) if name.partition(".")[0] not in MODULES)
    inner = {id(node.value) for node in ast.walk(tree) if isinstance(node, ast.Attribute)}
    for node in ast.walk(tree):
        if isinstance(node, ast.Call) and is_crossing(node, origin(node.func, origins)):
            yield node.lineno, origin(node.func, origins)
        elif isinstance(node, ast.Call) and dotted(node.func) == "getattr" and is_named(node, origins):
            yield node.lineno, ast.literal_eval(node.args[1])
        elif isinstance(node, (ast.Name, ast.Attribute)) and id(node) not in inner:
            name = origin(node, origins)
            if is_refused(name):
                yield node.lineno, name
            elif isinstance(node, ast.Attribute) and node.attr in METHODS:
                yield node.lineno, node.attr


def readers(tree: ast.AST) -> set[str]:
    """Returns the functions with which a module reads others' files."""
    names = {whole.removeprefix("hinge.border.files.") for _, _, whole in imports(tree)}
    return names & {*READS, "hinge.border.files"}


def measured() -> set[str]:
    """The modules of whose memory there is a test."""
    tree = ast.parse((KIT.parents[1] / MEASURED).read_text())
    tables = [node.value for node in tree.body if isinstance(node, ast.Assign) and dotted(node.targets[0]) == "READERS"]
    return {key.value for table in tables if isinstance(table, ast.Dict) for key in table.keys if isinstance(key, ast.Constant)}


def note_readers(tally: Tally, names: set[str]) -> None:
    """Each module that reads is measured, or said why not; one that doesn't read any more is in no list."""
    tally.note(
        "planted: a reader that nobody measures", *(["it isn't seen"] if readers(ast.parse(READER)) != {"read_text"} else [])
    )
    listed = measured() | set(" ".join(OTHERS.values()).split())
    tally.note("readers", *(f"{name}: neither {MEASURED} nor OTHERS has it" for name in sorted(names - listed)))
    tally.note("what is measured", *(f"{name}: it reads nothing any more" for name in sorted(listed - names)))


def planted() -> Iterator[tuple[str, str]]:
    """Yields lines that go round the border, each with the name that is refused."""
    yield from PLANTED.items()
    yield from ((f"{name}('x')", name) for name in NAMES["builtins"].split())
    for module, name in ((module, name) for module, names in NAMES.items() if module != "builtins" for name in names.split()):
        yield f"import {module} as other\nother.{name}('x')", f"{module}.{name}"
        yield f"from {module} import {name} as other", f"{module}.{name}"
    for name in METHODS:
        yield from ((f"line.{name}()", name), (f"getattr(line, '{name}')()", name))


def note_planted(tally: Tally) -> None:
    for text, what in planted():
        found = {one for _, one in crossings(ast.parse(text))}
        tally.note(f"planted: {text}", *([f"{what} isn't refused, but {found or 'nothing'}"] if what not in found else []))
    tally.note("harmless lines", *(f"line {line}: {what}" for line, what in crossings(ast.parse(HARMLESS))))


def main(tally: Tally) -> None:
    used, names = set(), set[str]()
    note_planted(tally)
    for path in sorted(KIT.rglob("*.py")):
        name = str(path.relative_to(KIT))
        if name.startswith(BORDER):
            continue
        tree = ast.parse(path.read_text())
        found = list(crossings(tree))
        allowed = " ".join(ALLOWED.get(name, {}).values()).split()
        used |= {(name, what) for _, what in found}
        names |= {name} if readers(tree) else set()
        tally.note(
            name,
            *(f"line {line}: {what}: python/hinge/border has it" for line, what in found if what not in allowed),
            *namespaces(name, tree),
        )
    note_readers(tally, names)
    given = {(name, what) for name, reasons in ALLOWED.items() for names in reasons.values() for what in names.split()}
    tally.note("what is allowed", *(f"{name}: {what} isn't there any more" for name, what in sorted(given - used)))


if __name__ == "__main__":
    judge(main)
