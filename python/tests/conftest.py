"""Tests by pytest: `cd python && pytest [-k NAME] [FILE ..]`. What a machine lacks is skipped, with the reason.

The variables DUMMYNET, HINGE_LINK and HINGE_KERNEL name the program, the host and the kernel's folder, those of this checkout by
default, and HINGETULIP_LIBRARY the library in C. HINGE_LONG=yes tries the long tests too. The module comes from PYTHONPATH, or
otherwise from this checkout.
"""

import importlib.util
import os
import signal
import subprocess
from pathlib import Path
from typing import Iterator, Optional

import pytest

TESTS = Path(__file__).resolve().parent
PYTHON, TOP = TESTS.parent, TESTS.parents[1]
NO_LIBRARY = "the variable HINGETULIP_LIBRARY can name it"  # as the module says where it can't load the library
PACKAGES = ("aiohttp", "anyio", "matplotlib", "numpy")  # whose tests are skipped where they aren't installed


def built(name: str, sources: str, *crate: str) -> Optional[Path]:
    """A file that was built here from the present sources, or else the release's if it was. Nothing is built now."""
    script = [TOP / "tools" / "release" / "program_sources", *crate]
    found = subprocess.run(script, stdout=subprocess.PIPE, text=True, check=True).stdout.strip()
    here, released = TOP / "built" / found / name, TOP / "release"
    if here.exists():
        return here
    is_present = (released / sources).read_text().strip() == found
    return released / name if is_present and (released / name).exists() else None


def name_what_is_built() -> None:
    """Names the module, the library and the program for the tests and for the commands that they start."""
    module = importlib.util.find_spec("hingetulip")
    place = Path(module.origin or "").resolve().parents[1] if module else PYTHON
    os.environ["PYTHONPATH"] = os.pathsep.join(dict.fromkeys([str(place), str(PYTHON)]))
    library = built("libhingetulip.so.1", "library-sources", "hingetulip_c") if place == PYTHON else None
    if library:
        os.environ.setdefault("HINGETULIP_LIBRARY", str(library))
    program = built("dummynet", "sources")
    if program:
        os.environ.setdefault("DUMMYNET", str(program))


def lacking_kernel() -> str:
    """What keeps the tests of simulated time from being tried, or nothing."""
    from hinge.run.system import Missing
    from hinge.simulated.kernel import usable_kernel

    try:
        usable_kernel()
    except Missing as missing:
        return str(missing)
    return ""


def pytest_configure() -> None:
    # A shell's command in the background ignores it, and so would the programs that the tests interrupt.
    signal.signal(signal.SIGINT, signal.default_int_handler)
    signal.signal(signal.SIGHUP, signal.SIG_DFL)  # which nohup ignores, and so would all programs that tests end by it
    name_what_is_built()


def pytest_collection_modifyitems(items: list[pytest.Item]) -> None:
    of_kernel = [item for item in items if item.path.parent == TESTS / "simulated"]
    if of_kernel and (why := lacking_kernel()):
        for item in of_kernel:
            item.add_marker(pytest.mark.skip(reason=why))


def lacking(cause: object) -> str:
    """Which package or library that this machine lacks an import failed for, or nothing."""
    if isinstance(cause, ModuleNotFoundError) and cause.name in PACKAGES:
        return f"no {cause.name}: apt-get install python3-{cause.name}"
    return str(cause) if isinstance(cause, ImportError) and NO_LIBRARY in str(cause) else ""


@pytest.hookimpl(hookwrapper=True)
def pytest_make_collect_report(collector: pytest.Collector) -> Iterator[None]:
    """Skips a file that imports what this machine lacks. All else that it imports in vain is an error."""
    outcome = yield
    report = outcome.get_result()  # type: ignore[attr-defined]
    call = getattr(report, "call", None)
    why = lacking(call.excinfo.value.__cause__) if call and call.excinfo else ""
    if why:
        report.outcome, report.longrepr = "skipped", (str(collector.path), 0, f"Skipped: {why}")
