"""The examples of docs/TESTING.md, as a team runs them: pytest over examples/tests, with the clock of `hinge kernel --clock`, twice with one seed.

    python3 tools/gate/testing.py

Both runs have to write the same histories, byte for byte, where time is simulated. Pytest has to be one of /usr/bin/python3 or of this
Python. An example whose package the machine lacks says so. The page's tests of simulated time are run too.
"""

import os
import re
import shutil
import subprocess
from pathlib import Path
from typing import Union

from c_library import library
from pytests import has, interpreter
from tally import TOP, Tally, judge, ran

EXAMPLES = TOP / "examples" / "tests"
PAGE = TOP / "docs" / "TESTING.md"
MOST_LINES = 59  # of an example
OUTCOME = re.compile(r"^(?P<test>\S*::.+?) (?P<outcome>PASSED|FAILED|ERROR|SKIPPED|XFAIL|XPASS)\b", re.M)
SURE = """from hypothesis import settings
settings.register_profile("gate", derandomize=True, max_examples=1000)
settings.load_profile("gate")
"""  # since of sixty runs with other seeds and a hundred examples one finds nothing
REAL_TIME = ("test_own_protocol", "test_store")  # whose histories have the moments of this machine
IN_ROOMS = "test_store"  # which needs namespaces


def environment(place: Path) -> dict[str, str]:
    """Returns the environment that names the present sources' library, and what is built from C, if there is a compiler."""
    named = {
        "HINGETULIP_LIBRARY": f"{library().parent}/libhingetulip.so.1",
        "PYTHONPATH": str(TOP / "python"),
        "PYTHONDONTWRITEBYTECODE": "1",
        "PYTEST_DISABLE_PLUGIN_AUTOLOAD": "1",
    }
    if shutil.which("cc"):
        subprocess.run([TOP / "tools" / "release" / "hosts", place], check=True, stdout=subprocess.DEVNULL)
        named.update(HINGE_LINK=str(place / "hinge-link"), HINGE_CLOCK=str(place / "hinge-clock.so"))
    return {**os.environ, **named}


class Pytest:
    """Runs of pytest over the same files in a temporary folder."""

    def __init__(self, interpreter: str, place: Path) -> None:
        self.interpreter, self.place, self.env = interpreter, place, environment(place)

    def run(self, folder: str, *files: Union[Path, str]) -> str:
        """What pytest prints."""
        options = ["-v", "-rs", "-p", "hinge.pytest_plugin", "-p", "no:cacheprovider", f"--basetemp={self.place / folder}"]
        words = [self.interpreter, "-m", "pytest", *options, *files]
        env = {**self.env, "LD_PRELOAD": self.env["HINGE_CLOCK"]} if "HINGE_CLOCK" in self.env else self.env
        return ran(*words, cwd=self.place, env=env).stdout

    def no_rooms(self) -> str:
        """Returns the reason why this machine or user can't create namespaces, or an empty text."""
        done = ran(self.interpreter, TOP / "python/hinge/__main__.py", "run", "--quiet", "--", "true", env=self.env)
        return done.stdout.strip() if done.returncode else ""

    def histories(self, folder: str) -> dict[str, bytes]:
        found = (self.place / folder).rglob("*.history")
        return {str(it.relative_to(self.place / folder)): it.read_bytes() for it in found}


def examples(tally: Tally, pytest: Pytest) -> None:
    files = sorted(EXAMPLES.glob("test_*.py"))
    tally.note("six examples", "" if len(files) >= 6 else f"got {files}")
    for file in files:
        tally.note(f"lines of {file.name}", "" if len(file.read_text().splitlines()) <= MOST_LINES else "more than 59")
        if "HINGE_LINK" not in pytest.env and file.stem in REAL_TIME:
            print(f"{file.name}: skipped, since there is no cc on the path")
            continue
        if file.stem == IN_ROOMS and (refused := pytest.no_rooms()):
            print(f"{file.name}: skipped: {refused}")
            continue
        told = pytest.run(f"first-{file.stem}", file)
        outcomes = OUTCOME.findall(told)
        for reason in re.findall(r"^SKIPPED .*: (.*)$", told, re.M):
            print(f"{file.name}: skipped, since there is {reason}")
        tally.note(file.name, "" if outcomes or "skipped" in told else told)
        for test, outcome in outcomes:
            tally.note(test, "" if outcome in ("PASSED", "XFAIL", "SKIPPED") else told)
        if file.stem not in REAL_TIME:
            pytest.run(f"again-{file.stem}", file)
            first, again = (pytest.histories(f"{run}-{file.stem}") for run in ("first", "again"))
            ran = any(outcome == "PASSED" for _, outcome in outcomes)
            tally.note(
                f"two runs of {file.name}",
                "" if first == again and bool(first) == ran else f"differ, of {len(first)} and {len(again)} histories",
            )


def of_page(tally: Tally, pytest: Pytest) -> None:
    """Checks that the page's first test fails as printed, and with its remaining losses, and that hypothesis finds the page's
    example."""
    text = PAGE.read_text()
    body, faults = re.findall(r"^```python\n(.*?)^```$", text, re.M | re.S)[:2]
    printed = re.search(r"^-+ emulated link -+\n(.*?)^```$", text, re.M | re.S)
    file, more = pytest.place / "test_sync.py", pytest.place / "test_faults.py"
    file.write_text(body)
    more.write_text(f"{SURE}{body}\n{faults}")
    told = pytest.run("page", file, "--link-shrink")
    section = re.search(r"^-+ emulated link -+\n(.*?hinge look )", told, re.M | re.S)
    wanted = printed[1].partition("hinge look ")[0] + "hinge look " if printed else "no report"
    tally.equal("the report of the page's first test", wanted, section[1] if section else told)
    least = re.search(r"^(.* packet \d+ lost\nfails by .*\n)", text, re.M)
    tally.note("the least faults of that test", "" if least and least[1] in told else told)
    if has(pytest.interpreter, "hypothesis"):
        told = pytest.run("faults", more, "-k", "in_order")
        lines = re.findall(r"# (Faults\(.*\))", faults)
        tally.note("what hypothesis finds", "" if lines and f"faults={lines[0]}," in told else told)
    else:
        print("what hypothesis finds: skipped, since there is no python3-hypothesis")


def main(tally: Tally) -> None:
    python = interpreter()
    if python is None:
        print("tests in simulated time: skipped, since no Python has pytest: apt-get install python3-pytest")
        return
    pytest = Pytest(python, tally.place)
    examples(tally, pytest)
    of_page(tally, pytest)


if __name__ == "__main__":
    judge(main)
