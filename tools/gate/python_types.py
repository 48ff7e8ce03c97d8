"""The types of Python: mypy --strict over the kit, the library's module and the words of links. numpy has to be there too.

    python3 tools/gate/python_types.py
"""

import re
from pathlib import Path

from tally import Tally, judge, ran

PYTHON = Path(__file__).resolve().parents[2] / "python"
PACKAGES = ("hinge", "hingetulip", "hingetulip_words")
ERROR = re.compile(r"(?P<file>[^:]+):\d+: error: ")


def main(tally: Tally) -> None:
    done = ran("mypy", "--config-file", "pyproject.toml", "--cache-dir", tally.place, *PACKAGES, cwd=PYTHON)
    told = done.stdout.splitlines()
    files = sorted(path for package in PACKAGES for path in (PYTHON / package).rglob("*.py"))
    for path in files:
        name = str(path.relative_to(PYTHON))
        tally.note(name, *(line for line in told if (found := ERROR.match(line)) and found["file"] == name))
    tally.note("mypy", *(told if done.returncode not in (0, 1) else []))


if __name__ == "__main__":
    judge(main)
