"""Runs a pytest test in a separate simulated machine, where another pytest runs the test and returns the reports.

Folders have fixed names in the machine, since programs' memory contains the names. The reports contain the real names."""

from __future__ import annotations

import json
import os
import re
import shutil
import sys
import tempfile
from pathlib import Path
from typing import Any, Iterator, NamedTuple

import pytest

from hinge.border.programs import NOTHING, PIPE, begun
from hinge.border.scratch import temporary_place
from hinge.border.terminal import lines
from hinge.program import HINGE
from hinge.pytest_plugin import INSIDE
from hinge.run.transcripts import KEPT_PATH
from hinge.testing.emulated import audited, closing, dropped_in_history

HISTORY, REPORTS = "link.history", "reports"
OF_THE_LINK = re.compile(r"hinge run: (up|down): .*")


class MachineResult(NamedTuple):
    """Holds the result of a test's machine: status, messages, and the reports on the test's phases."""

    status: int
    messages: str
    reports: list[dict[str, Any]]


class Keeper:
    """Writes the reports in the machine to a file for the pytest that waits outside."""

    def __init__(self, config: pytest.Config, path: str) -> None:
        self.config, self.path = config, path

    def pytest_runtest_logreport(self, report: pytest.TestReport) -> None:
        data = self.config.hook.pytest_report_to_serializable(config=self.config, report=report)
        with open(self.path, "a") as file:
            file.write(json.dumps(data) + "\n")


def options_of_mark(mark: pytest.Mark) -> Iterator[str]:
    """Yields the options of `hinge run` in a mark: real_limit="60s" becomes --real-limit 60s."""
    for name, value in mark.kwargs.items():
        for word in value if isinstance(value, (list, tuple)) else [value]:
            yield f"--{name.replace('_', '-')}"
            if word is not True:
                yield str(word)


def run_in_machine(item: pytest.Item, words: list[str], seed: int, folder: Path) -> MachineResult:
    """Runs a test in a machine with these options; returns the result. The test's files remain in the folder."""
    kept_folder = folder / "kept"
    kept_folder.mkdir()
    names = {**os.environ, INSIDE: f"{KEPT_PATH}/{REPORTS}", "PYTHONDONTWRITEBYTECODE": "1"}
    names.pop("PYTEST_CURRENT_TEST", None)
    config = ["-c", str(item.config.inipath)] if item.config.inipath else []
    plugins = [word for name in item.config.option.plugins for word in ("-p", name)]
    inner = [
        *(sys.executable, "-m", "pytest", "-q", "-p", "no:cacheprovider", *plugins, *config),
        f"--basetemp={KEPT_PATH}/tmp",
        f"--rootdir={item.config.rootpath}",
        f"--link-seed={seed}",
        item.nodeid,
    ]
    outer = [*HINGE, "run", "--simulated", "--seed", str(seed), "--kept", str(kept_folder), *words]
    has_net = "net" in getattr(item, "fixturenames", ())  # such a test creates hosts itself, and doesn't use its machine's link
    history = [] if has_net else ["--transcript", str(folder / HISTORY)]
    whole = [*outer, *history, "--", *inner]
    settings: dict[str, Any] = {"cwd": item.config.rootpath, "env": names, "stdin": NOTHING, "stdout": PIPE, "stderr": PIPE}
    with begun(whole, text=True, errors="replace", **settings) as process:
        messages = process.communicate()[1].strip()
    path = kept_folder / REPORTS
    text = path.read_text().replace(f"{KEPT_PATH}/", f"{kept_folder}/") if path.exists() else ""
    return MachineResult(process.returncode, messages, [json.loads(line) for line in text.splitlines()])


def report_from(config: pytest.Config, data: dict[str, Any]) -> pytest.TestReport:
    """Returns a report from its JSON form, which lacks tuples."""
    report: pytest.TestReport = config.hook.pytest_report_from_serializable(config=config, data=data)
    if isinstance(report.longrepr, list):
        report.longrepr = tuple(report.longrepr)
    return report


def failed(item: pytest.Item, text: str) -> pytest.TestReport:
    """Returns the report on a test that didn't end in its machine."""
    return pytest.TestReport(item.nodeid, item.location, {name: 1 for name in item.keywords}, "failed", text, "call")


def report_on_link(text: str, seed: int, history: Path) -> str:
    """Returns the machine's messages, with the lost packets and advice for details if there is a history. Without a history, no
    packet used the link, so messages about the link are left out."""
    if not history.exists():
        return "\n".join(line for line in text.splitlines() if not OF_THE_LINK.fullmatch(line))
    return "\n".join([text, *dropped_in_history(history), closing(seed, audited(history), history)])


def reports(item: pytest.Item, mark: pytest.Mark, links: list[str], seed: int) -> list[pytest.TestReport]:
    """Runs a test in a machine; returns its reports. A failed test's report describes the link, and the folder with the test's
    files remains."""
    folder = Path(tempfile.mkdtemp(prefix="hinge-test-", dir=temporary_place()))
    run = run_in_machine(item, [*links, *options_of_mark(mark)], seed, folder)
    result = [report_from(item.config, data) for data in run.reports]
    if all(report.when == "setup" and report.passed for report in result):
        result.append(failed(item, f"the simulated machine ended with {run.status} before the test had"))
    failures = [report for report in result if report.failed]
    for report in failures:
        report.sections.append(("simulated run", lines(report_on_link(run.messages, seed, folder / HISTORY))))
    if not failures or not any(path.is_file() for path in folder.rglob("*")):
        shutil.rmtree(folder, ignore_errors=True)
    return result
