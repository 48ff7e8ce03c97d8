"""The final report of a pytest run: real calls, failing seeds of a sweep, and a warning if no packet was ever disturbed."""

from __future__ import annotations

import re
import sys
from collections import Counter
from dataclasses import dataclass, field
from typing import Any, Mapping, Optional, Sequence

import pytest

from hinge.testing.marks import allowed_of, shared_words, vary_of

NAME, REAL, SHARED = "hingetulip", "hingetulip real", "hingetulip shared"  # the keys of a report's properties
MOST_SEEDS = 12  # the number of failing seeds that a row lists
UNDISTURBED = "in no test was a packet lost, late or out of order: let links lose packets, as 'loss 1%', or use the mark vary"


def told(calls: Mapping[str, int]) -> str:
    """Returns the number of real calls as text, such as `2 calls were real: connect 2`."""
    count = sum(calls.values())
    text = f"{count} {'call was' if count == 1 else 'calls were'} real"
    if not calls:
        return text
    numbers = ", ".join(f"{name} {number}" for name, number in calls.items())
    return f"{text}: {numbers}"


def reals() -> list[tuple[str, Any]]:
    """Returns a property for a test's report with the process's real calls since the last report, if anything ran in simulated
    time."""
    module = sys.modules.get("hingetulip.aio.real")  # which a suite without links needn't import
    if module is None:
        return []
    whole = module.OF_PROCESS.taken()
    if not whole.runs:
        return []
    return [(REAL, {"calls": dict(whole.calls), "refused": whole.refused, "unwatched": module.UNWATCHED})]


def refused_reals(item: pytest.Item, calls: Mapping[str, int]) -> str:
    """Returns the reason why a test fails whose real calls no mark `real` allows; an empty text without such calls. Warns of names
    in the marks that no real call contains."""
    names = allowed_of(item)
    rest = {call: count for call, count in calls.items() if not any(name in call for name in names)}
    for name in names:
        if not any(name in call for call in calls):
            item.warn(pytest.PytestWarning(f"the mark real allows {name!r}, and no call that was real has that name"))
    if not rest:
        return ""
    sample = next(iter(rest)).split(" ")[0]
    return f"{told(rest)}; if that may be, write @pytest.mark.real({sample!r}), or set `real` of the network"


def row_of(item: pytest.Item, seed: int, links: Sequence[Any]) -> list[tuple[str, Any]]:
    """Returns a property with the test's row for the table, if the test's simulated network carried a packet."""
    states = [link.is_disturbed() for link in links if hasattr(link, "is_disturbed")]
    if not states or states[0] is None:
        return []
    parameters = dict(getattr(getattr(item, "callspec", None), "params", {}))
    is_swept = "link_seed" in parameters or bool(str(vary_of(item)))
    parameters.pop("link_seed", None)
    texts = [re.sub(" at 0x[0-9a-f]+", "", f"{name} {value}") for name, value in parameters.items()]  # in each process alike
    others = f" with {', '.join(texts)}" if texts else ""
    name = f"{item.nodeid.partition('[')[0]}{others}"
    return [(NAME, {"name": name, "seed": seed, "is_swept": is_swept, "is_disturbed": states[0], "varied": str(vary_of(item))})]


def met_of(item: pytest.Item, links: Sequence[Any]) -> list[tuple[str, Any]]:
    """Returns a property about the marks of a test's class or module: for each word, the mark's place, the word, and the reasons
    why the word had no effect. No reason: the word had an effect."""
    words = shared_words(item) if any(hasattr(link, "is_disturbed") for link in links) else {}
    rows = [(node, word, [line for link in links for line in link.unmet_words([word])]) for word, node in words.items()]
    return [(SHARED, rows)] if rows else []


@dataclass
class Sweep:
    """Holds the seeds of a test's runs, and the failing seeds."""

    varied: str
    seeds: list[int] = field(default_factory=list)
    failed: list[int] = field(default_factory=list)

    def text(self) -> str:
        """Returns a text such as `2 of 20 seeds failed: 3, 7`."""
        text = f"{len(self.failed)} of {len(self.seeds)} seeds failed"
        if self.failed:
            text += f": {', '.join(map(str, sorted(self.failed)[:MOST_SEEDS]))}"
        if len(self.failed) > MOST_SEEDS:
            text += f" and {len(self.failed) - MOST_SEEDS} more"
        return f"{text} ({self.varied})" if self.varied else text


class Table:
    """Collects properties from the reports of tests, including pytest-xdist's workers, and prints the table."""

    def __init__(self) -> None:
        self.sweeps: dict[str, Sweep] = {}
        self.is_disturbed: Optional[bool] = None
        self.tests = 0
        self.calls = Counter[str]()
        self.refused = 0
        self.unwatched = list[str]()
        self.searched: dict[str, str] = {}  # the result of the search for each test
        # Why a word in a module's or class's mark had no effect in any test; an empty list if the word had an effect.
        self.shared = dict[tuple[str, str], list[str]]()

    def pytest_runtest_logreport(self, report: pytest.TestReport) -> None:
        properties: dict[str, Any] = dict(report.user_properties)
        is_passed_call = report.when == "call" and report.passed
        real = properties.get(REAL)
        if real:
            self.tests += 1 if report.when == "call" else 0
            self.calls.update(real["calls"])
            self.refused += real["refused"]
            self.unwatched = self.unwatched or real["unwatched"]
        if "hingetulip searched" in properties:
            self.searched[report.nodeid] = properties["hingetulip searched"]
        rows_of_marks = properties.get(SHARED, ()) if is_passed_call else ()
        for node, word, reasons in rows_of_marks:
            self.shared[node, word] = self.shared.get((node, word), reasons) if reasons else []
        row = properties.get(NAME) if report.when == "call" else None
        if not isinstance(row, dict):
            return
        self.is_disturbed = bool(self.is_disturbed) or row["is_disturbed"]
        if row["is_swept"]:
            sweep = self.sweeps.setdefault(row["name"], Sweep(row["varied"]))
            sweep.seeds.append(row["seed"])
            if report.failed:
                sweep.failed.append(row["seed"])

    def pytest_sessionfinish(self, session: Any) -> None:
        """Fails the session if a module's or class's mark had no effect in any test."""
        if any(self.shared.values()) and not session.exitstatus and not hasattr(session.config, "workerinput"):
            session.exitstatus = pytest.ExitCode.TESTS_FAILED

    def pytest_terminal_summary(self, terminalreporter: Any) -> None:
        lines = [f"{name}: {sweep.text()}" for name, sweep in self.sweeps.items() if len(sweep.seeds) > 1 or sweep.varied]
        lines += [
            f"{node}: what met nothing in all its tests: {why}" for (node, _), whys in self.shared.items() for why in whys[:1]
        ]
        if self.is_disturbed is False:
            lines.append(UNDISTURBED)
        if self.tests:
            refused = [f"{self.refused} {'was' if self.refused == 1 else 'were'} refused"] if self.refused else []
            lines.append(f"{self.tests} in simulated time: {'; '.join([told(self.calls), *refused, *self.unwatched])}")
        lines += [f"{name}: {text}" for name, text in self.searched.items()]
        if lines:
            terminalreporter.section("emulated links")
            terminalreporter.write("".join(f"{line}\n" for line in lines))
