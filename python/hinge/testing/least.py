"""Repeats a test in simulated time, in the same process, with other faults and seeds: to shrink a failure's faults to the fewest,
as `hinge search` does, and to search for faults with which a passing test fails."""

from __future__ import annotations

from dataclasses import dataclass
from random import Random
from typing import Any, Iterator, Optional, Sequence

import pytest
from _pytest.runner import runtestprotocol

from hinge.fault_lines import Drawn, Faults, read_faults
from hinge.faults import some_faults
from hinge.pytest_plugin import LINKS, TRIED
from hinge.searches.case import Case, Part, least
from hinge.testing.emulated import SimulatedPath
from hinge.testing.marks import Variation, variation_of, vary_of

LEAST = "least faults"  # the title of a report's section
SEARCHED = "hingetulip searched"  # the key of a report's property
ALL = {"delay": "5..100ms", "jitter": "80ms", "phase": "1s", "drift": "100ppm", "skew": "2s", "duplicates": "2%", "cuts": "1..3s"}
VARIATIONS = variation_of({"jitter": "300ms"}), variation_of(ALL)  # the variations of tests without a mark `vary`, in turn


@dataclass(frozen=True)
class Trial:
    """Describes a run of a test. `faults` replace the links' losses and the seed's draws; `seed` and `variation` replace the
    command line's seed and the mark's variation, if given."""

    faults: Optional[Faults] = None
    seed: Optional[int] = None
    variation: Optional[Variation] = None

    def __str__(self) -> str:
        return "hypothesis" if self.seed is None else f"seed {self.seed} ({self.variation})"


def trial_of(item: pytest.Item) -> Trial:
    """Returns the trial that a shrinking or a search is making of a test; otherwise a trial with the command line's faults."""
    if TRIED in item.stash:
        return item.stash[TRIED]
    path = item.config.getoption("--link-faults")
    return Trial() if path is None else Trial(read_faults(path))


def failure(reports: Sequence[pytest.TestReport]) -> Optional[pytest.TestReport]:
    """Returns the report on the test's body, if the body failed."""
    return next((report for report in reports if report.when == "call" and report.failed), None)


def place_of(report: Optional[pytest.TestReport]) -> Optional[str]:
    """Returns the file and line of a test's failure, if any. Runs that fail at the same place count as the same failure."""
    crash = getattr(getattr(report, "longrepr", None), "reprcrash", None)
    return None if crash is None else f"{crash.path}:{crash.lineno}"


class Trials:
    """Runs a test any number of times, without a report to the user."""

    def __init__(self, item: pytest.Item, nextitem: Optional[pytest.Item]) -> None:
        self.item = item
        self.nextitem = nextitem
        self.count = 0
        self.place: Optional[str] = None  # the place of the failure that trials look for

    def run(self, trial: Optional[Trial] = None) -> list[pytest.TestReport]:
        if trial is not None:
            self.count += 1
            self.item.stash[TRIED] = trial
        try:
            return runtestprotocol(self.item, nextitem=self.nextitem, log=False)
        finally:
            if trial is not None:
                del self.item.stash[TRIED]

    def fails(self, trial: Trial) -> bool:
        """Runs the test with this trial; returns whether the test fails at the same place as in the first failing run."""
        place = place_of(failure(self.run(trial)))
        self.place = self.place or place
        return place is not None and place == self.place

    def network(self) -> SimulatedPath:
        """Returns the simulated network of the last run."""
        return next(link for link in self.item.stash[LINKS] if isinstance(link, SimulatedPath))

    def shrunk(self, trial: Trial) -> Optional[Faults]:
        """Returns the fewest of the last run's faults with which the test still fails. None: these faults alone don't make the test
        fail."""
        verdicts: dict[Case, bool] = {}

        def fails(case: Case) -> bool:
            if case not in verdicts:
                faults = Drawn(*(line for part in case.parts for line in part.what))
                verdicts[case] = self.fails(Trial(faults, trial.seed, trial.variation))
            return verdicts[case]

        whole = Case(0, (), tuple(Part("losses", (str(fault),)) for fault in self.network().chosen()))
        if not fails(whole):
            return None
        return Drawn(*(line for part in least(whole, fails).parts for line in part.what))

    def trial_by_hypothesis(self, runs: int) -> Optional[Trial]:
        """Returns a trial with faults that hypothesis found and shrank, if the test failed in one of about `runs` runs."""
        from hypothesis import HealthCheck, errors, find, settings

        net = self.network().net
        links = [link.name for link in net.links.values() if link.came]
        hosts = [host.name for host in dict.fromkeys(net.hosts.values()) if host.programs]
        kinds = some_faults(*links, packets=min(60, max(link.came for link in net.links.values())))
        if hosts:
            kinds |= some_faults(*links, hosts=hosts, seconds=max(1, int(net.loop.time())))
        options: Any = settings(max_examples=runs, database=None, deadline=None, suppress_health_check=list(HealthCheck))
        try:
            return Trial(find(kinds, lambda faults: self.fails(Trial(faults)), settings=options, random=Random(1)))
        except errors.NoSuchExample:
            return None

    def trials_by_seeds(self, runs: int) -> Iterator[Trial]:
        """Yields a trial for each seed, with the mark's variation or otherwise with VARIATIONS in turn."""
        own = vary_of(self.item)
        for seed in range(1, runs + 1):
            yield Trial(seed=seed, variation=own if str(own) else VARIATIONS[seed % len(VARIATIONS)])

    def failing_trial(self, runs: int) -> Optional[Trial]:
        """Returns a trial with which a passing test fails: with hypothesis's faults, or otherwise with a seed. None: no packet came
        to a link, or each trial passes."""
        if not any(link.came for link in self.network().net.links.values()):
            return None
        trial = self.trial_by_hypothesis(runs)
        if trial is not None:
            return trial
        return next((trial_of_seed for trial_of_seed in self.trials_by_seeds(runs) if self.fails(trial_of_seed)), None)


def text_of(faults: Faults, count: int, trials: Trials) -> str:
    return f"{faults}fails by {len(faults)} of {count} faults, found in {trials.count} runs"


def reports_with_least(item: pytest.Item, nextitem: Optional[pytest.Item]) -> list[pytest.TestReport]:
    """Runs a test; returns the reports. The report on a failure lists the fewest faults with which the test fails."""
    trials = Trials(item, nextitem)
    result = trials.run()
    report = failure(result)
    trials.place = place_of(report)
    if report is not None and trials.place is not None:
        count = len(trials.network().chosen())
        faults = trials.shrunk(Trial())
        text = "no such failure by these faults alone" if faults is None else text_of(faults, count, trials)
        report.sections.append((LEAST, text))
    return result


def reports_of_search(item: pytest.Item, nextitem: Optional[pytest.Item], runs: int) -> list[pytest.TestReport]:
    """Runs a test; returns the reports. If the test passes, searches for faults with which the test fails, and returns the reports
    on a run with the fewest such faults."""
    trials = Trials(item, nextitem)
    result = trials.run()
    if not all(report.passed for report in result):
        return result if failure(result) is None else reports_with_least(item, nextitem)
    trial = trials.failing_trial(runs)
    if trial is None:
        body = next(report for report in result if report.when == "call")
        body.user_properties.append((SEARCHED, f"no failure in {trials.count} runs"))
        return result
    if trial.faults is None:
        trial = Trial(trials.shrunk(trial), trial.seed, trial.variation)
    result = trials.run(trial)
    report = failure(result)
    if report is not None and trial.faults is not None:
        summary = f"{', '.join(map(str, trial.faults))}: by {trial}, {trials.count} runs"
        report.sections.append((LEAST, f"{trial.faults}found by {trial} in {trials.count} runs"))
        report.user_properties.append((SEARCHED, summary))
    return result
