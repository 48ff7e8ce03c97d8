"""Provides pytest fixtures: emulated links for tests in real and in simulated time, with a report when a test fails."""

from __future__ import annotations

import argparse
import functools
import inspect
import os
from datetime import datetime, timezone
from pathlib import Path
from typing import TYPE_CHECKING, Callable, Coroutine, Generator, Optional, Union

import pytest

from hinge.testing import async_fixtures, table
from hinge.testing.marks import fault_mark, link_mark, own_words, unused, vary_of

if TYPE_CHECKING:
    from hinge.net import Net
    from hinge.testing.emulated import Emulated, UdpPath
    from hinge.testing.least import Trial
    from hingetulip.aio import Network

MARKS = (
    'link(options, back=options, preset=name): the link of a test, as "8Mbit/s 20ms plr 0.05", and that of the way back if it is another',
    "vary(delay, jitter, phase, drift, skew, duplicates, cuts, one_way_cuts, holds, crashes): what the seed varies in sim_net,"
    " as delay='5..100ms', drift='100ppm'",
    "real(name, ..): what may be real in simulated time, by a part of its name, as real('libpq'); other real calls fail the test",
    "simulated(**options): the test runs in a simulated machine of its own, with options of `hinge run`, as server=COMMAND",
)
INSIDE = "HINGE_TEST_REPORTS"  # in a simulated machine: the file that the reports of its test go to
MakeUdpPath = Callable[..., "UdpPath"]  # (server, there, back, preset=name, seed=number)


def faults_file(path: str) -> str:
    """Checks the faults in a file; returns the file's path. ArgumentTypeError: the file can't be read, or a line is malformed."""
    from hinge.fault_lines import read_faults

    try:
        read_faults(path)
    except (OSError, ValueError) as error:
        raise argparse.ArgumentTypeError(str(error)) from None
    return path


def pytest_addoption(parser: pytest.Parser) -> None:
    group = parser.getgroup("hingetulip")
    group.addoption("--link-seed", type=int, default=1, metavar="N", help="seed of emulated links (default: 1)")
    faults = "the faults of sim_net's links, in the place of their losses"
    group.addoption("--link-faults", type=faults_file, metavar="FILE", help=faults)
    group.addoption("--link-shrink", action="store_true", help="tell the fewest faults with which a test with sim_net fails")
    search = "look for faults with which a test with sim_net fails, by hypothesis and by seeds"
    group.addoption("--link-search", action="store_true", help=search)
    runs = "how many runs of each kind --link-search tries (default: 60)"
    group.addoption("--link-runs", type=int, default=60, metavar="N", help=runs)
    parser.addini("link_start", "when simulated time begins, as 2026-11-30 or 2026-11-30T08:00", default="")


def pytest_configure(config: pytest.Config) -> None:
    config.pluginmanager.register(async_fixtures)
    config.pluginmanager.register(table.Table())
    for mark in MARKS:
        config.addinivalue_line("markers", mark)
    if INSIDE in os.environ:
        from hinge.simulated.one_test import Keeper

        config.pluginmanager.register(Keeper(config, os.environ[INSIDE]))


@pytest.fixture
def link_seed(request: pytest.FixtureRequest) -> int:
    """Returns the seed of this test's links."""
    return int(request.config.getoption("--link-seed"))


@pytest.fixture
def emulated_links(request: pytest.FixtureRequest) -> Generator[list[Emulated], None, None]:
    """Yields the list in which this test's fixtures put their links; after the test, ends and audits the links. The test fails if a
    history isn't lawful, an exception was never caught, or, in real time, a mark had no effect."""
    links: list[Emulated] = []
    request.node.stash[LINKS] = links
    yield links
    for link in links:
        link.finish()
    unlawful = [link for link in links if not (link.verdict or "").startswith("lawful")]
    wrong = [f"the history {link.history} isn't lawful: {link.verdict}" for link in unlawful]
    wrong += [f"nobody took an exception: {exception}" for link in links for exception in link.faults]
    if request.node.stash.get(PASSED, False):  # judge_links judged the links of sim_net together with the test
        links_in_real_time = [link for link in links if not hasattr(link, "is_disturbed")]
        wrong += [f"{UNMET} {line}" for link in links_in_real_time for line in link.unmet()]
        if not links and "link" in own_words(request.node):
            wrong.append(f"{UNMET} the mark link: the test made no link")
    if wrong:
        pytest.fail("\n".join(wrong), pytrace=False)


LINKS = pytest.StashKey["list[Emulated]"]()
PASSED = pytest.StashKey[bool]()
TRIED: pytest.StashKey[Trial] = pytest.StashKey()
UNMET = "what met nothing:"


@pytest.fixture
def udp_path(request: pytest.FixtureRequest, emulated_links: list[Emulated], link_seed: int, tmp_path: Path) -> MakeUdpPath:
    """Returns a function that makes a UDP path in real time: `udp_path(server, there, back=there)`. The server is a local port or
    HOST:PORT; `there` and `back` are the options of the links to and from the server, or otherwise the mark `link`'s."""
    from hinge.testing.emulated import UdpPath
    from hingetulip_words.presets import either_way

    def make(
        server: Union[int, str],
        there: Optional[str] = None,
        back: Optional[str] = None,
        *,
        preset: Optional[str] = None,
        seed: Optional[int] = None,
    ) -> UdpPath:
        own = frozenset[str]()
        if preset is not None:
            there, back = either_way(preset, there, back)
        elif there is None:
            there, back = link_mark(request.node)
            own = own_words(request.node)
        address = f"127.0.0.1:{server}" if isinstance(server, int) else server
        history = f"link{len(emulated_links) + 1}.history"
        if back is None:
            back = there
        path = UdpPath(address, there, back, link_seed if seed is None else seed, tmp_path / history, own)
        emulated_links.append(path)
        return path

    return make


@pytest.fixture
def sim_net(request: pytest.FixtureRequest, emulated_links: list[Emulated], link_seed: int, tmp_path: Path) -> Network:
    """Returns a network of hosts in simulated time."""
    from hinge.testing.emulated import SimulatedPath
    from hinge.testing.least import trial_of
    from hinge.testing.varied import VariedNetwork

    history = tmp_path / "link.history"
    item = request.node
    there, back = link_mark(item)
    trial = trial_of(item)
    seed = link_seed if trial.seed is None else trial.seed
    network = VariedNetwork(trial.variation or vary_of(item), trial.faults, seed=seed, history=history, options=there, back=back)
    start = str(item.config.getini("link_start"))
    if start:
        network.start = datetime.fromisoformat(start).replace(tzinfo=timezone.utc).timestamp()
    emulated_links.append(SimulatedPath(network, history, own_words(item)))
    return network


@pytest.fixture
def net(request: pytest.FixtureRequest, emulated_links: list[Emulated], link_seed: int, tmp_path: Path) -> Net:
    """Returns a net whose hosts run any programs, in real time, or in simulated time for tests with the mark `simulated`. Links
    that the test makes without words have the words of the mark `link`."""
    from hinge.net import Net
    from hinge.testing.emulated import NetOfTest

    there, back = link_mark(request.node)
    net_of_test = Net(tmp_path / "net", seed=link_seed, link=there, back=back)
    emulated_links.append(NetOfTest(net_of_test, own_words(request.node)))
    return net_of_test


@pytest.fixture
def simulated_net(net: Net) -> Net:
    """Returns a net in simulated time. Its test runs in a separate machine, and equal seeds give equal runs."""
    return net


def in_simulated_time(test: Callable[..., Coroutine[object, object, None]]) -> Callable[..., None]:
    """Returns a plain test that runs an asynchronous test in the network of the fixture sim_net."""

    @functools.wraps(test)
    def run(*words: object, sim_net: Network, **keywords: object) -> None:
        sim_net.run(test(*words, sim_net=sim_net, **keywords))

    return run


@pytest.hookimpl(tryfirst=True)  # type: ignore[misc]
def pytest_pycollect_makeitem(collector: pytest.Collector, name: str, obj: object) -> None:
    """Replaces an asynchronous test with sim_net by a plain test in simulated time, which no other plugin runs."""
    if not inspect.iscoroutinefunction(obj) or "sim_net" not in inspect.signature(obj).parameters:
        return
    is_test = getattr(collector, "istestfunction", None)  # of modules and classes
    if is_test is not None and is_test(obj, name):  # a helper stays a coroutine
        setattr(getattr(collector, "obj"), name, in_simulated_time(obj))


@pytest.hookimpl(tryfirst=True)  # type: ignore[misc]
def pytest_runtest_setup(item: pytest.Item) -> None:
    """Fails a test with a wrong word in its marks, and warns of marks without effect: either would leave the test without its
    link."""
    fault = fault_mark(item)
    if fault is not None:
        pytest.fail(fault, pytrace=False)
    for text in unused(item):
        item.warn(pytest.PytestWarning(text))


@pytest.hookimpl(hookwrapper=True)  # type: ignore[misc]
def pytest_runtest_makereport(item: pytest.Item, call: pytest.CallInfo[None]) -> Generator[None, pytest.TestReport, None]:
    """Judges a test's links and real calls; adds them to the report."""
    outcome = yield
    report = outcome.get_result()
    links: list[Emulated] = item.stash.get(LINKS, [])
    if report.when == "call":
        judge_links(item, report, links)
        item.stash[PASSED] = report.passed
        report.user_properties += table.row_of(item, seed_of(item), links) + table.met_of(item, links)
    if report.when != "setup":
        judge_real_calls(item, report)
    if report.when == "call" and report.failed and links:
        from hinge.border.terminal import lines
        from hinge.testing.emulated import report_of_link

        report.sections += [("emulated link", lines(report_of_link(link))) for link in links]
    if report.when == "teardown" and links and not repeats(item):
        del item.stash[LINKS]  # else each test's network stays until the session ends


def judge_links(item: pytest.Item, report: pytest.TestReport, links: list[Emulated]) -> None:
    """Fails a passing test if a fault or a mark's word had no effect in simulated time; otherwise warns of idle parts."""
    if not report.passed or TRIED in item.stash:
        return
    simulated_links = [link for link in links if hasattr(link, "is_disturbed")]
    unmet = [line for link in simulated_links for line in link.unmet()]
    if unmet:
        report.outcome, report.longrepr = "failed", "\n".join([UNMET, *unmet])
        return
    for line in (line for link in simulated_links for line in link.idle()):
        item.warn(pytest.PytestWarning(line))


def judge_real_calls(item: pytest.Item, report: pytest.TestReport) -> None:
    """Adds the real calls to the report, and fails a passing test if no mark allows them."""
    for key, reals in table.reals():
        report.user_properties.append((key, reals))
        if report.passed:
            report.sections.append(("real", table.told(reals["calls"])))
        refusal = table.refused_reals(item, reals["calls"])
        if refusal and report.passed and TRIED not in item.stash:
            report.outcome, report.longrepr = "failed", refusal


def repeats(item: pytest.Item) -> bool:
    """Returns whether an option (--link-shrink, --link-search) may run a test again in the same process."""
    return any(item.config.getoption(option) for option in ("--link-shrink", "--link-search"))


def seed_of(item: pytest.Item) -> int:
    """Returns a test's seed, from its parameter or the command line."""
    parameters = getattr(getattr(item, "callspec", None), "params", {})
    return int(parameters.get("link_seed", item.config.getoption("--link-seed")))


def links_of(item: pytest.Item) -> list[str]:
    """Returns the options of `hinge run` for the words in a test's mark `link`, such as --up and `20ms`."""
    there, back = link_mark(item)
    ways = ("--up", there), ("--down", there if back is None else back)
    return [word for option, text in ways if text.strip() for word in (option, text)]


@pytest.hookimpl(tryfirst=True)  # type: ignore[misc]
def pytest_runtest_protocol(item: pytest.Item, nextitem: Optional[pytest.Item]) -> Optional[bool]:
    """Runs tests that need a simulated machine or several runs. A test with the mark `simulated` or the fixture `simulated_net`
    runs in a simulated machine; with --link-shrink or --link-search, a test with the fixture `sim_net` runs again with other
    faults. Returns None for other tests, which pytest runs; the test's setup reports a wrong mark."""
    mark = item.get_closest_marker("simulated")
    names = getattr(item, "fixturenames", ())
    if mark is None and "simulated_net" in names:
        mark = pytest.mark.simulated.mark
    is_in_machine = mark is not None and INSIDE not in os.environ and fault_mark(item) is None
    if not is_in_machine and not ("sim_net" in names and repeats(item)):
        return None  # a wrong mark is told by the test's setup
    item.ihook.pytest_runtest_logstart(nodeid=item.nodeid, location=item.location)
    for report in reports_of(item, nextitem, mark if is_in_machine else None):
        item.ihook.pytest_runtest_logreport(report=report)
    if LINKS in item.stash:
        del item.stash[LINKS]
    item.ihook.pytest_runtest_logfinish(nodeid=item.nodeid, location=item.location)
    return True


def reports_of(item: pytest.Item, nextitem: Optional[pytest.Item], mark: Optional[pytest.Mark]) -> list[pytest.TestReport]:
    """Runs a test in the machine of its mark `simulated`, or again with other faults; returns the reports."""
    if mark is not None:
        from hinge.simulated.one_test import reports

        return reports(item, mark, links_of(item), seed_of(item))
    from hinge.testing.least import reports_of_search, reports_with_least

    if item.config.getoption("--link-search"):
        return reports_of_search(item, nextitem, item.config.getoption("--link-runs"))
    return reports_with_least(item, nextitem)
