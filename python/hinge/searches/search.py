"""A search: its runs, and the first failure's least case."""

from __future__ import annotations

import json
import shlex
from pathlib import Path
from typing import Any, Iterator, Optional

from hinge.border.scratch import SignalEnd
from hinge.border.terminal import several, show
from hinge.command import Fault, say
from hinge.outputs import writing
from hinge.searches.case import Case, case_of, least
from hinge.searches.cause import Lost, cause_lines, lines_of_losses, losses_in, repetition_of
from hinge.searches.runs import RunFiles, Runner, Runs, SearchSettings, command_words
from hinge.simulated.failures import NET_KEY, WORDS_KEY
from hinge.simulated.start import MACHINE_HISTORY

FAILED, NOT_AGAIN = 1, 76


def write_failure(path: str, words: "list[str]", net: Optional[str], record: "dict[str, Any]") -> None:
    """Writes the failure's file, which repeats a run: the command's words, the net's text if there is a net, and the run's
    summary."""
    lines = {} if net is None else {NET_KEY: net.splitlines()}
    with writing(path) as file:
        file.write(json.dumps({WORDS_KEY: words, **lines, **record}, indent=1) + "\n")


def show_runs(runs: Runs, numbers: "list[int]") -> "list[int]":
    """Prints a line for each failed or void run, and counts; returns the seeds of the failed runs."""
    seeds_with_run = runs.made(numbers)
    failures = list[int]()
    remarks = dict[str, list[int]]()
    for seed in seeds_with_run:
        run = runs.of(seed)
        for remark in run.remarks():
            remarks.setdefault(remark, []).append(seed)
        if run.failed or run.record.get("void"):
            show(f"seed {seed}: {run.told()}")
        if run.failed:
            failures.append(seed)
    rest = len(numbers) - len(seeds_with_run)
    text = f"{len(failures)} of {len(seeds_with_run)} runs failed"
    show(f"{text}, {rest} more are left" if rest else text)
    for remark, seeds in remarks.items():
        say(f"{remark} in {len(seeds)} of {len(seeds_with_run)} runs, first by seed {seeds[0]}")
    return failures


def cases_of(runner: Runner, seed: int, record: "dict[str, Any]") -> "Iterator[Case]":
    """Yields a failing seed's case in two forms: losses are single lost packets, if possible, and then the words for losses."""
    losses: "list[Optional[list[Lost]]]" = []
    what, pauses = runner.settings.what, runner.settings.pauses
    runner.run(what, seed, pauses, RunFiles(transcript=MACHINE_HISTORY), lambda machine: losses.append(losses_in(what, machine)))
    if losses[0] is not None:
        yield case_of(what, seed, record, list(lines_of_losses(what, losses[0])))
    yield case_of(what, seed, record)


def smallest(runs: Runs, seed: int) -> "tuple[Case, int]":
    """Returns a failing seed's least case, and the number of runs. Fault: the seed doesn't fail in the same way with listed faults
    and pauses."""
    runner = runs.runner
    failure = runs.of(seed)
    verdicts = dict[Case, bool]()

    def fails(case: Case) -> bool:
        if case not in verdicts:
            verdicts[case] = runner.case(case).name == failure.name
            say(f"seed {seed}, run {len(verdicts)}: {case.told()}: {'fails' if verdicts[case] else 'no such failure'}")
        return verdicts[case]

    whole = next(filter(fails, cases_of(runner, seed, failure.record)), None)
    if whole is None:
        line = command_of(runner.settings, runner.settings.what, seed, runner.settings.pauses)
        raise Fault(f"seed {seed} fails, but not with its faults as lines and its pauses one by one: {line}", NOT_AGAIN)
    return least(whole, fails), len(verdicts)


def command_of(options: SearchSettings, what: "list[str]", seed: int, pauses: Optional[str]) -> str:
    return shlex.join(["hinge", *command_words(options, what, seed, pauses)])


def tell_least(runner: Runner, name: str, case: Case, count: int, file: Path) -> None:
    """Writes the file that repeats the least case, and prints the case, the cause and the file's name."""
    options = runner.settings
    look = repetition_of(runner, case)
    if options.net is None:
        what = ["run", *case.options()]
        net: Optional[str] = None
        lines = [command_of(options, what, case.seed, case.pauses())]
    else:
        what = ["net", str(options.net), "--quiet"]
        net = case.net()
        lines = case.faults()
    write_failure(str(file), command_words(options, what, case.seed, case.pauses()), net, look.ran.record)
    for line in lines:
        show(line)
    for line in cause_lines(runner, case, look):
        show(line)
    show(f"seed {case.seed} fails by {name} with {case.told()}, found in {several(count, 'run')}")
    is_sure = look.ran.record.get("repeatable")
    repeats = "repeats it, here and elsewhere" if is_sure else "may repeat it: the run says why it may differ"
    show(f"hinge {what[0]} --like {shlex.quote(str(file))} {repeats}")


def search(options: SearchSettings, seeds: list[int], at_a_time: int, failure: Path, folder: Path) -> int:
    """Makes the seeds' runs, and shrinks the first failure. Returns the exit status, which shows whether a run failed."""
    runs = Runs(folder, Runner(options))
    try:
        runs.make_all(seeds, at_a_time)
    except (KeyboardInterrupt, SignalEnd):
        show_runs(runs, seeds)
        raise
    failures = show_runs(runs, seeds)
    if not failures:
        return 0
    case, count = smallest(runs, failures[0])
    tell_least(runs.runner, runs.of(failures[0]).name, case, count, failure)
    return FAILED
