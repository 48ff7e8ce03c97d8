"""A search's runs. Each run is a file in the search's folder, complete or missing, so that any job scheduler can make runs."""

from __future__ import annotations

from concurrent.futures import FIRST_COMPLETED, Future, ThreadPoolExecutor, wait
from pathlib import Path
from typing import Any, Callable, Iterator, NamedTuple, Optional, Sequence

from hinge.border.files import read_object
from hinge.border.scratch import scratch, undisturbed
from hinge.command import ROWS, Bar, Fault
from hinge.outputs import write_json
from hinge.commands import net, run
from hinge.run.settings import SimulatedOptions
from hinge.searches.case import Case
from hinge.simulated.failures import file_beside
from hinge.simulated.job import real_limit_of, refuse_outside
from hinge.simulated.kernel import usable_kernel
from hinge.simulated.machine import NO_CORES, SIGNALLED, Machine
from hinge.simulated.start import planned, reported

NO_RUN = "no run of a search"
OUTPUT = 10_000  # the number of characters that are kept of a run's output, from the end
REFUSED = 6
WELL = "status 0"  # the name of a run that ended well
LOOK_EACH = 0.5  # s: the longest wait for a run, as Python handles a signal that comes just before a wait after the wait
LONGEST = "86400s"  # the simulated time after which a run is ended without --limit


class SearchSettings(NamedTuple):
    """The parameters that all runs of a search share."""

    what: "list[str]"  # `net FILE`, or `run` with its options
    pauses: Optional[str]
    real_limit: Optional[str]
    limit: Optional[str]
    command: "list[str]"

    @property
    def net(self) -> Optional[Path]:
        return Path(self.what[1]) if self.what[0] == "net" else None


class RunFiles(NamedTuple):
    """Holds settings for a run whose machine a search examines afterwards: extra lines for /proc/pauses, the kind of processes that
    leave a core, and the transcript's path."""

    more: "tuple[str, ...]" = ()  # as in Settings
    cores: str = NO_CORES
    transcript: Optional[str] = None


PLAIN = RunFiles()


class SummarizedRun(NamedTuple):
    """Holds a run's status, the end of the output, and the summary."""

    status: int
    output: str
    record: "dict[str, Any]"

    @property
    def has_run(self) -> bool:
        """Returns whether the program started. If a run ended earlier, `hinge` itself refused the run."""
        return isinstance(self.record.get("ended"), dict)

    @property
    def name(self) -> str:
        """Returns how the program ended, or why it didn't: two runs with the same name fail in the same way."""
        return str(self.record["ended"]["name"]) if self.has_run else ""

    @property
    def failed(self) -> bool:
        """Returns whether the run failed. A void run doesn't count as a failure."""
        return self.has_run and not self.record.get("void") and self.name != WELL

    def remarks(self) -> "list[str]":
        """Returns warnings about the run: commands that failed although the program ended well, and a repetition that may
        differ."""
        lines = list[str]()
        commands = {"the server": self.record.get("server"), **(self.record.get("hosts") or {})}
        for name, end in commands.items():
            if end and end["by"] == "itself" and end["status"] and not self.failed:
                lines.append(f"{name} ended with {end['status']} by itself")
        if self.has_run and self.record.get("repeatable") is False:
            lines.append("a second run may differ")
        return lines

    def told(self) -> str:
        """Returns the run's end and the last line of output."""
        void = "void: " if self.record.get("void") else ""
        return f"{void}{self.name or f'status {self.status}'}: {self.last_line()}".rstrip(": ")

    def last_line(self) -> str:
        return (self.output.splitlines() or [""])[-1]


def command_words(settings: SearchSettings, what: "Sequence[str]", seed: int, pauses: Optional[str]) -> "list[str]":
    """Returns the command line that runs a net or `run` with its options (`what`), with this seed and these pauses."""
    options = ["--simulated", "--scratch", "--seed", str(seed)]
    options += ["--pauses", pauses] if pauses else []
    options += ["--limit", settings.limit] if settings.limit else []
    options += ["--real-limit", settings.real_limit] if settings.real_limit else []
    return [*what, *options, *(["--", *settings.command] if settings.command else [])]


Look = Callable[[Machine], None]  # examines a machine after its run, before its folder is removed


def simulated_options(words: "Sequence[str]") -> SimulatedOptions:
    """Returns the options in a `hinge` command line, whose first word is `run` or `net`."""
    return run.command_line(words[1:]) if words[0] == "run" else net.command_line(words[1:])


class Runner:
    """Makes runs, each in a separate machine, which is removed with the run's end."""

    def __init__(self, options: SearchSettings) -> None:
        self.settings = options
        self.kernel = usable_kernel()
        self.running = set[Machine]()
        self.is_over = False

    def run(
        self, what: "Sequence[str]", seed: int, pauses: Optional[str], watch: RunFiles = PLAIN, look: Optional[Look] = None
    ) -> SummarizedRun:
        """Returns a new run. `look` is called with the machine after the run, before the machine's files are removed."""
        name, *words = command_words(self.settings, what, seed, pauses)
        options = simulated_options([name, "--quiet", *words])
        options = options.but(limit=options.limit or LONGEST, transcript=watch.transcript)
        refuse_outside(options, False)
        plan = planned(options)
        plan = plan._replace(settings=plan.settings._replace(more=watch.more, cores=watch.cores))
        with scratch() as place:
            (place / "in").touch()
            machine = Machine(self.kernel, plan.settings, plan.job(place / "in", True))
            self.running.add(machine)
            try:
                if self.is_over:
                    machine.end(SIGNALLED)
                machine.wait(real_limit_of(options))
                output = (machine.folder / "out").read_text(errors="replace")
                result = reported(machine, plan, self.kernel, files=True, is_told=False)
                if look:
                    look(machine)
            finally:
                self.running.discard(machine)
                machine.remove()
        return SummarizedRun(result.status, output[-OUTPUT:], result.record)

    def end(self) -> None:
        """Kills the machines of the runs in progress; the caller then ignores these runs."""
        self.is_over = True
        for machine in list(self.running):
            machine.end(SIGNALLED)

    def case(self, case: Case, watch: RunFiles = PLAIN, look: Optional[Look] = None) -> SummarizedRun:
        """Returns a new run with a case's lines, seed and pauses, like `run`."""
        if self.settings.net is None:
            return self.run(["run", *case.options()], case.seed, case.pauses(), watch, look)
        with file_beside(self.settings.net, case.net()) as file:
            return self.run(["net", str(file)], case.seed, case.pauses(), watch, look)


def completed(tasks: "set[Future[None]]") -> "Iterator[Future[None]]":
    """Yields the tasks as they end."""
    while tasks:
        results, tasks = wait(tasks, LOOK_EACH, FIRST_COMPLETED)
        yield from results


class Runs:
    """Describes a search's folder. The file run-SEED.json contains a seed's run."""

    def __init__(self, folder: Path, runner: Runner) -> None:
        self.folder = folder
        self.runner = runner
        folder.mkdir(parents=True, exist_ok=True)

    def path(self, seed: int) -> Path:
        return self.folder / f"run-{seed}.json"

    def make(self, seed: int) -> None:
        """Makes a seed's run and writes its file, unless the search is over. Fault: hinge refused the run."""
        settings = self.runner.settings
        try:
            run_of_seed = self.runner.run(settings.what, seed, settings.pauses)
        except Fault:
            if self.runner.is_over:
                return
            raise
        if self.runner.is_over:
            return
        if not run_of_seed.has_run:
            reason = run_of_seed.last_line().removeprefix(f"hinge {settings.what[0]}: ") or f"status {run_of_seed.status}"
            raise Fault(f"seed {seed}: {reason}", run_of_seed.status or REFUSED)
        try:
            write_json(str(self.path(seed)), run_of_seed._asdict())
        except PermissionError:
            if not self.path(seed).exists():  # else another user made the same run meanwhile
                raise

    def made(self, seeds: "list[int]") -> "list[int]":
        return [seed for seed in seeds if self.path(seed).exists()]

    def of(self, seed: int) -> SummarizedRun:
        """Reads a seed's run. Fault: the file doesn't contain a run."""
        record = read_object(self.path(seed), NO_RUN)
        try:
            return SummarizedRun(int(record["status"]), str(record["output"]), dict(record["record"]))
        except (KeyError, TypeError, ValueError):
            raise Fault(f"{self.path(seed)}: {NO_RUN}", ROWS) from None

    def make_all(self, seeds: "list[int]", at_once: int) -> None:
        """Makes the missing runs of these seeds, `at_once` at a time."""
        missing = [seed for seed in seeds if not self.path(seed).exists()]
        bar = Bar("runs", len(missing))
        with ThreadPoolExecutor(at_once) as pool:
            try:  # the submissions are inside, since the first run may have begun when a signal comes
                for task in completed({pool.submit(self.make, seed) for seed in missing}):
                    task.result()
                    bar.step()
            except BaseException:
                with undisturbed():
                    self.runner.end()
                    pool.shutdown(cancel_futures=True)
                raise
            finally:
                bar.clear()
