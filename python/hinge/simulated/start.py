"""Starts a `hinge` command again in a simulated machine, and reports on the run."""

from __future__ import annotations

import errno
import json
import shutil
import signal
import threading
from contextlib import contextmanager
from pathlib import Path
from typing import TYPE_CHECKING, Any, Iterator, NamedTuple, Optional, Union

from hinge.border.scratch import scratch
from hinge.border.programs import CANNOT_EXECUTE
from hinge.command import NOT_FOUND, say
from hinge.outputs import writing, written
from hinge.run.plan_of_options import drawn_seed
from hinge.run.settings import NetOptions, RunOptions, SimulatedOptions
from hinge.run.system import Missing
from hinge.run.words import Wrong
from hinge.run.processes import SIGNALLED
from hinge.run.summary import FORMAT
from hinge.run.transcripts import KEPT_PATH, lines_about_files, parts_of
from hinge.simulated.job import Job, environment, limit_in_ns, real_limit_of, refuse_outside, root_of, words_of_net
from hinge.simulated.kernel import Kernel, usable_kernel
from hinge.simulated.likeness import earlier, remarks
from hinge.simulated.link_rooms import LinkRun, link_run
from hinge.simulated.machine import BOOTED, NO_LIFE, NO_CORES, OF_DEADLOCK, TIMED_OUT, Machine, MachineEnded, Settings
from hinge.simulated.pauses import pauses_of
from hinge.simulated.opened_files import files_record
from hinge.simulated.outcome import RunOutcome, Record
from hinge.simulated.places import has_debugger, with_places
from hinge.simulated.streams import has_terminal, is_same_file, read_input
from hinge.simulated.time_options import BEGINNING, date, size
from hinge.simulated.twice import compared
from hinge.simulated.verdict import (
    DEADLOCK,
    DEADLOCKED,
    ITSELF,
    LIMIT,
    LIMITED,
    OUTSIDE,
    REAL_LIMIT,
    SIGNAL,
    MachineVerdict,
    signal_name,
    waits,
)

if TYPE_CHECKING:
    from hinge.simulated.net_machine import NetRun

MACHINE_HISTORY, MACHINE_SUMMARY = "history", "summary"  # names in the folder that outlives a machine
MEMORY = "1G"
InRooms = Union[LinkRun, "NetRun"]


def settings_of(options: SimulatedOptions, seed: int) -> Settings:
    at = date(BEGINNING) if options.at is None else options.at
    memory = options.memory or size(MEMORY)
    cpu = options.cpu or "stable"
    scratch = options.scratch or options.twice
    pauses = pauses_of(options.pauses, seed)
    cores = OF_DEADLOCK if has_debugger() else NO_CORES
    return Settings(seed, at, memory, cpu, scratch, pauses, limit_in_ns(options), root_of(options), cores=cores)


def inside(options: NetOptions, seed: int) -> NetOptions:
    """Returns the options with which Python runs a net with disks inside the machine. Any user may use a link there, and a
    transcript is always a new file, copied at the end, since an existing file could influence the run. The launcher's options are
    left out: the words are in the programs' memory, and mustn't change the run."""
    ours = dict.fromkeys(("kept", "pauses", "real_limit", "limit", "like", "root"))
    files = {"transcript": transcript_of(options), "json": f"{KEPT_PATH}/{MACHINE_SUMMARY}"}
    return options.but(seed=seed, realtime=True, twice=False, clean_env=False, **files, **ours)


def transcript_of(options: SimulatedOptions) -> Optional[str]:
    """Returns the path of the run's transcript in the machine, if any."""
    return f"{KEPT_PATH}/{MACHINE_HISTORY}" if options.transcript or options.twice else None


class Planned(NamedTuple):
    """Describes a planned run in a machine. A net with disks has no rooms here, since Python creates its rooms in the machine."""

    options: SimulatedOptions
    seed: int
    settings: Settings
    rooms: Optional[InRooms]

    def job(self, inputs: Path, is_one_stream: bool) -> Job:
        """Returns the machine's job; `inputs` is the file with its standard input."""
        names = environment(self.options.clean_env)
        if self.rooms:
            return Job(self.options.command, inputs, is_one_stream, names, self.rooms.texts())
        assert isinstance(self.options, NetOptions)
        return Job(words_of_net(inside(self.options, self.seed)), inputs, is_one_stream, names)


def planned(options: SimulatedOptions) -> Planned:
    """Plans a run with these options, and draws a seed unless given. Wrong: there is --root with disks."""
    seed = drawn_seed(options.seed)
    rooms: Optional[InRooms] = None
    if isinstance(options, RunOptions):
        rooms = link_run(options, seed, transcript_of(options))
    elif isinstance(options, NetOptions):
        from hinge.simulated.net_machine import net_run  # `hinge run` doesn't need this module

        rooms = net_run(options, seed, transcript_of(options))
    if options.root and rooms is None:
        raise Wrong("--root: disks need Python and the kit in the machine")
    return Planned(options, seed, settings_of(options, seed), rooms)


@contextmanager
def ending(machines: "list[Machine]") -> Iterator[list[int]]:
    """Yields the list of the signals that come (SIGINT, SIGTERM and SIGHUP). Each signal also kills the machines."""
    signals: list[int] = []

    def end(number: int, frame: object) -> None:
        signals.append(number)
        for machine in machines:
            machine.end(SIGNALLED + number)

    earlier_handlers = {number: signal.signal(number, end) for number in (signal.SIGINT, signal.SIGTERM, signal.SIGHUP)}
    try:
        yield signals
    finally:
        for number, handler in earlier_handlers.items():
            signal.signal(number, handler)


def hand_over(machine: Machine, transcript: Optional[str]) -> None:
    """Copies the transcript to the user's path, even if it is incomplete."""
    store = machine.room.kept
    count = len(list(store.glob(f"{MACHINE_HISTORY}*")))
    if transcript and count:
        for part, target in zip(parts_of(str(store / MACHINE_HISTORY), count), parts_of(transcript, count)):
            with written(target) as place:
                shutil.copyfile(part, place)
        for line in lines_about_files(transcript, count):
            say(line)


def verdict_of(machine: Machine, rooms: Optional[InRooms], summary: "dict[str, Any]") -> Optional[MachineVerdict]:
    """Returns the verdict on the program: how the program ended, or why it didn't. None: the program didn't start."""
    if machine.cut is not None:
        stood = machine.stood()
        moment_of_kill = stood.now / 1e9 if stood else None
        if machine.cut == TIMED_OUT:
            return MachineVerdict(REAL_LIMIT, machine.cut, None, moment_of_kill)
        return MachineVerdict(OUTSIDE, machine.cut, signal_name(machine.cut - SIGNALLED), moment_of_kill)
    endings = machine.ended()
    if endings and endings.cut:
        moment, threads = waits(machine.folder / "waits", BOOTED * 10**9)
        if endings.cut == NO_LIFE:
            return MachineVerdict(DEADLOCK, DEADLOCKED, None, moment, with_places(threads, machine.folder, machine.root))
        return MachineVerdict(LIMIT, LIMITED, None, endings.simulated / 1e9, threads)
    if rooms:
        return rooms.ended(machine.folder)
    return MachineVerdict(ITSELF, summary["status"]) if isinstance(summary.get("status"), int) else None


def result_until_deadlock(endings: MachineEnded, verdict: Optional[MachineVerdict]) -> MachineEnded:
    """Returns the machine's result; after a deadlock, the simulated time is the deadlock's moment."""
    if verdict is None or verdict.by != DEADLOCK or verdict.at is None:
        return endings
    return endings._replace(simulated=round(verdict.at * 1e9))


def messages_of_end(verdict: MachineVerdict, options: SimulatedOptions) -> Iterator[str]:
    """Yields messages about a program that didn't end by itself, except if somebody ended the run from outside."""
    if verdict.by == REAL_LIMIT:
        yield f"it was ended after {real_limit_of(options):g} s of real time, by --real-limit"
    elif verdict.by != OUTSIDE:
        yield from verdict.lines()


class Reported(NamedTuple):
    """Holds a run's result: status, verdict, and the record for the summary."""

    status: int
    verdict: Optional[MachineVerdict]
    record: Record


def has_begun(machine: Machine, options: SimulatedOptions, verdict: MachineVerdict) -> bool:
    """Returns whether the command could be executed. A shell executes a net's commands, and reports a failure by its status."""
    is_of_shell = isinstance(options, NetOptions) and verdict.by == ITSELF
    return machine.has_begun and not (is_of_shell and verdict.status in (CANNOT_EXECUTE, NOT_FOUND))


def summary_of(machine: Machine) -> "dict[str, Any]":
    """Returns the summary that was written in the machine; otherwise an empty dict."""
    path = machine.room.kept / MACHINE_SUMMARY
    result = json.loads(path.read_text()) if path.exists() else {}
    return result if isinstance(result, dict) else {}


def reported(machine: Machine, plan: Planned, kernel: Kernel, files: bool, is_told: bool = True) -> Reported:
    """Prints the report on a run, and returns the result, whose record contains the opened files if `files`. If not `is_told`,
    prints no report on links and the program's end. Missing: the kernel doesn't support pauses, or the machine failed early."""
    options = plan.options
    settings = plan.settings
    endings = machine.ended()
    if (machine.folder / "fault").exists() or (endings is None and machine.cut is None):
        raise machine.fault()
    rooms = plan.rooms if (machine.folder / "ran").exists() else None
    verdict = verdict_of(machine, rooms, summary_of(machine))
    is_cut = verdict is not None and verdict.by not in (ITSELF, SIGNAL)
    status = endings.status if endings else 0
    if machine.cut is not None:
        status = machine.cut
    if rooms:
        status = rooms.report(machine.folder, machine.room.kept / MACHINE_SUMMARY, verdict, say if is_told else lambda line: None)
    if is_cut and verdict:
        status = verdict.status
    for line in messages_of_end(verdict, options) if is_cut and verdict and is_told else ():
        say(line)
    record: Record = {"format": FORMAT, "seed": plan.seed, **summary_of(machine)}
    if is_cut:
        record["status"] = status
    if verdict and has_begun(machine, options, verdict):
        record["ended"] = verdict.record()
    if endings:
        outcome = RunOutcome.of(machine, result_until_deadlock(endings, verdict), settings)
        if settings.pauses and not outcome.pauses:
            raise Missing("--pauses: this kernel has none; `hinge kernel` builds one that has")
        for line in outcome.lines() if not options.quiet else []:
            say(line)
        record.update(outcome.record(kernel))
    if files:
        record.update(files_record(machine.folder, machine.root))
    return Reported(status, verdict, record)


def report_of_machine(machine: Machine, plan: Planned, kernel: Kernel) -> int:
    """Copies the transcript, reports on a run, and writes the summary; returns the run's status. OSError: some output couldn't be
    written, such as to a full disk."""
    options = plan.options
    hand_over(machine, options.transcript)
    fault = machine.lost()
    if fault and fault.errno != errno.EPIPE:
        raise fault
    result = reported(machine, plan, kernel, bool(options.json or options.like))
    stood = machine.stood() if machine.cut == TIMED_OUT else None
    if stood:
        say(stood.line())
    if options.like and machine.cut is None:
        for line in remarks(options.like, earlier(options.like), result.record):
            say(line)
    if options.json and (result.verdict or "status" in result.record):
        with writing(options.json) as file:
            file.write(json.dumps(result.record, indent=1) + "\n")
    return result.status


def run_simulated(options: SimulatedOptions) -> int:
    """Runs a link or a net in simulated time, and with --twice a second time beside; returns the status."""
    refuse_outside(options, has_terminal())
    if options.like:
        earlier(options.like)  # a wrong file is reported before a machine starts
    limit = real_limit_of(options)
    kernel = usable_kernel()
    plan = planned(options)
    machines = list[Machine]()
    with scratch() as place, ending(machines) as signals:
        read_input(place / "in")
        job = plan.job(place / "in", is_same_file(1, 2) and not options.twice)
        try:
            for folder in [options.kept, None] if options.twice else [options.kept]:
                machines.append(Machine(kernel, plan.settings, job, folder))
            if signals:
                return SIGNALLED + signals[0]
            machines[0].copy_to(1, 2, keeps=options.twice)
            others = [threading.Thread(target=machine.wait, args=(limit,)) for machine in machines[1:]]
            for other in others:
                other.start()
            machines[0].wait(limit)
            for other in others:
                other.join()
            status = report_of_machine(machines[0], plan, kernel)
            return compared(machines, status, plan.seed) if options.twice else status
        finally:
            for machine in machines:
                machine.remove()
