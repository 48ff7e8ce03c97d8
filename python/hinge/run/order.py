"""The order for a run, from the command line: the plan for the link, the outputs and the limits. Also the report at the run's
end."""

from __future__ import annotations

import os
from typing import TYPE_CHECKING, Any, Callable, Iterable, NamedTuple, Optional, Protocol, Sequence

from hinge.command import FILES, NOT_FOUND, say
from hinge.outputs import write_json
from hinge.run.plan_of_options import draws, drawn_seed, limit_of, plan_of
from hinge.run.page import NOT_ALLOWED, Counts, Page
from hinge.run.plan import Plan
from hinge.run.processes import Ended, Mask
from hinge.run.settings import LiveOptions, RecordOptions
from hinge.run.summary import VOID, line, record
from hinge.run.system import is_simulated
from hinge.run.transcripts import lines_about_files
from hinge.run.verdict import Waits, verdict
from hinge.run.words import duration

if TYPE_CHECKING:
    from hinge.run.control import Control, Enter, Record


class CountedPage(Protocol):
    """Describes an object that returns a link's counts, during the run or at its end."""

    def read(self) -> Counts:
        ...


class RunOrder(NamedTuple):
    """Describes a run according to the command line."""

    options: LiveOptions
    plan: str  # the text for hinge-link
    limit: Optional[float]  # ms, from --late
    seed: int
    draws: bool  # whether the links draw random numbers from the seed
    mask: Mask  # the signals that started programs block
    server_wait: float  # s until the server has to listen
    server_end: float  # s until the server has to end after SIGTERM
    link_plan: Plan  # the object that wrote the text, and to which `hinge change` adds

    def control(self, page: Page, status: Callable[[], Record], enter: Optional[Enter] = None) -> Optional[Control]:
        """Opens the socket from --control and returns the object that answers there; None without the option."""
        if not self.options.control:
            return None
        from hinge.run.control import Control  # which other runs don't load, as they start sooner

        if enter is None:
            return Control(self.options.control, self.link_plan, page, self.link_plan.read, status)
        return Control(self.options.control, self.link_plan, page, self.link_plan.read, status, enter)


def run_order(options: LiveOptions, longest: int, mask: Mask, server_wait: str = "0", server_end: str = "0") -> RunOrder:
    """Returns the order for a run, with packets of at most `longest` bytes."""
    plan = plan_of(options, longest)
    seed = drawn_seed(options.seed)
    transcript = os.path.abspath(options.transcript) if options.transcript else None
    text = plan.text(seed, transcript, options.realtime, options.most, is_simulated())
    limit = limit_of(options.late)
    wait = duration(server_wait, "--server-wait") / 1e9
    end = duration(server_end, "--server-end") / 1e9
    return RunOrder(options, text, limit, seed, draws(plan), mask, wait, end, plan)


def note_realtime(page: Page) -> None:
    """Prints a line if the system refused the priority for --realtime."""
    if page.head("realtime") == NOT_ALLOWED:
        say("--realtime: the system doesn't allow it (as root, or with `ulimit -r 10`)")


def report(
    order: RunOrder,
    page: CountedPage,
    drops: Sequence[int],
    status: int,
    server: Optional[Ended] = None,
    waits: Optional[Waits] = None,
) -> int:
    """Reports the run, on standard error and in the --json file; returns the command's status, or VOID for a void run. `drops` are
    the packets that the system dropped before each way (one direction of the link)."""
    counts = page.read()
    lateness = waits.over if waits else lambda limit: []  # of programs that waited for a processor
    awaited = order.link_plan.awaited()
    may_be_late = waits is not None
    faults, warnings = verdict(counts, drops, order.plan, order.limit, lateness, awaited=awaited, may_be_late=may_be_late)
    lines = [line(counts, drops)]
    if order.draws:
        lines[0] += f"; seed {order.seed}"
    if status != NOT_FOUND:
        lines += warnings
    if order.options.quiet:
        lines = []
    summary = record(counts, drops, status, order.seed, faults)
    if server:
        summary["server"] = server._asdict()
    if waits:
        summary |= {"late_limit_ms": order.limit, "waited_ms": waits.record()}
    return finish_report(order.options, lines, counts["parts"], summary, status, say)


def finish_report(
    options: RecordOptions, lines: Iterable[str], parts: int, record: dict[str, Any], status: int, tell: Callable[[str], None]
) -> int:
    """Prints the summary's lines through `tell`, and writes the record into the --json file. Returns VOID for a void run, otherwise
    the status, or FILES if the status is 0 but the file can't be written."""
    texts = [*lines]
    if options.transcript:
        texts += lines_about_files(options.transcript, parts)
    texts += [f"void: {fault}" for fault in record["void"]]
    for text in texts:
        tell(text)
    try:
        if options.json:
            write_json(options.json, record)
    except OSError as error:
        say(f"--json {options.json}: {error.strerror}")
        status = status or FILES
    return VOID if record["void"] else status
