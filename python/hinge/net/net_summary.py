"""The summary of a net's run: each way (direction of a link) with packets, all links together, and the hosts whose commands
failed."""

from __future__ import annotations

from operator import itemgetter
from typing import Callable, Iterator, NamedTuple, Optional, Sequence

from hinge.command import NOT_FOUND, say
from hinge.events.idle import idle_events
from hinge.events.kinds import HostAct, TimedEvent
from hinge.net.acts import FinishedAct
from hinge.net.description import Description
from hinge.net.order import NetOrder
from hinge.net.parts import Wait
from hinge.run.hints import lacking
from hinge.run.order import finish_report
from hinge.run.page import Counts
from hinge.run.processes import Ended, name_of
from hinge.run.summary import FORMAT, SELDOM, VOID, host_record, way_record
from hinge.run.verdict import Awaited, Waits, late_acts, verdict

MOST_SHOWN = 3  # the changes that a line names
MOST_DRAWN = 50  # the lines about events that a seed drew


def of_hosts(endings: dict[str, Ended]) -> Iterator[str]:
    """Yields a line about each host whose command ended before the net did, or was killed by an act or SIGKILL."""
    for name, ending in endings.items():
        if ending.by == "itself":
            yield f"{name}: ended with {name_of(ending.status)} after {ending.after:.1f} s"
        elif ending.by == "kill":
            yield f"{name}: killed by an act after {ending.after:.1f} s, and not begun again"
        elif ending.by == "SIGKILL":
            yield f"{name}: killed, since SIGTERM didn't end it"


def moment_of(act: TimedEvent, main: Optional[int]) -> Optional[int]:
    """Returns the moment of an `at` line in ns on the links' clock; None if the moment counts from a main command that didn't
    start."""
    if not act.moment.of_main:
        return act.moment.ns
    return None if main is None else main + act.moment.ns


def act_records(
    acts: Sequence[TimedEvent], result: Sequence[FinishedAct], main: Optional[int], end: int
) -> list[dict[str, object]]:
    """Returns the JSON records for all acts and changes until `end`, in order: from `at` lines, and acts from `hinge change`."""
    records = list[tuple[int, dict[str, object]]]()
    for at_line in acts:
        moment = moment_of(at_line, main)
        if moment is not None and moment <= end and not isinstance(at_line.event, HostAct):
            records.append((moment, {"moment": moment, "at": str(at_line.moment), "words": at_line.event.words}))
    for moment, act, _ in result:
        records.append((moment, {"moment": moment, "at": str(act.moment), "words": f"{act.word} {act.host}"}))
    return [record for _, record in sorted(records, key=itemgetter(0))]


def acts_text(acts: Sequence[TimedEvent]) -> str:
    """Returns the first few `at` lines in a text, and how many more there are."""
    text = ", ".join(f"`{act}`" for act in acts[:MOST_SHOWN])
    return f"{text} and {len(acts) - MOST_SHOWN} more" if len(acts) > MOST_SHOWN else text


def of_plan(acts: Sequence[TimedEvent], main: Optional[int], end: int) -> Iterator[str]:
    """Yields lines about the events that a seed drew, and about the events that came before the main command."""
    draw_lines = [act for act in acts if act.is_drawn and (moment_of(act, main) or 0) <= end]
    yield from (f"drawn: {act}" for act in draw_lines[:MOST_DRAWN])
    if len(draw_lines) > MOST_DRAWN:
        yield f"and {len(draw_lines) - MOST_DRAWN} more, which --json has"
    if main is None:
        return
    early = [act for act in acts if not act.moment.of_main and act.moment.ns < main]
    if early:
        yield f"before the main command, which began at {main / 1e9:.3f} s: {acts_text(early)}"


def net_lines(net: Description, counts: Counts, drops: Sequence[int]) -> Iterator[str]:
    """Yields a line with the counts for each way that carried or dropped packets."""
    for name, way, losses in zip(net.ways(), counts.ways, drops):
        if way["came"] or losses:
            seldom = "".join(f", {way[key]} {words}" for key, words in (*SELDOM, ("refused", "refused by the system")) if way[key])
            if losses > 0:
                seldom += f", {losses} dropped by the system"
            yield (
                f"{name}: {way['came']} came, {way['sent']} delivered, {way['lost']} lost, {way['full']} met a full"
                f" queue, {way.underway} under way{seldom}"
            )


def of_unforwarded(table: dict[str, dict[str, int]]) -> Iterator[str]:
    """Yields a line about each host that didn't forward packets."""
    for name, counts in table.items():
        reasons = ", ".join(f"{key} {count}" for key, count in counts.items())
        yield f"{name}: {sum(counts.values())} packets weren't forwarded ({reasons})"


def net_record(net: Description, counts: Counts, drops: Sequence[int], endings: dict[str, Ended]) -> dict[str, object]:
    """Returns the counts for the net, each host and each way, for JSON."""
    ends = [pair for link in net.links for pair in (link.ends, link.ends[::-1])]
    ways: list[dict[str, object]] = [
        {"from": start, "to": end, "pipe": pipe, **way_record(way, losses)}
        for pipe, ((start, end), way, losses) in enumerate(zip(ends, counts.ways, drops), 1)
    ]
    return host_record(counts) | {"hosts": {name: ending._asdict() for name, ending in endings.items()}, "ways": ways}


class NetRan(NamedTuple):
    """Holds a net's results after the run."""

    status: int
    counts: Counts
    drops: Sequence[int]
    endings: dict[str, Ended]
    unforwarded: dict[str, dict[str, int]]
    acts: Sequence[FinishedAct]
    main: Optional[int]  # the moment in ns on the links' clock when the main command began
    missing: str  # the reason why the main command didn't begin, or an empty text


def silent(net: Description, wait: Wait, status: Optional[int]) -> str:
    """Returns a text that says that nothing listens at a port, and the reason if the host's command has ended with `status`."""
    text = f"{wait.host} doesn't listen at port {wait.port}"
    if status is None:
        return f"{text} after {wait.lasting:g} s"
    lack = lacking(net.hosts[wait.host].command.removeprefix("exec ").split()) if status == NOT_FOUND else None
    hint = f" ({lack})" if lack else ""
    return f"{text}; its command ended with {status}{hint}"


def status_without(missing: str) -> int:
    """Returns the status for a net that ended because a required port is missing; `missing` is the text about the port."""
    return NOT_FOUND if f"ended with {NOT_FOUND}" in missing else VOID


def of_nothing(order: NetOrder, acts: Sequence[FinishedAct]) -> Iterator[tuple[str, bool]]:
    """Yields each fault of a host on which nothing ran, and whether a seed drew the fault. Omits stops in a net with --control,
    because there a stop has an effect even so: the stop keeps `hinge exec` from the host."""
    drawn = {(at_line.moment, at_line.event.word, at_line.event.of) for at_line in order.net_plan.events if at_line.is_drawn}
    for _, act, is_idle in acts:
        if is_idle and not (act.word == "stop" and order.options.control):
            yield f"`{act.word} {act.host}`", (act.moment, act.word, (act.host,)) in drawn


def report_net(order: NetOrder, ran: NetRan, waits: Optional[Waits], tell: Callable[[str], None] = say) -> int:
    """Prints the summary with the verdict on the run, and writes the file that --json names. Returns the main command's status,
    or the status for a void run. `waits` is None in simulated time, where no program waits for a processor."""
    net = order.net
    counts = ran.counts

    def of_programs(limit: float) -> list[str]:
        return [*late_acts(ran.acts, ran.main, limit), *(waits.over(limit) if waits else [])]

    awaited = awaited_events(order, ran)
    faults, warnings = verdict(counts, ran.drops, order.plan, order.limit, of_programs, net.ways(), awaited, waits is not None)
    if ran.missing:
        faults = [ran.missing, *faults]
    lines = list[str]()
    if not order.options.quiet:
        lines = [*net_lines(net, counts, ran.drops), *of_unforwarded(ran.unforwarded)]
        if order.draws:
            lines.append(f"seed {order.seed}")
        lines += [*of_plan(order.net_plan.events, ran.main, counts["moment"]), *warnings]
    lines += of_hosts({name: ending for name, ending in ran.endings.items() if name != net.main})
    record = {
        "format": FORMAT,
        "status": ran.status,
        "seed": order.seed,
        "void": faults,
        "late_limit_ms": order.limit,
        **net_record(net, counts, ran.drops, ran.endings),
        "unforwarded": ran.unforwarded,
        "main": ran.main,
        "waited_ms": waits.record() if waits else {},
        "acts": act_records(order.net_plan.events, ran.acts, ran.main, counts["moment"]),
    }
    status = finish_report(order.options, lines, counts["parts"], record, ran.status, tell)
    return ran.status if ran.missing else status


def awaited_events(order: NetOrder, ran: NetRan) -> Awaited:
    """Returns the events that the net's file requests, with those that had no effect, for the verdict."""
    net_plan = order.net_plan
    plan = net_plan.plan
    moments = [(moment_of(at_line, ran.main) or 0, str(at_line)) for at_line in net_plan.events if not at_line.is_drawn]
    idle = [
        (at_line, cause)
        for at_line, cause in idle_events(net_plan.events, bool(order.options.control))
        if (moment_of(at_line, ran.main) or 0) <= ran.counts["moment"]
    ]
    idle_acts = list(of_nothing(order, ran.acts))
    return Awaited([*moments, *plan.moments], plan.chosen, idle, plan.rules, net_plan.unruled(), idle_acts)
