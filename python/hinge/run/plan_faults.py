"""The faults from --faults in a plan: packets that are lost, doubled or late, and cuts and holds of links."""

from __future__ import annotations

from typing import TYPE_CHECKING, Iterable, Sequence

from hinge.events.link_words import link_event
from hinge.fault_lines import CUT, HOLD, IS_LATE, IS_LOST, IS_TWICE, Act, Fault, faults_in, spelled_seconds
from hinge.run.words import SECOND, Wrong, read_lines
from hingetulip_words.link import Extra

if TYPE_CHECKING:
    from hinge.run.plan import Plan


def add_faults(plan: Plan, path: str, names: Iterable[str], is_net: bool = False) -> None:
    """Adds the faults in a file, which then decide all losses. `names` lists the ways' names in order; `is_net` tells that the
    ways are a net's. Wrong: a line isn't a fault, or names another link, or an act that belongs elsewhere."""
    by_names: dict[str, list[Fault]] = {name: [] for name in names}
    try:
        faults = faults_in(path, plan.noted("--faults", read_lines(path)))
        for fault in faults.packets:
            if fault.link not in by_names:
                raise ValueError(f"{path}: '{fault}': no such link; write {' or '.join(list(by_names)[:2])}")
            by_names[fault.link].append(fault)
        names_for_acts = [] if is_net else list(by_names)
        for act in faults.acts:
            add_act(plan, path, act, names_for_acts)
    except ValueError as error:
        raise Wrong(str(error)) from None
    for way, way_faults in enumerate(by_names.values()):
        add_packet_faults(plan, way, sorted(way_faults))


def add_act(plan: Plan, path: str, act: Act, names: Sequence[str]) -> None:
    """Adds a cut or a hold of a way; the first of `names` is the way up. ValueError: the act isn't a cut or a hold of a way in
    `names`, which is empty for a net, whose file has lines `at` for acts."""
    if act.kind not in (CUT, HOLD) or act.of not in names:
        advice = f"`at {spelled_seconds(act.moment)} cut {names[0]} 2s` or `hold`" if names else "it as a line `at` of the net"
        raise ValueError(f"{path}: '{act}': no cut or hold of a link; write {advice}")
    way = "up" if act.of == names[0] else "down"
    lossy = " lossy" if act.kind == CUT else ""
    event = link_event(f"{way} outage {spelled_seconds(act.seconds)}{lossy}", path)
    plan.add_event(event, round(act.moment * SECOND), str(act))


def add_packet_faults(plan: Plan, way: int, faults: Sequence[Fault]) -> None:
    """Adds a way's faults of packets. If a packet is late, all other packets make a second pass without a delay, so that each
    packet passes the same number of pipes. Wrong: a loss model already decides about the way's packets."""
    model = plan.decided.get(way, "list")
    if model not in ("list", "faults"):
        if faults:
            raise Wrong(f"'{faults[0]}': {model} decides about each packet of that way; leave one of them out")
        return
    plan.chosen += [(way, fault.packet) for fault in faults]
    losses = [fault.packet for fault in faults if fault.kind == IS_LOST]
    twice = [fault.packet for fault in faults if fault.kind == IS_TWICE]
    late = {fault.packet: fault.ms for fault in faults if fault.kind == IS_LATE}
    extra, pipes = plan.extras.get(way, (Extra(), []))
    delays = {*late.values()}
    if late and not pipes:
        delays.add(0)  # for all other packets
    pipe_of_delay = dict(zip(sorted(delays), plan.second_pipes(sorted(delays))))
    plan.extras[way] = extra, [*pipes, *pipe_of_delay.values()]
    plan.decided[way] = "faults"
    if twice:
        plan.copied.add(way)
    plan.rest.append(f"list {way} {' '.join(map(str, losses))}")
    plan.rest += [f"fault {way} 1 {packet} 1" for packet in twice]
    plan.rest += [f"fault {way} 2 {packet} {pipe_of_delay[delay]}" for packet, delay in late.items()]
