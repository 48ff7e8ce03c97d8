"""The repository's reference beside the module: its scenarios, and the module's answers in its words."""

import sys
from functools import cache
from pathlib import Path
from typing import Iterable, Sequence

TOOLS = Path(__file__).resolve().parents[2] / "tools"
sys.path.insert(0, str(TOOLS / "oracle"))

import hingetulip  # noqa: E402
import model  # noqa: E402
from broken import bad_line  # noqa: E402
from config_lines import NAME_OF, LineFault, parse_line  # noqa: E402
from fast import FastDummynet  # noqa: E402
from printing import command_text  # noqa: E402
from scenarios import STYLES  # noqa: E402
from shaper_cases import histories  # noqa: E402

__all__ = ["NAME_OF", "STYLES", "FastDummynet", "LineFault", "bad_line", "parse_line"]

SEED, SCENARIOS, CALLS = 35, 200, 45
REPLIES = {
    hingetulip.Outcome.QUEUED: model.Queued,
    hingetulip.Outcome.LOST: model.Lost,
    hingetulip.Outcome.FULL: model.Full,
    hingetulip.Outcome.NO_TARGET: model.NoTarget,
}
Scenario = tuple[hingetulip.Rule, list[model.Call], list[model.Reply]]


@cache
def scenarios() -> list[Scenario]:
    """The rule, the calls and the replies of random scenarios, the same each time."""
    return [
        (hingetulip.Rule[rule.upper()], [call for _, call in calls], replies)
        for rule, calls, replies in histories(SEED, SCENARIOS, CALLS)
    ]


def configured(shaper: hingetulip.Shaper, command: model.Command) -> model.Reply:
    try:
        shaper.configure(command_text(command))
    except hingetulip.RefusedError as refusal:
        return model.Bare(str(refusal).replace(" ", "-"))
    return model.Bare.DELETED if isinstance(command, model.Delete) else model.Bare.CONFIGURED


def reply_of(fate: hingetulip.Fate) -> model.Reply:
    return REPLIES[fate.outcome](*(number for number in (fate.at, fate.flow, fate.packet) if number is not None))


def submitted(shaper: hingetulip.Shaper, call: model.Submit) -> model.Reply:
    ends = call.packet.tuple._asdict()
    target = {call.target.kind: call.target.number}
    return reply_of(shaper.submit(call.moment, call.packet.len, **target, **ends, word=call.packet.word))


def packets_of(calls: Sequence[model.Submit]) -> hingetulip.Packets:
    tuples = [call.packet.tuple for call in calls]
    packets = hingetulip.Packets(
        len(calls),
        moment=[call.moment for call in calls],
        length=[call.packet.len for call in calls],
        pipe=[call.target.number for call in calls],
        word=[call.packet.word for call in calls],
        **{name: [getattr(t, name) for t in tuples] for name in model.FiveTuple._fields},
    )
    for place, call in enumerate(calls):
        packets.kind[place] = call.target.kind == "queue"
    return packets


def deliveries(found: Iterable[hingetulip.Delivery]) -> tuple[model.Delivery, ...]:
    return tuple(model.Delivery(d.due, d.packet, d.flow, d.start) for d in found)


def collected(shaper: hingetulip.Shaper, moment: int) -> model.Reply:
    found = deliveries(shaper.collect(moment))
    return model.Delivered(shaper.advance(0), found)


def status(shaper: hingetulip.Shaper, masks: list[model.FiveTuple]) -> model.Reply:
    """What `show` tells, with the masks of the flows, which it doesn't tell."""
    told, found = [], shaper.show()
    for flow, mask in zip(found, masks):
        target = model.Target("pipe", flow.pipe) if flow.queue is None else model.Target("queue", flow.queue)
        key = model.FlowKey(target, flow.pipe, mask, model.FiveTuple(flow.src, flow.dst, flow.proto, flow.sport, flow.dport))
        told.append(model.FlowStatus(flow.flow, key, flow.queued, flow.bytes, flow.lost, flow.full, flow.started, flow.discarded))
    return model.Status(tuple(told) if len(found) == len(masks) else ())


def answer(shaper: hingetulip.Shaper, call: model.Call, wanted: model.Reply) -> model.Reply:
    """The module's answer to a call. Of what is wanted only the masks of a status are read."""
    if isinstance(call, model.Configure):
        return configured(shaper, call.command)
    if isinstance(call, model.Submit):
        return submitted(shaper, call)
    if isinstance(call, model.Advance):
        return model.Advanced(shaper.advance(call.moment))
    if isinstance(call, model.Collect):
        return collected(shaper, call.moment)
    return status(shaper, [flow.key.mask for flow in wanted.list])
