"""The text of a history: a record for each call, with its configuration line in canonical form, and the reply's records."""

from typing import Iterable

import model
from printing import command_text

NUMBERED = (model.Queued, "queued"), (model.Lost, "lost"), (model.Full, "full"), (model.NoTarget, "no-target")
NUMBERED_REPLIES = dict([*NUMBERED, (model.Advanced, "advanced")])


def address_text(value: int) -> str:
    return ".".join(str(value >> shift & 255) for shift in (24, 16, 8, 0))


def tuple_text(t: model.FiveTuple) -> str:
    return f"{address_text(t.src)},{address_text(t.dst)},{t.proto},{t.sport},{t.dport}"


def call_text(caller: int, c: model.Call) -> str:
    if isinstance(c, model.Configure):
        return f"c,{caller},configure,{command_text(c.command)}"
    if isinstance(c, model.Submit):
        p = c.packet
        return f"c,{caller},submit,{c.target.kind},{c.target.number},{tuple_text(p.tuple)},{p.len},{p.word},{c.moment}"
    if isinstance(c, (model.Advance, model.Collect)):
        return f"c,{caller},{type(c).__name__.lower()},{c.moment}"
    return f"c,{caller},show"


def status_text(f: model.FlowStatus, version: int) -> str:
    """Returns the record of a flow. Version 1 omits the number of discarded packets."""
    k = f.key
    text = (
        f"f,{f.flow},{k.target.kind},{k.target.number},{k.pipe},{tuple_text(k.mask)},{tuple_text(k.tuple)},"
        f"{f.queued},{f.bytes},{f.lost},{f.full},{f.started}"
    )
    return text if version == 1 else f"{text},{f.discarded}"


def reply_lines(r: model.Reply, version: int) -> list[str]:
    """Returns the record of a reply, and those of its items."""
    if isinstance(r, model.Bare):
        return [f"r,{r.value}"]
    if isinstance(r, model.Delivered):
        return [f"r,delivered,{r.at},{len(r.list)}"] + [f"d,{d.packet},{d.flow},{d.start},{d.due}" for d in r.list]
    if isinstance(r, model.Status):
        return [f"r,status,{len(r.list)}"] + [status_text(f, version) for f in r.list]
    numbers = [str(getattr(r, name)) for name in ("at", "flow", "packet") if hasattr(r, name)]
    return [",".join(["r", NUMBERED_REPLIES[type(r)], *numbers])]


def history_text(rule: str, calls: Iterable[tuple[int, model.Call]], replies: Iterable[model.Reply]) -> str:
    version = 2 if rule == model.FREE else 3
    lines, count = [f"dummynet-history,{version}"], 0
    for (caller, call), reply in zip(calls, replies):
        lines += [call_text(caller, call), *reply_lines(reply, version)]
        count += 1
    return "".join(line + "\n" for line in [*lines, f"end,{count}"])
