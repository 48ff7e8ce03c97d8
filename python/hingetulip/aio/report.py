"""Reports a network's activities in words."""

from __future__ import annotations

from typing import TYPE_CHECKING

from hingetulip.records import Outcome

if TYPE_CHECKING:
    from hingetulip.aio.network import Network

MOST_DROPPED = 20  # the most dropped datagrams, and the most disturbances, that a report lists


def report(net: Network) -> str:
    """Returns lines about each link, the dropped datagrams, the disturbances and the real calls."""
    lines = []
    for link in net.links.values():
        count = link.counts
        lines.append(f"{link.name}: {sum(count.values())} sent, {count[Outcome.LOST]} lost, {count[Outcome.FULL]} met a full queue")
    for event, counts in (("without a way", net.unrouted), ("without a socket", net.unheard), ("refused", net.refused)):
        lines += [f"{place}: {count} {event}" for place, count in counts.items()]
    lines += [f"  {dropped}" for dropped in net.dropped[:MOST_DROPPED]]
    if len(net.dropped) > MOST_DROPPED:
        lines.append(f"  and {len(net.dropped) - MOST_DROPPED} more")
    lines += [disturbance.report() for disturbance in net.disturbances[:MOST_DROPPED]]
    lines += net.real_uses.lines()
    return "\n".join([*lines, f"simulated time {net.loop.time():.9f} s"])
