"""Rules from --map as lines of a plan. A rule selects a pipe or queue for the packets that match the rule."""

from __future__ import annotations

from itertools import product
from typing import Iterator, Optional

from hinge.captures.rule_words import EVERY_PORT, BadRule, IpNetwork, PortSpan, parted, short_of
from hinge.run.words import Target, Wrong

MAPPED = 0xFFFF << 32  # the bits before an IPv4 address within an IPv6 address
EVERYWHERE = "0" * 32 + " " + "0" * 32  # an address and a mask that match all addresses
RULE_ENDS = (("src", "dst"), ("sport", "dport"))


def net_words(net: Optional[IpNetwork]) -> str:
    """Returns a network's address and mask as hex digits of IPv6; all networks without a network."""
    if net is None:
        return EVERYWHERE
    address, mask = int(net.network_address), int(net.netmask)
    if net.version == 4:
        address, mask = address | MAPPED, mask | (1 << 128) - (1 << 32)
    return f"{address:032x} {mask:032x}"


def narrower(first: Optional[IpNetwork], second: IpNetwork) -> Optional[IpNetwork]:
    """Returns the network that two networks share, or None if they are disjoint; a first network None contains all addresses."""
    if first is None:
        return second
    if first.version != second.version or not first.overlaps(second):
        return None
    return first if first.prefixlen >= second.prefixlen else second


class WayRule:
    """Describes a rule in short form. Wrong: the text isn't a rule."""

    def __init__(self, text: str) -> None:
        try:
            words, target = parted(text)
            self.short = short_of(words)
        except BadRule as bad:
            raise Wrong(f"--map {text}: {bad}") from None
        self.target = Target(*target)
        self.way = self.short.way

    def nets(self) -> Iterator[tuple[Optional[IpNetwork], Optional[IpNetwork]]]:
        """Yields the networks of the source and the destination. If the rule contains `host`, which matches either end, yields a
        pair for each end."""
        nets = self.short.nets
        host = nets.get("host")
        if host is None:
            yield nets.get("src"), nets.get("dst")
            return
        for end in RULE_ENDS[0]:
            overlap = narrower(nets.get(end), host)
            if overlap is not None:
                pair = {**nets, end: overlap}
                yield pair.get("src"), pair.get("dst")

    def spans(self) -> Iterator[tuple[PortSpan, PortSpan]]:
        """Yields the ports of the source and the destination. If the rule contains `port`, which matches either end, yields a pair
        for each end."""
        spans = {end: self.short.ports.get(end, EVERY_PORT) for end in RULE_ENDS[1]}
        port = self.short.ports.get("port")
        if port is None:
            yield spans["sport"], spans["dport"]
            return
        for end in RULE_ENDS[1]:
            overlap = spans[end].both(port)
            if overlap is not None:
                pair = {**spans, end: overlap}
                yield pair["sport"], pair["dport"]

    def lines(self, way: int) -> list[str]:
        """Returns the plan's lines that together mean this rule, for packets of a way (one direction of a link)."""
        kind = 1 if self.target.kind == "queue" else 0
        dscp = -1 if self.short.dscp is None else self.short.dscp  # -1 means any
        protocols = self.short.protocols or (-1,)
        return [
            f"map {way} {kind} {self.target.number} {protocol} {dscp} {net_words(src)} {net_words(dst)}"
            f" {sport.low} {sport.high} {dport.low} {dport.high}"
            for protocol, (src, dst), (sport, dport) in product(protocols, self.nets(), self.spans())
        ]
