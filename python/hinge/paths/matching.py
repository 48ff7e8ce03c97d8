"""The matching of passages (a passage is a packet on one link). A host that isn't a packet's destination has to forward the packet
on another link: once, after receiving the packet, and in the order of the packet's flow."""

from __future__ import annotations

from collections import Counter, deque
from dataclasses import dataclass

from hinge.lazy import Integers, Mask, np
from hinge.paths.groups import in_order_of, numbered, place_in_group
from hinge.paths.passages import NO_HOST, Passages, Scope

NONE = -1
BEHIND = 3_500_000_000  # ns for which a system waits for a neighbour before rejecting a packet
LOST_IN_HOST = "lost in a host"


@dataclass(frozen=True)
class Matched:
    """The passages, how they continue each other, and the faults."""

    passages: Passages
    before: Integers  # for each passage, the passage that it continues; NONE at the start of a path
    is_there: Mask  # whether the passage brought the packet to the host at which the path ends
    at_the_end: int  # packets that were perhaps still at a host when the run ended
    told: int  # packets that were lost in a host, and whose loss the system reported
    expired: int  # packets whose time to live ended on the way
    back: int  # packets that came back to their senders while routing daemons changed routes, which is no fault
    faults: dict[str, Integers]  # the passages with each kind of fault

    @property
    def is_lawful(self) -> bool:
        return not any(map(len, self.faults.values()))


@dataclass(frozen=True)
class Handings:
    """The passages by which hosts received packets for forwarding, and sent packets on. Equal packets at a host have equal keys."""

    got: Integers  # the received passages
    sent: Integers  # the sent passages
    got_key: Integers
    sent_key: Integers


@dataclass(frozen=True)
class Ends:
    """Tells for each passage whether a packet's path begins or ends there."""

    is_own: Mask  # the host at the link's beginning sent the packet first
    is_there: Mask  # the packet reached its destination
    is_back: Mask  # the packet came back to its sender, for example while routes changed, and the sender's system drops it
    ends: Mask  # no host may forward the packet: it is there or back, or its time to live ends
    may_end: Mask  # the host need not forward the packet: the frame or the address may be another host's
    got_for_many: Mask  # the host at the link's end may forward the packet on each other link
    sent_for_many: Mask  # the host at the link's beginning may have sent the packet on each other link, too


def is_new(passages: Passages, choice: Mask) -> Mask:
    """Returns a mask of the chosen passages whose packets the sending host hadn't received over any link."""
    receipts = np.flatnonzero(passages.handed >= 0)
    packet = np.flatnonzero(choice)
    both = np.concatenate((receipts, packet))
    host = np.concatenate((passages.end[receipts], passages.start[packet]))
    content = np.concatenate((passages.left[receipts], passages.content[packet]))
    key = numbered(host, *passages.flow[:, both], passages.length[both], content)
    places: Mask = np.zeros(len(passages), bool)
    places[packet] = ~np.isin(key[len(receipts) :], key[: len(receipts)])
    return places


def ends_of(passages: Passages) -> Ends:
    """Returns where paths begin and end. A switch, like the point at which a way's jitter begins, forwards all packets, whatever
    their addresses and time to live. Hosts at a switch's ports may have addresses that aren't in the net's file, for example by
    DHCP."""
    topology = passages.topology
    switches = sorted(topology.switches)
    forwarders = [*switches, *topology.middles()]
    goes_on = np.isin(passages.end, forwarders)
    is_forwarded = np.isin(passages.start, forwarders)
    source = topology.scopes_of(passages.flow[0])
    destination = topology.scopes_of(passages.flow[1])
    sender = topology.hosts_of(passages.flow[0])
    receiver = topology.hosts_of(passages.flow[1])
    strangers = (NO_HOST, topology.outside)
    is_own = ~is_forwarded & ((sender == passages.start) | (source == Scope.LINK))
    to_switch = np.isin(passages.end, topology.to_switches())
    is_own |= is_new(passages, ~is_forwarded & ~is_own & np.isin(sender, strangers) & to_switch)
    is_there = ~goes_on & ((receiver == passages.end) | (destination == Scope.LINK) | (source == Scope.LINK))
    is_back = ~goes_on & ~is_there & (sender == passages.end) & (sender != topology.outside)
    ends = is_there | is_back | (passages.last == 1) & ~goes_on
    of_group = destination == Scope.GROUP
    is_for_stranger = np.isin(receiver, strangers) & np.isin(passages.start, topology.from_switches())
    may_end = ~ends & ~goes_on & (of_group | (passages.flooded == 1) | is_for_stranger)
    got_for_many = np.isin(passages.end, switches) | of_group
    sent_for_many = np.isin(passages.start, switches) | of_group
    return Ends(is_own, is_there, is_back, ends, may_end, got_for_many, sent_for_many)


def handings(passages: Passages, ends: Ends) -> Handings:
    """Returns the packets that hosts received for forwarding and sent on. A packet that may leave on several links counts as
    received once for each link."""
    receipts = np.flatnonzero((passages.handed >= 0) & ~ends.ends)
    packet = np.flatnonzero(~ends.is_own)
    is_for_many = ends.got_for_many[receipts]
    for_many = receipts[is_for_many]
    plain = receipts[~is_for_many]
    by_way = {pipe: for_many[passages.end[for_many] == start] for pipe, (start, _) in passages.topology.pipes.items()}
    receipts = np.concatenate((plain, *by_way.values()))
    ways = [np.zeros(len(plain), np.int64), *(np.full(len(rows), pipe) for pipe, rows in by_way.items())]
    way = np.concatenate((*ways, np.where(ends.sent_for_many[packet], passages.pipe[packet], 0)))
    both = np.concatenate((receipts, packet))
    host = np.concatenate((passages.end[receipts], passages.start[packet]))
    content = np.concatenate((passages.left[receipts], passages.content[packet]))
    key = numbered(host, way, *passages.flow[:, both], passages.length[both], content)
    return Handings(receipts, packet, key[: len(receipts)], key[len(receipts) :])


def matched_by_places(passages: Passages, handings_on: Handings) -> tuple[Integers, Integers]:
    """Matches the N-th sent packet of each key with the N-th received packet of that key. Returns for each sent packet the place in
    `got` (NONE without a match), and the keys with a packet that has no match or was sent before its match was received."""
    got_order = in_order_of(handings_on.got_key, passages.handed[handings_on.got])
    sent_order = in_order_of(handings_on.sent_key, passages.submitted[handings_on.sent])
    got_place = place_in_group(handings_on.got_key, got_order)
    sent_place = place_in_group(handings_on.sent_key, sent_order)
    many = int(max(got_place.max(initial=0), sent_place.max(initial=0))) + 1
    got_pair = handings_on.got_key * many + got_place
    sent_pair = handings_on.sent_key * many + sent_place
    by_pair = np.argsort(got_pair)
    at = np.minimum(np.searchsorted(got_pair[by_pair], sent_pair), max(len(by_pair) - 1, 0))
    if not len(by_pair):
        return np.full(len(sent_pair), NONE), np.unique(handings_on.sent_key)
    is_found = got_pair[by_pair][at] == sent_pair
    match = np.where(is_found, by_pair[at], NONE)
    behind = is_found & (passages.handed[handings_on.got][match] < passages.submitted[handings_on.sent])
    return match, np.unique(handings_on.sent_key[~behind])


def matched_one_by_one(
    passages: Passages, handings_on: Handings, match: Integers, keys: Integers
) -> tuple[list[int], list[int], Integers]:
    """Matches the packets with these keys again, in the order of events, and changes `match`: a sent packet continues the first
    received packet that isn't continued yet. Returns three values: the places in `sent` of packets that a host invented, and of
    packets that it repeated; and `match` with the earliest received packets that are possible, as equal packets can't be
    distinguished."""
    receipts = np.flatnonzero(np.isin(handings_on.got_key, keys))
    packet = np.flatnonzero(np.isin(handings_on.sent_key, keys))
    moments = [(int(passages.handed[handings_on.got[at]]), int(handings_on.got_key[at]), at, True) for at in receipts.tolist()]
    moments += [(int(passages.submitted[handings_on.sent[at]]), int(handings_on.sent_key[at]), at, False) for at in packet.tolist()]
    waiting: dict[int, deque[int]] = {key: deque() for key in keys.tolist()}
    places_of: dict[int, list[int]] = {key: [] for key in keys.tolist()}
    nowhere: list[int] = []
    twice: list[int] = []
    for _, key, at, is_got in sorted(moments):
        if is_got:
            waiting[key].append(at)
        elif waiting[key]:
            match[at] = waiting[key].popleft()
            places_of[key].append(at)
        else:
            match[at] = NONE
            places = twice if places_of[key] else nowhere
            places.append(at)
    earliest = match.copy()
    for key, copies in Counter(handings_on.sent_key[twice].tolist()).items():
        places = places_of[key]
        earliest[places] = match[[places[max(0, place - copies)] for place in range(len(places))]]
    return nowhere, twice, earliest


def continued(passages: Passages, handings_on: Handings, match: Integers) -> Integers:
    """Returns each passage's predecessor on the packet's path, according to `match`; NONE for the first passage."""
    before = np.full(len(passages), NONE)
    is_matched = match != NONE
    before[handings_on.sent[is_matched]] = handings_on.got[match[is_matched]]
    return before


def too_early(passages: Passages, before: Integers) -> Integers:
    """Returns the passages that a host sent before the host received the packet."""
    continuations = np.flatnonzero(before != NONE)
    early: Integers = continuations[passages.came[continuations] < passages.due[before[continuations]]]
    return early


def last_moment(passages: Passages) -> int:
    """Returns the moment of the last call, in ns."""
    return max(int(passages.came.max(initial=0)), int(passages.due.max(initial=0)))


def out_of_order(passages: Passages, packet: Integers, before: Integers, earliest: Integers) -> Integers:
    """Returns the passages that a host sent after a packet of the same flow that the host had received later. Of several equal
    packets, `earliest` assumes for that packet the one received first."""
    choice = packet[before[packet] != NONE]
    flow = numbered(passages.start[choice], *passages.flow[:, choice])
    order = in_order_of(flow, passages.submitted[choice])
    came = passages.handed[before[choice]][order]
    least = passages.handed[earliest[choice]][order]
    base = flow[order] * (int(came.max(initial=0)) + 1)
    highest = np.maximum.accumulate(base + least) if len(order) else base
    return np.sort(choice[order][base + came < highest])


def is_overtaken(passages: Passages, before: Integers, packet: Integers, receipts: Integers) -> Mask:
    """Returns for each received packet whether its host sent on a packet of the same flow that the host received later."""
    choice = packet[before[packet] != NONE]
    host = np.concatenate((passages.end[receipts], passages.start[choice]))
    flow = numbered(host, *passages.flow[:, np.concatenate((receipts, choice))])
    last = np.full(int(flow.max(initial=0)) + 1, NONE)
    np.maximum.at(last, flow[len(receipts) :], passages.handed[before[choice]])
    is_later: Mask = last[flow[: len(receipts)]] > passages.handed[receipts]
    return is_later


def is_rejected(passages: Passages, losses: Integers, before: Integers) -> Mask:
    """Returns for each lost packet whether its host rejected packets between the same two addresses, and has forwarded none since.
    A host need not report each packet, since systems limit the rate of reports, and report a silent neighbour only after
    seconds."""
    source, destination = passages.flow[:2]
    rejections = passages.topology.rejections
    forwarded = {key: forwarded_at(passages, before, *key) for key in rejections}
    rejected = np.zeros(len(losses), bool)
    for place, row in enumerate(losses.tolist()):
        key = (int(passages.end[row]), int(source[row]), int(destination[row]))
        due = int(passages.due[row])
        latest = max((moment for moment in rejections.get(key, []) if moment <= due + BEHIND), default=NONE)
        if latest != NONE:
            rejected[place] = not ((forwarded[key] > latest) & (forwarded[key] < due)).any()
    return rejected


def forwarded_at(passages: Passages, before: Integers, host: int, source: int, destination: int) -> Integers:
    """Returns the moments at which a host forwarded packets between two addresses."""
    is_between = (passages.flow[0] == source) & (passages.flow[1] == destination)
    moments: Integers = passages.came[(passages.start == host) & is_between & (before != NONE)]
    return moments


def beyond_reports(passages: Passages, losses: Integers, table: dict[int, int]) -> tuple[Integers, int]:
    """Returns the lost packets of each host that lost more than its system reported in `table`, and the number of losses that the
    systems' reports explain."""
    hosts = passages.end[losses]
    counts = {host: int((hosts == host).sum()) for host in range(len(passages.topology.hosts))}
    excessive = [host for host, count in counts.items() if count > table.get(host, 0)]
    explained = sum(min(counts.get(host, 0), count) for host, count in table.items())
    return losses[np.isin(hosts, excessive)], explained


def match(passages: Passages, end: int, table: dict[int, int]) -> Matched:
    """Matches the passages. A packet that arrived less than `end` ns before the last call may still be at the host, if the host
    sent on no later packet of the flow. `table` contains for each host the number of packets that its system dropped before the
    links."""
    ends = ends_of(passages)
    result = handings(passages, ends)
    matches, keys = matched_by_places(passages, result)
    nowhere, twice, earliest_matches = matched_one_by_one(passages, result, matches, keys)
    before = continued(passages, result, matches)
    earliest = continued(passages, result, earliest_matches)
    is_handed_on = np.isin(np.arange(len(passages)), before)
    rest = np.flatnonzero(np.isin(np.arange(len(passages)), result.got) & ~is_handed_on & ~ends.may_end)
    may_be_there = (passages.due[rest] > last_moment(passages) - end) & ~is_overtaken(passages, earliest, result.sent, rest)
    losses = rest[~may_be_there]
    rejections = is_rejected(passages, losses, before)
    unexplained, explained = beyond_reports(passages, losses[~rejections], table)
    again = result.sent[twice]
    is_delivered = passages.handed >= 0
    back = np.flatnonzero(is_delivered & ends.is_back)
    faults = {
        "came from nowhere": result.sent[nowhere],
        "came twice": again[~np.isin(passages.pipe[again], sorted(passages.topology.copied))],
        "too early": too_early(passages, before),
        "out of order": out_of_order(passages, result.sent, before, earliest),
        LOST_IN_HOST: unexplained,
        "sent back to its sender": back[:0] if passages.topology.has_daemons else back,
    }
    is_expired = is_delivered & ends.ends & ~ends.is_there & ~ends.is_back & ~ends.got_for_many
    return Matched(
        passages,
        before,
        is_there=is_delivered & ~ends.is_back & (ends.ends | ends.may_end & ~is_handed_on),
        at_the_end=int(may_be_there.sum()),
        told=explained + int(rejections.sum()),
        expired=int(is_expired.sum()),
        back=len(back) if passages.topology.has_daemons else 0,
        faults=faults,
    )
