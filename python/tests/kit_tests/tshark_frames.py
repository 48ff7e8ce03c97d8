"""tshark's view of a capture: the IP packet of each frame, from the fields that tshark finds in it. The reader of the
kit is tried against tshark."""

import subprocess
from typing import Iterator, Optional

from hinge.border.files import Input
from hinge.captures.frames import Frame, Packet, RowPlan, read_capture

PREFERENCES = (
    "ip.defragment:FALSE ipv6.defragment:FALSE tcp.desegment_tcp_streams:FALSE "
    "tcp.analyze_sequence_numbers:FALSE tcp.calculate_timestamps:FALSE"
).split()
PORTED = {6: "tcp", 17: "udp", 132: "sctp", 136: "udp", 33: "dccp"}
EXTENSIONS = {0: "hopopts", 43: "routing", 44: "fraghdr", 60: "dstopts"}
# The bytes of what may stand before an IP header, by tshark's name.
HEADER_BYTES = {
    "eth": 14,
    "sll": 16,
    "llc": 8,
    "pppoes": 6,
    "vlan": 4,
    "ieee8021ad": 4,
    "null": 4,
    "mpls": 4,
    "ppp": 2,
    "ethertype": 0,
    "raw": 0,
}
DSCP = {"ip": "ip.dsfield.dscp", "ipv6": "ipv6.tclass.dscp"}
FIELDS = (
    "frame.time_epoch frame.len frame.protocols ip.src ip.dst ip.len ip.hdr_len ip.dsfield.dscp ip.proto ip.frag_offset "
    "ipv6.src ipv6.dst ipv6.tclass.dscp ipv6.plen ipv6.nxt ipv6.hopopts.nxt ipv6.routing.nxt ipv6.fraghdr.nxt ipv6.dstopts.nxt "
    "ipv6.fraghdr.offset tcp.hdr_len tcp.srcport tcp.dstport udp.srcport udp.dstport sctp.srcport sctp.dstport "
    "dccp.srcport dccp.dstport"
).split()


def nanoseconds(epoch: str) -> int:
    """Whole nanoseconds of seconds with up to nine digits behind the point."""
    seconds, _, fraction = epoch.partition(".")
    return int(seconds) * 10**9 + int(fraction.ljust(9, "0")[:9])


def link_bytes(protocols: list[str], ip: str) -> Optional[int]:
    """The bytes before the IP header, None where they aren't known."""
    before = protocols[: protocols.index(ip)]
    return sum(map(HEADER_BYTES.__getitem__, before)) if HEADER_BYTES.keys() >= set(before) else None


def final_header(value: dict[str, str]) -> int:
    """The protocol behind the extension headers of an IPv6 packet."""
    proto, left = int(value["ipv6.nxt"]), dict(EXTENSIONS)
    while proto in left:
        following = value[f"ipv6.{left.pop(proto)}.nxt"]
        if not following:
            break
        proto = int(following)
    return proto


def transport(value: dict[str, str], proto: int, is_later_fragment: bool) -> tuple[int, int, int]:
    """The two ports, and the length of the transport header."""
    header = int(value["tcp.hdr_len"] or 20) if proto == 6 else 8 if proto in PORTED else 0
    name = PORTED.get(proto)
    if name is None or is_later_fragment:
        return 0, 0, header
    return int(value[f"{name}.srcport"] or 0), int(value[f"{name}.dstport"] or 0), header


def frame_by_fields(number: int, value: dict[str, str]) -> Optional[Packet]:
    """The IP packet in the frame of a number, None where there is none."""
    protocols = value["frame.protocols"].split(":")
    ip = next((name for name in protocols if name in ("ip", "ipv6")), None)
    if ip is None or not value[f"{ip}.dst"]:  # its last field, which a frame that was cut may lack
        return None
    if ip == "ip":
        proto, own = int(value["ip.proto"]), int(value["ip.hdr_len"])
        length = int(value["ip.len"])
        fragment = value["ip.frag_offset"]
    else:
        proto = final_header(value)
        own = 40
        fragment = value["ipv6.fraghdr.offset"]
        length = int(value["ipv6.plen"]) and int(value["ipv6.plen"]) + own
    if length == 0:  # a packet of more than 65,535 bytes, or one that the card was still to cut
        before = link_bytes(protocols, ip)
        if before is None:
            return None
        length = int(value["frame.len"]) - before
    sport, dport, header = transport(value, proto, fragment not in ("", "0"))
    dscp = int(value[DSCP[ip]] or "0", 0)
    frame = Frame(number, value[f"{ip}.src"], value[f"{ip}.dst"], proto, sport, dport, dscp)
    return Packet(frame, nanoseconds(value["frame.time_epoch"]), length, own + header)


def frames_by_kit(capture: str) -> Iterator[tuple[int, Optional[Packet]]]:
    """The same by the program of the kit."""
    with open("/dev/null", "wb") as nowhere, read_capture(
        Input(capture, capture), RowPlan(), nowhere.fileno(), by_frame=True
    ) as reader:
        packets = {packet.frame.number: packet for packet in reader.packets()}
        yield from ((number, packets.get(number)) for number in range(1, reader.frame_count + 1))


def frames_by_tshark(capture: str) -> Iterator[tuple[int, Optional[Packet]]]:
    """Each frame's number, and its IP packet if any."""
    fields = [word for field in FIELDS for word in ("-e", field)]
    preferences = [word for preference in PREFERENCES for word in ("-o", preference)]
    words = ["tshark", "-n", "-r", capture, *preferences, "-T", "fields", "-E", "occurrence=f", "-E", "separator=/t", *fields]
    for number, line in enumerate(subprocess.run(words, capture_output=True, text=True).stdout.splitlines(), 1):
        yield number, frame_by_fields(number, dict(zip(FIELDS, line.split("\t"))))
