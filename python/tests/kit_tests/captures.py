"""Captures for the tests, written byte by byte, with the packets that are in them."""

import socket
import struct
import subprocess
from dataclasses import dataclass
from pathlib import Path
from typing import Optional

from hinge.captures.capture_file import write_frame, write_header

ETHERNET, PPP, RAW, COOKED, COOKED_2 = 1, 9, 101, 113, 276
BEGAN = 1_700_000_000_123_456_789  # ns since 1970


@dataclass(frozen=True)
class Expected:
    """A row that has to come out."""

    moment: int
    src: str
    dst: str
    proto: int
    sport: int
    dport: int
    length: int


def ip4(src: str, dst: str, proto: int, payload: bytes, fragment: int = 0, length: Optional[int] = None) -> bytes:
    """An IPv4 packet; its header may say another length, as that of a segment which the card was still to cut."""
    total = 20 + len(payload) if length is None else length
    return (
        struct.pack("!BBHHHBBH4s4s", 0x45, 0, total, 7, fragment, 64, proto, 0, socket.inet_aton(src), socket.inet_aton(dst))
        + payload
    )


def ip6(src: str, dst: str, following: int, payload: bytes, length: Optional[int] = None) -> bytes:
    addresses = b"".join(socket.inet_pton(socket.AF_INET6, address) for address in (src, dst))
    return struct.pack("!IHBB", 6 << 28, len(payload) if length is None else length, following, 64) + addresses + payload


def udp(sport: int, dport: int, size: int) -> bytes:
    return struct.pack("!HHHH", sport, dport, 8 + size, 0) + bytes(size)


def tcp(sport: int, dport: int, size: int) -> bytes:
    return struct.pack("!HHIIBBHHH", sport, dport, 1, 1, 5 << 4, 0x10, 1000, 0, 0) + bytes(size)


def ethernet(kind: int, payload: bytes, vlans: tuple[int, ...] = ()) -> bytes:
    tags = b"".join(struct.pack("!HH", 0x8100, vlan) for vlan in vlans)
    return bytes(11) + b"\x01" + tags + struct.pack("!H", kind) + payload


def pppoe(protocol: int, payload: bytes) -> bytes:
    return ethernet(0x8864, struct.pack("!BBHHH", 0x11, 0, 3, len(payload) + 2, protocol) + payload)


def cooked(kind: int, payload: bytes) -> bytes:
    return struct.pack("!HHHQH", 0, 1, 6, 0, kind) + payload


def write(path: Path, link_type: int, frames: list[tuple[int, bytes]]) -> None:
    with open(path, "wb") as out:
        write_header(out, link_type)
        for time, frame in frames:
            write_frame(out, time, len(frame), frame)


def block(kind: int, body: bytes) -> bytes:
    """A block of a pcapng file."""
    length = len(body) + -len(body) % 4 + 12
    return struct.pack("<II", kind, length) + body.ljust(length - 12, b"\0") + struct.pack("<I", length)


def without_times(path: Path) -> None:
    """A pcapng with a simple packet block, which has no time."""
    frame = ethernet(0x0800, ip4("10.0.0.1", "10.0.0.2", 17, udp(1, 2, 3)))
    section = struct.pack("<IHHq", 0x1A2B3C4D, 1, 0, -1)
    interface = struct.pack("<HHI", ETHERNET, 0, 65535)
    path.write_bytes(block(0x0A0D0D0A, section) + block(1, interface) + block(3, struct.pack("<I", len(frame)) + frame))


def timed_in_ns(path: Path, frames: list[tuple[int, bytes]]) -> None:
    """A pcapng whose times are ns in 64 bits."""
    section = struct.pack("<IHHq", 0x1A2B3C4D, 1, 0, -1)
    interface = struct.pack("<HHIHHI", ETHERNET, 0, 65535, 9, 1, 9) + bytes(4)
    packets = [
        block(6, struct.pack("<IIIII", 0, time >> 32, time & 0xFFFFFFFF, len(frame), len(frame)) + frame) for time, frame in frames
    ]
    path.write_bytes(block(0x0A0D0D0A, section) + block(1, interface) + b"".join(packets))


def odd_ethernet(path: Path) -> list[Expected]:
    """Ethernet with tags, PPPoE, IPv6 with an extension header, fragments, segments of length 0, and frames that aren't IP."""
    first, second = "192.0.2.1", "198.51.100.2"
    extended = struct.pack("!BBHI", 17, 0, 0, 0) + udp(4000, 4001, 60)
    padding = struct.pack("!BBBBI", 17, 0, 1, 4, 0)
    quoted = b"\x03\x03" + bytes(6) + ip4(second, first, 17, udp(9, 10, 0))
    packets = [
        (ethernet(0x0806, bytes(28)), None),
        (ethernet(0x0800, ip4(first, second, 17, udp(1000, 53, 40))), (first, second, 17, 1000, 53, 68)),
        (ethernet(0x0800, ip4(first, second, 6, tcp(1001, 443, 1400)), (5,)), (first, second, 6, 1001, 443, 1440)),
        (ethernet(0x0800, ip4(first, second, 6, tcp(1002, 443, 10)), (5, 6)), (first, second, 6, 1002, 443, 50)),
        (pppoe(0x21, ip4(second, first, 17, udp(53, 1000, 100))), (second, first, 17, 53, 1000, 128)),
        (pppoe(0xC021, bytes(10)), None),
        (pppoe(0x57, ip6("2001:db8::1", "2001:db8::2", 6, tcp(7, 8, 5))), ("240.0.0.1", "240.0.0.2", 6, 7, 8, 65)),
        (ethernet(0x86DD, ip6("2001:db8::2", "2001:db8::3", 0, extended)), ("240.0.0.2", "240.0.0.3", 17, 4000, 4001, 116)),
        (ethernet(0x0800, ip4(first, second, 17, udp(5, 6, 1472), 0x2000)), (first, second, 17, 5, 6, 1500)),
        (ethernet(0x0800, ip4(first, second, 17, bytes(520), 185)), (first, second, 17, 0, 0, 540)),
        (ethernet(0x0800, ip4(first, second, 1, quoted)), (first, second, 1, 0, 0, 56)),
        (
            ethernet(0x86DD, ip6("2001:db8::1", "2001:db8::2", 17, udp(1, 2, 300), length=0)),
            ("240.0.0.1", "240.0.0.2", 17, 0, 0, 348),
        ),
        (  # its padding ends where a port begins that looks like the option of a jumbogram
            ethernet(0x86DD, ip6("2001:db8::1", "2001:db8::2", 0, padding + udp(0xC2C2, 2, 300), length=0)),
            ("240.0.0.1", "240.0.0.2", 0, 0, 0, 356),
        ),
        (ethernet(0x0800, ip4(first, second, 6, tcp(1003, 443, 4000), length=0)), (first, second, 6, 1003, 443, 4040)),
    ]
    times = [BEGAN + 1_000_003 * number for number in range(len(packets))]
    write(path, ETHERNET, [(time, frame) for time, (frame, _) in zip(times, packets)])
    return [Expected(time - times[1], *packet) for time, (_, packet) in zip(times, packets) if packet is not None]


def other_links(folder: Path) -> list[Expected]:
    """A pcapng with an interface for raw IP and an interface for Linux cooked frames, whose packets alternate."""
    raw, sll = folder / "raw.pcap", folder / "sll.pcap"
    write(
        raw,
        RAW,
        [
            (BEGAN + 10_000_001, ip4("10.0.0.1", "10.0.0.2", 17, udp(1, 2, 3))),
            (BEGAN + 31_000_002, ip4("10.0.0.1", "10.0.0.2", 47, bytes(30))),
        ],
    )
    write(
        sll, COOKED, [(BEGAN + 20_000_000, cooked(0x0800, ip4("10.0.0.3", "10.0.0.4", 132, struct.pack("!HH", 3, 4) + bytes(8))))]
    )
    subprocess.run(
        ["mergecap", "-F", "pcapng", "-w", str(folder / "other.pcapng"), str(raw), str(sll)], check=True, capture_output=True
    )
    return [
        Expected(0, "10.0.0.1", "10.0.0.2", 17, 1, 2, 31),
        Expected(9_999_999, "10.0.0.3", "10.0.0.4", 132, 3, 4, 32),
        Expected(21_000_001, "10.0.0.1", "10.0.0.2", 47, 0, 0, 50),
    ]


def nested(folder: Path) -> list[Path]:
    """Captures of headers within headers, of IPv6 fragments and extension headers, and of further links."""
    first, second = "192.0.2.1", "198.51.100.2"
    four = ip4(first, second, 17, udp(1000, 53, 40))
    six = ip6("2001:db8::1", "2001:db8::2", 6, tcp(7, 8, 5))
    session = struct.pack("!BBHHH", 0x11, 0, 3, len(four) + 2, 0x21) + four
    fragment = [struct.pack("!BBHI", 17, 0, offset << 3 | more, 9) for offset, more in ((0, 1), (20, 0))]
    # hop-by-hop, routing, destination
    options = b"".join(struct.pack("!BB6x", following, 0) for following in (43, 60, 17))
    label = struct.pack("!I", 100 << 12 | 0x1FF)
    frames = [
        ethernet(0x88A8, struct.pack("!HH", 5, 0x8100) + struct.pack("!HH", 6, 0x0800) + four),
        ethernet(0x88A8, struct.pack("!HH", 5, 0x86DD) + six),
        ethernet(0x8864, session, (7,)),
        ethernet(0x8847, label + four),
        ethernet(0x8847, label + six, (9,)),
        ethernet(0x86DD, ip6("2001:db8::1", "2001:db8::2", 44, fragment[0] + udp(1, 2, 152))),
        ethernet(0x86DD, ip6("2001:db8::1", "2001:db8::2", 44, fragment[1] + bytes(60))),
        ethernet(0x86DD, ip6("2001:db8::1", "2001:db8::2", 0, options + udp(3, 4, 20))),
        ethernet(0x86DD, ip6("2001:db8::1", "2001:db8::2", 58, b"\x80" + bytes(7))),
        ethernet(0x86DD, ip6("2001:db8::1", "2001:db8::2", 4, four)),
        ethernet(0x0800, ip4(first, second, 41, six)),
        ethernet(0x0800, ip4(first, second, 47, bytes(2) + b"\x08\x00" + four)),
        ethernet(0x0800, b"\x46" + four[1:20] + bytes(4) + four[20:]),  # its header has an option
        ethernet(0x0800, four + bytes(18)),  # bytes behind the packet
        ethernet(0x0800, b"\x43" + four[1:]),  # no valid header
        ethernet(0x0800, four[:9]),
        ethernet(len(four) + 8, b"\xaa\xaa\x03\0\0\0\x08\0" + four),
        ethernet(0x0806, bytes(28), (5,)),
    ]
    paths = [folder / name for name in ("nested.pcap", "sll2.pcap", "ppp.pcap", "raw6.pcap")]
    second_cooked = struct.pack("!HHIHBBQ", 0x86DD, 0, 1, 1, 4, 6, 0) + six
    contents = [(ETHERNET, frames), (COOKED_2, [second_cooked]), (PPP, [b"\0\x21" + four, b"\0\x57" + six]), (RAW, [six, four])]
    for path, (link_type, several) in zip(paths, contents):
        write(path, link_type, [(BEGAN + 1_000_001 * number, frame) for number, frame in enumerate(several)])
    return paths
