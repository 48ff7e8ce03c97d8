"""Random frames of each link, for captures that are read by the kit and by tshark: tags, labels, sessions, options,
fragments and headers that extend IPv6, cut anywhere."""

import random
import struct
from typing import Callable

from captures import COOKED, COOKED_2, ETHERNET, PPP, RAW, cooked, ip4, ip6, tcp, udp

IP, IP6 = 0x0800, 0x86DD
ADDRESSES = ("2001:db8::3", "::ffff:10.1.2.3", "fe80::1", "::1")


class Frames:
    """Frames of a seed."""

    def __init__(self, seed: int) -> None:
        self.draw = random.Random(seed)
        self.links: dict[int, Callable[[], bytes]] = {
            0: lambda: self.behind(lambda kind: struct.pack("<I", 2 if kind == IP else self.draw.choice((24, 28, 30)))),
            ETHERNET: self.ethernet,
            PPP: lambda: self.draw.choice((b"", b"\xff\x03")) + self.behind(self.ppp),
            12: self.inner,
            14: self.inner,
            50: lambda: b"\xff\x03" + self.behind(self.ppp),
            51: self.session,
            RAW: self.inner,
            104: lambda: self.behind(lambda kind: b"\x0f\0" + struct.pack("!H", kind)),
            105: self.wireless,
            108: lambda: self.behind(lambda kind: struct.pack(">I", 2 if kind == IP else 28)),
            COOKED: lambda: self.behind(lambda kind: cooked(kind, b"")),
            127: lambda: b"\0\0\x08\0\0\0\0\0" + self.wireless(),
            228: self.four,
            229: self.six,
            COOKED_2: lambda: self.behind(lambda kind: struct.pack("!HHIHBBQ", kind, 0, 1, 1, 4, 6, 0)),
        }

    def port(self) -> int:
        return self.draw.randrange(65536)

    def transport(self, proto: int) -> bytes:
        size = self.draw.choice((0, 1, 3, 4, 7, 8, 20, 60, 300))
        if proto == 17:
            return udp(self.port(), self.port(), size)
        if proto == 6:
            return tcp(self.port(), self.port(), size)
        if proto == 132:
            return struct.pack("!HHII", self.port(), self.port(), 0, 0) + bytes(size)
        return self.draw.randbytes(size)

    def four(self) -> bytes:
        """An IPv4 packet, some with options and some with a length that is none."""
        proto = self.draw.choice((6, 17, 132, 1, 47, 136, 50, 2, 89))
        fragment = self.draw.choice((0, 0, 0, 0x4000, 0x2000, 0x2005, 185))
        packet = bytearray(ip4(f"10.{self.draw.randrange(256)}.0.1", "192.0.2.7", proto, self.transport(proto), fragment))
        packet[1] = self.draw.randrange(256)
        if self.draw.random() < 0.2:
            words = self.draw.choice((1, 2, 5))
            packet[0], packet[20:20] = 0x45 + words, b"\1" * 4 * words
            packet[2:4] = len(packet).to_bytes(2, "big")
        if self.draw.random() < 0.1:
            packet[2:4] = self.draw.choice((19, 20, 21, len(packet) + 9)).to_bytes(2, "big")
        return bytes(packet)

    def six(self) -> bytes:
        """An IPv6 packet with headers that extend it."""
        proto = self.draw.choice((6, 17, 132, 58, 136, 50, 4))
        body = self.four() if proto == 4 else self.transport(proto) or b"\0"
        for _ in range(self.draw.choice((0, 0, 0, 1, 1, 2, 3))):
            kind = self.draw.choice((0, 43, 60, 44))
            size = 8 * self.draw.choice((1, 1, 2, 3))
            if kind == 44:
                body = struct.pack("!BBHI", proto, 0, self.draw.choice((0, 1, 20 << 3, 20 << 3 | 1)), 9) + body
            else:
                options = bytes(size - 2) if kind == 43 else bytes((1, size - 4)) + bytes(size - 4)
                body = struct.pack("!BB", proto, size // 8 - 1) + options + body
            proto = kind
        packet = bytearray(ip6(f"2001:db8::{self.port():x}", self.draw.choice(ADDRESSES), proto, body))
        packet[0], packet[1] = 0x60 + self.draw.randrange(16), self.draw.randrange(256)
        return bytes(packet)

    def inner(self) -> bytes:
        return self.draw.choice((self.four, self.six))()

    def behind(self, head: Callable[[int], bytes]) -> bytes:
        """A packet behind a header that names its kind."""
        packet = self.inner()
        return head(IP if packet[0] >> 4 == 4 else IP6) + packet

    @staticmethod
    def ppp(kind: int) -> bytes:
        return b"\0\x21" if kind == IP else b"\0\x57"

    def session(self) -> bytes:
        packet = self.behind(self.ppp)
        return struct.pack("!BBHH", 0x11, 0, 3, len(packet)) + packet

    def ethernet(self) -> bytes:
        """A frame of Ethernet, some with tags, labels, a session or a header of 802.2, and some of no IP packet."""
        chance = self.draw.random()
        if chance < 0.15:
            kind, packet = (
                0x8847,
                b"".join(struct.pack("!I", 100 << 12 | 0xFF) for _ in range(self.draw.randrange(2)))
                + b"\0\6\x41\xff"
                + self.inner(),
            )
        elif chance < 0.3:
            kind, packet = 0x8864, self.session()
        elif chance < 0.4:
            packet = b"\xaa\xaa\x03\0\0\0" + self.behind(lambda kind: struct.pack("!H", kind))
            return bytes(11) + b"\1" + struct.pack("!H", len(packet)) + packet
        else:
            packet = self.inner()
            kind = self.draw.choice((0x0806, 0x88CC, 0x1234)) if chance < 0.45 else IP if packet[0] >> 4 == 4 else IP6
        for tag in self.draw.choice(((), (), (0x8100,), (0x8100, 0x88A8), (0x8100, 0x8100), (0x9100,))):
            kind, packet = tag, struct.pack("!HH", 5, kind) + packet
        return bytes(11) + b"\1" + struct.pack("!H", kind) + packet

    def wireless(self) -> bytes:
        is_qos = self.draw.random() < 0.5
        head = bytes((0x88 if is_qos else 8, self.draw.choice((1, 2)))) + bytes(24 if is_qos else 22)
        return head + b"\xaa\xaa\x03\0\0\0" + self.behind(lambda kind: struct.pack("!H", kind))

    def cut(self, frame: bytes) -> bytes:
        """The frame as a capture may have it."""
        return frame[: self.draw.randrange(len(frame) + 1)] if self.draw.random() < 0.5 else frame
