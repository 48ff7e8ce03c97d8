"""The host between two sockets cuts large TCP packets like a network card, and joins packets. A header precedes each packet."""

import os
import platform
import socket
import struct
import time
import unittest
from functools import partial

from hinge.captures.random_words import word
from linked import SEEDS, Linked, found, ip4, needs_host, stopped, until

# struct virtio_net_hdr: flags, kind, headers' length, size, start and offset of the checksum
NOTE = struct.Struct("=BBHHHH")
CHECKSUM, TCP4, TCP6, UDP, ECN = 1, 1, 4, 5, 0x80
FIN, PUSH, ACK, ECHO, REDUCED = 1, 8, 16, 64, 128
TCP_CHECKSUM = 16
OF_BITS = 4 << 20  # the stream of random words, as passes.c has it
TIMES = bytes([1, 1, 8, 10]) + bytes(range(8))  # a time stamp, as most packets have it
ENDS = socket.inet_aton("10.8.0.1") + socket.inet_aton("10.8.0.2")
ENDS_OF_6 = socket.inet_pton(socket.AF_INET6, "fd08::1") + socket.inet_pton(socket.AF_INET6, "fd08::2")


def summed(data: bytes) -> int:
    total = sum(struct.unpack(f"!{len(data) // 2}H", data))
    while total > 0xFFFF:
        total = (total & 0xFFFF) + (total >> 16)
    return total


def tcp(ends: bytes, sequence: int, flags: int, data: bytes) -> bytes:
    """Returns a TCP segment, with the sum to which a card adds the packet's own: of both addresses, the protocol and the length."""
    length = 20 + len(TIMES) + len(data)
    begun = summed(ends + struct.pack("!HH", 6, length))
    return (
        struct.pack("!HHIIBBHHH", 40000, 443, sequence % 2**32, 77, (20 + len(TIMES)) // 4 << 4, flags, 500, begun, 0)
        + TIMES
        + data
    )


def ip(ends: bytes, protocol: int, inside: bytes, number: int, options: bytes = b"") -> bytes:
    """Returns a packet with the correct checksum of IPv4's header."""
    if len(ends) > 8:
        return struct.pack("!IHBB", 0x6 << 28, len(inside), protocol, 64) + ends + inside
    length = 20 + len(options) + len(inside)
    head = struct.pack("!BBHHHBBH", 0x45 + len(options) // 4, 2, length, number % 2**16, 0x4000, 64, protocol, 0) + ends + options
    return head[:10] + struct.pack("!H", 0xFFFF - summed(head)) + head[12:] + inside


def in_ipv4(sequence: int, flags: int, data: bytes, number: int, options: bytes = bytes([1, 1, 1, 0])) -> bytes:
    return ip(ENDS, 6, tcp(ENDS, sequence, flags, data), number, options)


def in_ipv6(sequence: int, flags: int, data: bytes, number: int) -> bytes:
    return ip(ENDS_OF_6, 6, tcp(ENDS_OF_6, sequence, flags, data), number)


def noted(packet: bytes, kind: int = 0, size: int = 0) -> bytes:
    start = 24 if packet[0] >> 4 == 4 else 40
    return NOTE.pack(CHECKSUM, kind, start + 32 if kind else 0, size, start, TCP_CHECKSUM) + packet


@needs_host
class OfSegments(unittest.TestCase):
    def through(self, sent: "list[bytes]", expected: int) -> "tuple[list[bytes], str]":
        """Sends packets through the host; returns the output and asserts a lawful history."""
        link = Linked(SEEDS + "line pipe 1 config delay 1\n", carrier="tun")
        for packet in sent:
            link.near.send(packet)
        got = [link.far.recv(70000) for _ in range(expected)]
        ended = link.end()
        up = ended.counts.ways[0]
        assert (ended.status, up["came"], sum(up.unread.bins), sum(up.late.bins)) == (0, *[expected] * 3)
        return got, ended.history

    def test_each_packet_is_as_a_card_makes_it(self) -> None:
        """The sequence number and the packet's identification continue, also past their greatest values. Only the last packet has
        FIN and PUSH, and only the first CWR."""
        size, sequence, number = 1448, 2**32 - 2000, 2**16 - 2
        for build, kind, headers in ((in_ipv4, TCP4, 56), (in_ipv6, TCP6, 72)):
            for length in (size + 1, 3 * size, 40 * size + 7):
                data = os.urandom(length)
                whole = build(sequence, ACK | ECHO | PUSH | FIN | REDUCED, data, number)
                wanted = [
                    noted(
                        build(
                            sequence + at,
                            ACK | ECHO | (PUSH | FIN) * (at + size >= length) | REDUCED * (at == 0),
                            data[at : at + size],
                            number + at // size,
                        )
                    )
                    for at in range(0, length, size)
                ]
                got, history = self.through([noted(whole, kind | ECN, size)], len(wanted))
                assert [NOTE.unpack(one[:10])[:4] for one in got] == [(CHECKSUM, 0, 0, 0)] * len(wanted)
                assert got == wanted
                assert found(r",40000,443,(\d+),", history) == [
                    str(headers + len(data[at : at + size])) for at in range(0, length, size)
                ]

    def test_segments_shorter_than_their_headers(self) -> None:
        data = os.urandom(1000)
        got, _ = self.through([noted(in_ipv4(5, ACK, data, 1), TCP4, 8)], 125)
        assert got == [noted(in_ipv4(5 + at, ACK, data[at : at + 8], 1 + at // 8)) for at in range(0, 1000, 8)]

    def test_what_is_not_to_be_cut_comes_as_it_is(self) -> None:
        """Packets with and without a header pass unchanged, among them a complete packet and one whose header doesn't fit."""
        data = os.urandom(3000)
        plain = NOTE.pack(0, 0, 0, 0, 0, 0) + ip4("10.8.0.1", "10.8.0.2", 17, 7, 8, 60000)
        small = noted(in_ipv4(1, ACK, b"x", 9))
        odd = NOTE.pack(CHECKSUM, TCP4, 0, 1448, 65000, TCP_CHECKSUM) + in_ipv4(1, ACK, b"x", 9)
        sent = [plain, small, noted(in_ipv4(0, ACK, data, 3), TCP4, 1500), small, odd, plain]
        got, _ = self.through(sent, 7)
        cut = [noted(in_ipv4(at, ACK, data[at : at + 1500], 3 + at // 1500)) for at in (0, 1500)]
        assert got == [plain, small, *cut, small, odd, plain]

    def test_a_flipped_bit_is_behind_a_whole_checksum(self) -> None:
        """The host first completes the card's checksum, or a receiver would believe it. A packet of odd length counts as padded
        with 0."""
        sent = [build(at, ACK, os.urandom(999 + at % 2), at) for at in range(20) for build in (in_ipv4, in_ipv6)]
        link = Linked(f"{SEEDS}line pipe 1 config\ncorrupt 0 {2**31} 9\n", carrier="tun")
        for number, packet in enumerate(sent, 1):
            link.near.send(noted(packet))
            got = link.far.recv(70000)
            header = 24 if packet[0] >> 4 == 4 else 40
            bits = 8 * (len(packet) - header)
            bit = word(9, number, 1 + OF_BITS) % bits
            whole = bytearray(got[10:])
            whole[-1 - bit // 8] ^= 1 << bit % 8
            pseudo = (ENDS if header == 24 else ENDS_OF_6) + struct.pack("!HH", 6, bits // 8)
            ended = [bytes(whole[:place]) + bytes(whole[place + 2 :]) for place in (header + TCP_CHECKSUM,)]
            assert (got[:10], ended[0]) == (bytes(10), packet[: header + TCP_CHECKSUM] + packet[header + TCP_CHECKSUM + 2 :])
            assert summed(pseudo + whole[header:] + bytes(len(whole) % 2)) == 0xFFFF
        ended = link.end()
        assert (ended.counts.ways[0]["corrupted"], len(found("^#,corrupt,", ended.history))) == (len(sent), len(sent))


bare_ipv4 = partial(in_ipv4, options=b"")


def datagram(number: int, data: bytes, ends: bytes, kind: int = 0, size: int = 0) -> bytes:
    """Returns a UDP datagram behind its header."""
    length = 8 + len(data)
    inside = struct.pack("!HHHH", 5, 7, length, summed(ends + struct.pack("!HH", 17, length))) + data
    start = 20 if len(ends) == 8 else 40
    return NOTE.pack(CHECKSUM, kind, start + 8 if kind else 0, size, start, 6) + ip(ends, 17, inside, number)


def of_card(packet: bytes) -> bytes:
    start = 20 if packet[0] >> 4 == 4 else 40
    return NOTE.pack(CHECKSUM, 0, 0, 0, start, TCP_CHECKSUM) + packet


@needs_host
class OfJoins(unittest.TestCase):
    """Packets of a late link leave at once: consecutive TCP packets of one connection leave in one write."""

    def writes(self, sent: "list[bytes]", length: int, packets: int, headers: int = 32) -> "list[bytes]":
        """Returns the far end's bytes until the given number of data bytes has arrived, in this many packets with such headers
        after IP's."""
        got, is_late = list[bytes](), True
        while is_late:  # as on a busy machine, where some have left before the stop
            link = Linked(SEEDS + "line pipe 1 config delay 20\n", carrier="tun")
            for packet in sent:
                link.near.send(packet)
            until(lambda: link.came() == packets)
            with stopped(link.process.pid):
                time.sleep(0.05)
                is_late = link.page.read().ways[0]["sent"] > 0
        while length > 0:
            got.append(link.far.recv(70000))
            length -= len(got[-1]) - 10 - (20 if got[-1][10] >> 4 == 4 else 40) - headers
        ended = link.end()
        assert ended.counts.ways[0]["sent"] == packets
        return got

    def test_they_are_cut_again_as_they_were(self) -> None:
        """A busy machine decides how many packets share a write. Another link forwards the card's original packets."""
        for build, kind in ((bare_ipv4, TCP4), (in_ipv6, TCP6)):
            data = os.urandom(3 * 1448 + 7)
            first = 2**32 - 3000
            start = 20 if kind == TCP4 else 40

            def built(at: int, end: int) -> bytes:
                return build(first + at, ACK | PUSH * (end == len(data)), data[at:end], 2**16 - 2 + at // 1448)

            sent = [of_card(built(at, min(at + 1448, len(data)))) for at in range(0, len(data), 1448)]
            for packets in (sent, [NOTE.pack(CHECKSUM, kind, start + 32, 1448, start, TCP_CHECKSUM) + built(0, len(data))]):
                at, joined = 0, 0
                for one in self.writes(packets, len(data), len(sent)):
                    end = at + len(one) - 10 - start - 32
                    joined += end > at + 1448
                    note = (CHECKSUM, kind, start + 32, 1448) if end > at + 1448 else (CHECKSUM, 0, 0, 0)
                    assert (NOTE.unpack(one[:10]), one[10:]) == ((*note, start, TCP_CHECKSUM), built(at, end))
                    at = end
                assert joined > 0

    def test_those_that_do_not_follow_are_not_joined(self) -> None:
        """A different port, place, number, time to live, time stamp or flag, a longer segment, or a segment after a PUSH or a short
        segment."""
        data = os.urandom(1448)
        first, good = bare_ipv4(0, ACK, data, 1), bare_ipv4(1448, ACK, data, 2)
        assert len(self.writes([of_card(first), of_card(good)], 2896, 2)) == 1
        stamped = good[: 52 - 1] + bytes([good[51] ^ 1]) + good[52:]
        others = [
            bare_ipv4(1449, ACK, data, 2),
            bare_ipv4(1448, ACK, data, 3),
            bare_ipv4(1448, ACK | FIN, data, 2),
            good[:8] + b"\x3f" + good[9:],
            stamped,
            good[:21] + b"?" + good[22:],
            bare_ipv4(1448, ACK, data + b"x", 2),
        ]
        for other in others:
            assert self.writes([of_card(first), of_card(other)], 2896, 2) == [of_card(first), of_card(other)]
        # of the second 448 bytes are lost
        shorter, lacking = bare_ipv4(1448, ACK, data[:1000], 2), bare_ipv4(2896, ACK, data, 3)
        assert len(self.writes([of_card(one) for one in (first, shorter, lacking)], 3896, 3)) == 2
        for before in (bare_ipv4(0, ACK | PUSH, data, 1), bare_ipv4(1, ACK, data[1:], 1)):
            assert len(self.writes([of_card(before), of_card(good)], 2895, 2)) == 2

    @unittest.skipIf(tuple(map(int, platform.release().split(".")[:2])) < (6, 2), "an older system takes them one by one")
    def test_datagrams_of_one_length_from_one_socket_to_another(self) -> None:
        data = os.urandom(260)
        for ends in (ENDS, ENDS_OF_6):
            sent = [datagram(2**16 - 1 + at // 100, data[at : at + 100], ends) for at in (0, 100, 200)]
            assert self.writes(sent, 260, 3, 8) == [datagram(2**16 - 1, data, ends, UDP, 100)]
            others = datagram(0, data[:101], ends), datagram(0, data[:100], ends[:-1] + b"\x03"), bytes(10) + sent[1][10:]
            for other in others:
                assert self.writes([sent[0], other], 200, 2, 8) == [sent[0], other]
        assert len(self.writes([datagram(1, data, ENDS), datagram(3, data, ENDS)], 520, 2, 8)) == 2

    def test_those_of_two_links_are_not_joined(self) -> None:
        data = os.urandom(1448)
        sent = [of_card(bare_ipv4(0, ACK, data, 1)), of_card(bare_ipv4(1448, ACK, data, 2))]
        link = Linked("seed 0 1\nline pipe 1 config delay 30\nline pipe 3 config delay 30\n", carrier="tun", links=2)
        link.ends[0].send(sent[0])
        until(lambda: link.came() == 1)
        link.ends[2].send(sent[1])
        until(lambda: link.page.read().ways[2]["came"] == 1)
        with stopped(link.process.pid):
            time.sleep(0.05)
        assert [link.ends[1].recv(70000), link.ends[3].recv(70000)] == sent
        link.end()
