"""The shortest host: what comes to a UDP port goes through pipe 1 to a server, and what the server sends back goes through pipe 2.

    python3 host.py 7000 localhost:7001 'pipe 1 config bw 8Mbit/s delay 20' 'pipe 2 config delay 20'

It serves the one client that sent last, until ^C. `hinge udp` does the same for many, and reports how late it was; this one is to be
read, for a host of your own.
"""

from __future__ import annotations

import random
import select
import sys
import time
from socket import AF_INET, SOCK_DGRAM, gethostbyname, socket

from session import Session, program

HEADERS = 28  # bytes of IPv4 and UDP before the data, which a link carries too
THERE, BACK = 1, 2  # the pipes


def main(port: str, server: str, *links: str) -> None:
    host, _, server_port = server.rpartition(":")
    near, far = socket(AF_INET, SOCK_DGRAM), socket(AF_INET, SOCK_DGRAM)
    near.bind(("127.0.0.1", int(port)))
    far.connect((gethostbyname(host or "localhost"), int(server_port)))
    client, held, wake = ("127.0.0.1", 0), {}, None  # held: datagrams on the link, by their packets' numbers; wake: ns
    begun = time.monotonic_ns()
    with Session(program()) as session:
        for link in links:
            session.configure(link)
        while True:
            patience = None if wake is None else max(0, wake - (time.monotonic_ns() - begun)) / 1e9
            ready, _, _ = select.select([near, far], [], [], patience)
            moment = time.monotonic_ns() - begun
            for one in ready:
                data, source = one.recvfrom(65536)
                client = source if one is near else client
                pipe, ends = (THERE, (source, far.getpeername())) if one is near else (BACK, (source, client))
                (src, sport), (dst, dport) = ends
                [fate] = session.ask(
                    [
                        f"c,0,submit,pipe,{pipe},{src},{dst},17,{sport},{dport},{len(data) + HEADERS},{random.getrandbits(31)},{moment}"
                    ]
                )
                if fate.outcome == "queued":
                    held[fate.numbers[2]] = pipe, data
            leaving, following = session.ask([f"c,0,collect,{moment}", "next"])
            for packet, _flow, _start, _due in leaving.items:
                pipe, data = held.pop(int(packet))
                far.send(data) if pipe == THERE else near.sendto(data, client)
            wake = min(following.numbers, default=None)


if __name__ == "__main__":
    if len(sys.argv) < 4:
        sys.exit(__doc__)
    try:
        main(*sys.argv[1:])
    except KeyboardInterrupt:
        pass
