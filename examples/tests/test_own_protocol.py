"""A team's own protocol in real time: its client and server are threads with sockets, and know nothing of the link between them."""

import socket
import threading
import time

import pytest


class Server(threading.Thread):
    """Answers `put KEY VALUE` by `ok KEY`. A repeated put counts once."""

    def __init__(self):
        super().__init__(daemon=True)
        self.socket = socket.socket(socket.AF_INET, socket.SOCK_DGRAM)
        self.kept = {}
        self.socket.bind(("127.0.0.1", 0))
        self.port = self.socket.getsockname()[1]

    def run(self):
        while True:
            data, client = self.socket.recvfrom(2000)
            word, key, value = data.decode().split()
            self.kept.setdefault(key, value)
            self.socket.sendto(f"ok {key}".encode(), client)


def put_all(address, pairs, timer=0.1, tries=20):
    """Puts pairs one by one, and repeats what isn't answered. Returns how many datagrams it took."""
    sent = 0
    with socket.socket(socket.AF_INET, socket.SOCK_DGRAM) as client:
        client.connect(address)
        for key, value in pairs.items():
            for _ in range(tries):
                sent += 1
                client.send(f"put {key} {value}".encode())
                client.settimeout(timer)
                try:
                    while client.recv(2000).decode() != f"ok {key}":
                        pass
                    break
                except socket.timeout:
                    pass
    return sent


@pytest.mark.link("1Mbit/s 5ms plr 0.2")
def test_every_pair_is_kept(udp_path):
    server = Server()
    server.start()
    pairs = {f"key{number}": str(number) for number in range(30)}
    begun = time.monotonic()
    sent = put_all(udp_path(server.port).address, pairs)
    assert server.kept == pairs
    assert sent > len(pairs)  # some were lost, and sent again
    assert time.monotonic() - begun >= 30 * 2 * 0.005  # two delays each
