"""A running `hinge udp`, and datagrams that pass through it in both directions."""

import contextlib
import re
import resource
import signal
import socket
import subprocess
import time
from typing import Iterator, Optional

from linked import HINGE, found
from with_folder import WithFolder

# bytes of a datagram, 1,000 with its headers; the seconds that it takes there and back at 8 Mbit/s and 2 x 20 ms
SIZE, ROUND = 972, 0.041
LOOPBACK = {socket.AF_INET: "127.0.0.1", socket.AF_INET6: "::1"}


class Path:
    """A running `hinge udp`: its address, and finally its status and output."""

    def __init__(self, *words: object, files: Optional[int] = None) -> None:
        """With `files`, the process may open at most that many descriptors."""
        limit = (lambda: resource.setrlimit(resource.RLIMIT_NOFILE, (files, files))) if files else None
        streams = {"stdin": subprocess.DEVNULL, "stdout": subprocess.PIPE, "stderr": subprocess.PIPE}
        self.process = subprocess.Popen([*HINGE, "udp", *map(str, words)], text=True, preexec_fn=limit, **streams)
        self.port = int(self.process.stdout.readline().rpartition(":")[2] or 0)

    def ended(self) -> tuple[int, str]:
        said = self.process.communicate(timeout=60)[1]
        return self.process.returncode, said

    def end(self, number: int = signal.SIGTERM) -> tuple[int, str]:
        self.process.send_signal(number)
        return self.ended()


@contextlib.contextmanager
def sockets(count: int, family: int = socket.AF_INET) -> Iterator[list[socket.socket]]:
    """Returns UDP sockets at free ports of this machine."""
    with contextlib.ExitStack() as stack:
        made = [stack.enter_context(socket.socket(family, socket.SOCK_DGRAM)) for _ in range(count)]
        for one in made:
            one.bind((LOOPBACK[family], 0))
            one.settimeout(60)
        yield made


def port_of(one: socket.socket) -> int:
    return int(one.getsockname()[1])


def rounds(client: socket.socket, server: socket.socket, path: Path, count: int) -> list[float]:
    """Returns the seconds of consecutive round trips through the path, with 0 for a round that brought another datagram."""
    took = []
    for number in range(count):
        sent = number.to_bytes(4, "big") + bytes(SIZE - 4)
        begun = time.monotonic()
        client.sendto(sent, (LOOPBACK[client.family], path.port))
        came, source = server.recvfrom(65536)
        server.sendto(came, source)
        back = client.recv(65536)
        took.append(time.monotonic() - begun if sent == came == back else 0.0)
    return took


def counts(said: str, way: str) -> dict[str, int]:
    line = found(rf"hinge udp: .*?\b{way}: (\d+ came[^;\n]*)", said)[0]
    return {words: int(number) for number, words in re.findall(r"(\d+) ([a-zA-Z ]+)", line)}


class InAFolder(WithFolder):
    def written(self, name: str, text: str) -> str:
        (self.folder / name).write_text(text)
        return str(self.folder / name)
