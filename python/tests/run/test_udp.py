"""`hinge udp`: real clients and servers over loopback, without privileges; many clients, and hostile ends."""

import os
import resource
import signal
import socket
import struct
import time

from datagrams import ROUND, SIZE, InAFolder, Path, counts, port_of, rounds, sockets
from linked import (
    AT_ONCE,
    audited_as_lawful,
    crowded,
    found,
    hinge,
    matching,
    needs,
    needs_host,
    only_long,
    stopped,
    until,
    with_sigterm,
)

LINKS = ["pipe 1 config bw 8Mbit/s delay 20", "pipe 2 config delay 20"]


@needs_host
class OfDatagrams(InAFolder):
    def test_two_clients_and_a_burst_that_is_not_early(self) -> None:
        kept = self.folder / "history"
        with sockets(3) as [server, *clients]:
            path = Path(0, port_of(server), *LINKS, "--transcript", kept)
            took = [second for client in clients for second in rounds(client, server, path, 12)]
            begun, came = time.monotonic(), []
            for _ in range(20):
                clients[0].sendto(bytes(SIZE), ("127.0.0.1", path.port))
            for _ in range(20):
                server.recvfrom(65536)
                came.append(time.monotonic() - begun)
            status, said = path.end()
        assert min(took) >= ROUND
        assert [at for i, at in enumerate(came) if at < 0.021 + i / 1000] == []
        assert status == 0
        assert counts(said, "up")["came"] == 44
        assert counts(said, "up")["delivered"] == 44
        assert counts(said, "down")["delivered"] == 24
        assert len(found(r"^c,0,submit,pipe,[12],127.0.0.1,127.0.0.1,17,\d+,\d+,1000,", kept.read_text())) == 68
        audited_as_lawful(self, kept)

    def test_ipv6(self) -> None:
        kept = self.folder / "history"
        with sockets(2, socket.AF_INET6) as [server, client]:
            path = Path("[::1]:0", f"[::1]:{port_of(server)}", "--up", "20ms", "--down", "20ms", "--transcript", kept)
            took = rounds(client, server, path, 3)
            status, _ = path.end()
        assert (status, min(took) >= 0.04) == (0, True)
        assert len(found(rf"submit,pipe,1,240.0.0.1,240.0.0.1,17,\d+,\d+,{SIZE + 48},", kept.read_text())) == 3

    def test_no_datagram_of_ipv6_is_cut(self) -> None:
        """A link's packet has at most 65,535 bytes with its headers. Longer datagrams are dropped whole and counted, in both
        directions."""
        with sockets(2, socket.AF_INET6) as (client, server):
            path = Path("[::1]:0", f"[::1]:{port_of(server)}")
            client.setsockopt(socket.SOL_SOCKET, socket.SO_SNDBUF, 1 << 20)
            server.setsockopt(socket.SOL_SOCKET, socket.SO_SNDBUF, 1 << 20)
            for length in (65_488, 65_527, 65_487):
                client.sendto(bytes(length), ("::1", path.port))
            data, end = server.recvfrom(70_000)
            assert len(data) == 65_487
            for length in (65_488, 65_487):
                server.sendto(bytes(length), end)
            assert len(client.recv(70_000)) == 65_487
            _, said = path.end()
        assert found(r"(\d+) turned away", said) == ["2", "1"]

    @needs("pgrep")
    def test_a_path_without_a_processor_is_void(self) -> None:
        with sockets(2) as [server, client]:
            path = Path(0, port_of(server), "--up", "1ms", "--late", "1ms")
            with crowded(matching("-P", str(path.process.pid))[0]):
                for _ in range(40):
                    client.sendto(b"some", ("127.0.0.1", path.port))
                    time.sleep(0.03)
            for _ in range(40):
                server.recv(9)
            status, said = path.end()
        assert (status, "hinge udp: void: up: the p99 of " in said) == (75, True), said

    def test_losses_and_the_seed(self) -> None:
        with sockets(2) as [server, client]:
            path = Path(0, port_of(server), "--loss", "up:list:1-10", "--seed", "7")
            for _ in range(12):
                client.sendto(b"some", ("127.0.0.1", path.port))
            server.recv(9), server.recv(9)
            _, said = path.end()
        assert (counts(said, "up")["lost"], "; seed 7\n" in said) == (10, True)

    def test_a_trace(self) -> None:
        """The trace falls from 8 Mbit/s to 80 kbit/s: by the link's clock a packet takes 1 ms before, and 100 ms afterwards."""
        trace = self.written("trace", "seconds,bit/s\n0,8000000\n1,80000\n")
        kept = self.folder / "history"
        with sockets(2) as [server, client]:
            path = Path(0, port_of(server), "--up-trace", trace, "--transcript", kept)
            rounds(client, server, path, 4)
            time.sleep(1)
            rounds(client, server, path, 2)
            path.end()
        passed = [tuple(map(int, row)) for row in found(r"^d,\d+,0,(\d+),(\d+)$", kept.read_text())]
        took = [(start < 10**9, due - start) for start, due in passed]
        assert (len(took), set(took)) == (6, {(True, 10**6), (False, 10**8)}), passed

    def test_an_end_by_kill_leaves_a_whole_transcript(self) -> None:
        kept = f"{self.folder}/history"
        with sockets(2) as [server, client]:
            path = Path(0, port_of(server), "--transcript", kept)
            rounds(client, server, path, 2)
            path.process.kill()
            path.process.communicate()
            time.sleep(0.3)
        audited_as_lawful(self, kept)

    def test_a_transcript_that_cannot_be_written(self) -> None:
        with sockets(2) as [server, client]:
            path = Path(0, port_of(server), "--transcript", "/dev/full")
            assert 0 < min(rounds(client, server, path, 2))
            status, said = path.end()
        assert (status, "hinge: /dev/full: No space left on device\n" in said, "broke off" in said) == (75, True, True), said


@needs_host
class OfWords(InAFolder):
    def refused(self, *words: str) -> tuple[int, str]:
        done = hinge("udp", "0", "1", *words)
        assert done.stdout == ""
        return done.returncode, done.stderr

    def test_a_link_of_two_lines(self) -> None:
        with sockets(2) as [server, client]:
            path = Path(0, port_of(server), "\n".join(LINKS) + "\n")
            assert min(rounds(client, server, path, 2)) >= ROUND
            assert path.end()[0] == 0

    def test_a_transcript_that_is_the_link_file(self) -> None:
        link = self.written("link", "pipe 1 config delay 20\n")
        os.link(link, f"{self.folder}/alias")
        assert self.refused(link, "--transcript", f"{self.folder}/alias") == (
            2,
            f"hinge udp: --transcript {self.folder}/alias: the same file as {link}\n",
        )
        assert (self.folder / "link").read_text() == "pipe 1 config delay 20\n"

    def test_what_is_wrong_is_told_before_it_listens(self) -> None:
        assert self.refused("pipe 1 config dely 20") == (
            3,
            "hinge udp: LINK: word 4 'dely': not an option; write delay; in full: pipe 1 config delay 20\n",
        )
        assert self.refused("queue 1 config pipe 9") == (3, "hinge: queue 1 config pipe 9: no-such-pipe\n")
        assert self.refused(f"{self.folder}/none") == (2, f"hinge udp: {self.folder}/none: No such file or directory\n")

    def test_a_server_that_is_itself(self) -> None:
        with sockets(1) as [free]:
            port = port_of(free)
        for listen, server, told in ((f"{port}", f"localhost:{port}", "127.0.0.1"), (f"[::1]:{port}", f"[::1]:{port}", "[::1]")):
            done = hinge("udp", listen, server)
            again = f"{told}:{port} is LISTEN itself, and each datagram would come again for ever"
            assert (done.returncode, done.stderr) == (2, f"hinge udp: SERVER: {again}\n")

    def test_a_port_that_is_taken(self) -> None:
        with sockets(1) as [taken]:
            done = hinge("udp", str(port_of(taken)), "1")
            assert (done.returncode, done.stderr) == (6, f"hinge udp: 127.0.0.1:{port_of(taken)}: Address already in use\n")


@needs_host
class OfManyClients(InAFolder):
    def test_1500_clients(self) -> None:
        most = resource.getrlimit(resource.RLIMIT_NOFILE)[1]
        if most < 2000:
            self.skipTest(f"the system allows {most} descriptors")
        resource.setrlimit(resource.RLIMIT_NOFILE, (most, most))
        with sockets(1501) as [server, *clients]:
            path = Path(0, port_of(server), "--up", "1ms", "--down", "1ms")
            for client in clients:
                assert 0 < min(rounds(client, server, path, 1))
            assert 0 < min(rounds(clients[0], server, path, 1))
            status, said = path.end()
        assert (status, counts(said, "down")["delivered"]) == (0, 1501)

    def test_a_full_table_turns_new_clients_away(self) -> None:
        with sockets(101) as [server, *clients]:
            path = Path(0, port_of(server), files=64)  # 32 clients
            for client in clients:
                client.sendto(b"some", ("127.0.0.1", path.port))
            got = [server.recvfrom(9)[1] for _ in range(32)]
            assert 0 < min(rounds(clients[0], server, path, 3))
            status, said = path.end()
        assert (status, len(set(got)), counts(said, "up")["turned away"]) == (0, 32, 68)
        assert said.count("there are as many clients as the system allows") == 1

    @only_long
    def test_a_client_that_was_quiet_for_a_minute_is_let_go(self) -> None:
        with sockets(34) as [server, *clients]:
            path = Path(0, port_of(server), files=64)
            for client in clients[:32]:
                assert 0 < min(rounds(client, server, path, 1))
            time.sleep(62)
            assert 0 < min(rounds(clients[32], server, path, 1))
            status, said = path.end()
        assert (status, "too many" in said) == (0, False)


@needs_host
class OfHostileEnds(InAFolder):
    def test_a_server_that_is_not_there_is_counted(self) -> None:
        with sockets(2) as [server, client]:
            port = port_of(server)
            server.close()
            path = Path(0, port)
            for _ in range(5):
                client.sendto(b"some", ("127.0.0.1", path.port))
                time.sleep(0.05)
            time.sleep(1)  # a busy machine's path still has some of them
            with socket.socket(socket.AF_INET, socket.SOCK_DGRAM) as late:
                late.bind(("127.0.0.1", port))
                late.settimeout(60)
                client.sendto(b"last", ("127.0.0.1", path.port))
                assert late.recv(9) == b"last"
                status, said = path.end()
        assert (status, counts(said, "up")["came"], "dropped 0 before the link and 5 behind it" in said) == (0, 6, True), said

    def test_a_client_at_port_0_is_counted(self) -> None:
        try:
            raw = socket.socket(socket.AF_INET, socket.SOCK_RAW, socket.IPPROTO_UDP)
        except PermissionError:
            self.skipTest("this user has no raw sockets")
        with raw, sockets(2) as [server, client]:
            path = Path(0, port_of(server))
            raw.sendto(struct.pack("!HHHH", 0, path.port, 12, 0) + b"none", ("127.0.0.1", 0))
            data, source = server.recvfrom(9)
            server.sendto(b"back", source)
            assert 0 < min(rounds(client, server, path, 2))
            status, said = path.end()
        assert (status, data, "dropped 0 before the link and 1 behind it" in said) == (0, b"none", True), said

    @needs("pgrep")
    def test_a_flood_does_not_put_off_the_end(self) -> None:
        """After a signal, the host reads at most as many waiting datagrams as in a single turn."""
        with sockets(2) as [server, client]:
            path = Path(0, port_of(server))
            assert 0 < min(rounds(client, server, path, 1))
            [host] = matching("-P", str(path.process.pid), "hinge-link")
            with stopped(host):
                for _ in range(4 * AT_ONCE):
                    client.sendto(b"x", ("127.0.0.1", path.port))
                path.process.send_signal(signal.SIGTERM)
                until(lambda: with_sigterm(host))
            status, said = path.ended()
        assert status == 0, said
        assert counts(said, "up")["came"] <= 1 + AT_ONCE
