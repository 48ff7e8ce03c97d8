"""How `hinge run` treats its server, its standard streams and its files; and the users and terminals of the rooms, with subordinate ids
and without."""

import contextlib
import json
import os
import shutil
import signal
import subprocess
import sys
import tempfile
from typing import Any, Optional

from hinge.run.users import Subordinate, mapping, subordinate
from linked import HINGE, audited_as_lawful, found, hinge, matching, needs, needs_mounts, needs_rooms, outcome, run, until
from with_folder import WithFolder


@needs_rooms
class OfServers(WithFolder):
    def server(self, command: str, *words: str) -> tuple[int, str, Any]:
        """Returns the status, the messages, and the server's part of the summary."""
        done = run("--quiet", "--server", command, "--json", self.folder / "json", *words)
        return done.returncode, done.stderr, json.loads((self.folder / "json").read_text())["server"]

    def test_its_group_gets_sigterm_whether_it_is_the_shell_or_not(self) -> None:
        told = self.folder / "told"
        for words in ("", "exec "):
            script = f'{words}sh -c \'trap "echo ended >> {told}; exit" TERM; echo on >> {told}; while :; do sleep 0.05;' " done'"
            status, said, server = self.server(
                script, "--server-wait", "50ms", "--", "sh", "-c", f"until grep -qs on {told}; do sleep 0.05; done"
            )
            assert (status, "killed" in said, server["by"], told.read_text()) == (0, False, "SIGTERM", "on\nended\n")
            told.unlink()

    def test_what_was_killed_or_crashed_is_told(self) -> None:
        ready = self.folder / "ready"
        deaf = f"trap '' TERM; touch {ready}; while :; do sleep 0.1; done"
        status, said, server = self.server(
            deaf, "--server-wait", "50ms", "--server-end", "200ms", "--", "sh", "-c", f"until [ -e {ready} ]; do sleep 0.05; done"
        )
        assert status == 0
        assert server["by"] == "SIGKILL"
        assert found("run: (the server was .*)", said) == ["the server was killed, since SIGTERM didn't end it in 0.2 s"]
        crash = f"until [ -e {self.folder}/go ]; do sleep 0.05; done; touch {self.folder}/gone; kill -SEGV $$"
        command = f"touch {self.folder}/go; until [ -e {self.folder}/gone ]; do sleep 0.05; done; sleep 0.2; exit 5"
        status, said, server = self.server(crash, "--server-wait", "50ms", "--", "sh", "-c", command)
        assert status == 5
        assert server["status"] == 139
        assert server["by"] == "itself"
        assert found("run: (the server ended .*)", said) == ["the server ended with SIGSEGV before the command did"]

    def test_a_server_that_ends_by_itself_is_let(self) -> None:
        status, _, server = self.server("exec sleep 0.1", "--server-wait", "20ms", "--", "true")
        assert (status, server["status"], server["by"]) == (0, 0, "itself")

    def test_a_signal_while_it_is_waited_for(self) -> None:
        ready = self.folder / "ready"
        begun = subprocess.Popen(
            [*HINGE, "run", "--server", f"touch {ready}; sleep 77", "--server-wait", "1h", "--", "true"], stderr=subprocess.DEVNULL
        )
        until(ready.exists)
        begun.send_signal(signal.SIGTERM)
        assert begun.wait(60) == 143


@needs_rooms
class OfStreams(WithFolder):
    def test_closed_ones_are_nothing(self) -> None:
        for closed in ("<&-", ">&-", "2>&-", "<&- >&- 2>&-"):
            done = outcome(["sh", "-c", f'"$@" {closed}', "sh", *HINGE, "run", "--quiet", "--", "sh", "-c", "exit 3"])
            assert (done.returncode, done.stdout, done.stderr) == (3, "", ""), closed


@needs_rooms
@needs("pgrep")
class OfFiles(WithFolder):
    def test_a_transcript_and_a_summary_are_two_files(self) -> None:
        for name in ("new", "old"):
            (self.folder / "old").write_text("kept")
            done = run("--transcript", self.folder / name, "--json", self.folder / "." / name, "--", "true")
            assert done.returncode == 2, done.stderr
            assert "the same file as" in done.stderr, done.stderr
            assert (self.folder / "new").exists() is False, done.stderr
        assert (self.folder / "old").read_text() == "kept"

    def test_two_runs_do_not_share_a_transcript(self) -> None:
        path, go = self.folder / "history", self.folder / "go"
        first = subprocess.Popen(
            [*HINGE, "run", "--quiet", "--transcript", str(path), "--", "sh", "-c", f"until [ -e {go} ]; do sleep 0.05; done"]
        )
        until(path.exists)
        second = run("--quiet", "--transcript", path, "--", "true")
        go.touch()
        assert (first.wait(60), second.returncode, second.stderr) == (0, 6, f"hinge: {path}: another run writes it\n")
        audited_as_lawful(self, path)
        assert run("--quiet", "--transcript", path, "--", "true").returncode == 0

    def test_a_line_feed_in_a_name(self) -> None:
        done = run("--transcript", f"{self.folder}/a\nline pipe 1 config", "--", "true")
        assert (done.returncode, "a line feed in its name" in done.stderr, os.listdir(self.folder)) == (2, True, [])

    def test_a_summary_that_cannot_be_written_takes_no_status(self) -> None:
        for command, status in (("exit 4", 4), ("exit 0", 6)):
            done = run("--quiet", "--json", "/dev/full", "--", "sh", "-c", command)
            assert (done.returncode, done.stderr) == (status, "hinge run: --json /dev/full: No space left on device\n")

    def test_a_transcript_that_nobody_reads_does_not_hold_back_a_signal(self) -> None:
        fifo = self.folder / "fifo"
        os.mkfifo(fifo)
        begun = subprocess.Popen([*HINGE, "run", "--transcript", str(fifo), "--", "true"], stderr=subprocess.DEVNULL)
        until(lambda: matching("-P", str(begun.pid)))
        begun.send_signal(signal.SIGTERM)
        assert begun.wait(60) == 143

    def test_a_signal_while_its_files_are_read(self) -> None:
        """An empty FIFO that nobody writes to holds up the plan for ever."""

        def reader() -> Optional[int]:
            with contextlib.suppress(OSError):
                return os.open(fifo, os.O_WRONLY | os.O_NONBLOCK)
            return None

        fifo = self.folder / "fifo"
        os.mkfifo(fifo)
        for words in (["run", "--config", str(fifo), "--", "true"], ["udp", "--config", str(fifo), "0", "9"], ["net", str(fifo)]):
            for number, status in ((signal.SIGTERM, -signal.SIGTERM), (signal.SIGINT, 130)):
                begun = subprocess.Popen([*HINGE, *words], stderr=subprocess.DEVNULL)
                writers: list[int] = []
                until(lambda: writers or writers.extend(filter(None, [reader()])))
                begun.send_signal(number)
                assert begun.wait(60) == status, words
                os.close(writers[0])

    def test_no_server_is_at_port_0(self) -> None:
        done = hinge("udp", "0", "localhost:0")
        assert (done.returncode, done.stderr) == (2, "hinge udp: SERVER: no server listens at port 0; write the server's port\n")


# Root as a user of its own, who can open tun, and whose subordinate ids are in a file.
AS_A_USER = [
    *"unshare -m sh -c".split(),
    (
        'mount -t tmpfs none /dev/net && mknod -m 666 /dev/net/tun c 10 200 && mount --bind "$0" /etc/subuid && mount'
        ' --bind "$0" /etc/subgid && exec setpriv --reuid=65534 --regid=65534 --clear-groups "$@"'
    ),
]
# root's own may lie where no other user can go
PYTHON = shutil.which("python3", path="/usr/bin:/bin") or sys.executable
OPENS = (
    f'{PYTHON} -c "import grp, os; one, two = os.openpty(); print(os.stat(os.ttyname(two)).st_gid =='
    " grp.getgrnam('tty').gr_gid)\""
)


class OfMaps(WithFolder):
    def test_an_id_is_itself_and_the_others_are_subordinate(self) -> None:
        assert " ".join(mapping(1000, Subordinate(100000, 65536))) == "0 100000 1000 1000 1000 1 1001 101000 64536"
        assert " ".join(mapping(0, Subordinate(7, 5))) == "0 0 1 1 7 5"
        assert " ".join(mapping(100000, Subordinate(200000, 65536))) == "0 200000 65536 100000 100000 1"
        assert " ".join(mapping(5, Subordinate(200000, 5))) == "0 200000 5 5 5 1"

    def test_what_a_file_gives_to_a_user(self) -> None:
        path = self.folder / "subuid"
        path.write_text("other:1:2\nroot:3:x\nroot:300000:65536\n# none\n4321:7:8\n")
        assert [subordinate(str(path), user) for user in (0, 4321, 999999)] == [Subordinate(300000, 65536), Subordinate(7, 8), None]
        assert subordinate(f"{self.folder}/none", 0) is None


@needs_rooms
@needs_mounts
@needs("newuidmap", "newgidmap")
class OfUsers(WithFolder):
    def as_a_user(self, given: str, *words: str) -> "subprocess.CompletedProcess[str]":
        with tempfile.NamedTemporaryFile("w") as file:
            file.write(given)
            file.flush()
            os.chmod(file.name, 0o644)
            return outcome([*AS_A_USER, file.name, *words], cwd="/", stdin=subprocess.DEVNULL)

    def run_of(self, given: str, server: str, *command: str) -> str:
        done = self.as_a_user(given, *HINGE, "run", "--quiet", "--server", server, "--server-wait", "3s", "--", *command)
        assert done.returncode == 0, done.stderr
        return done.stdout

    def test_terminals_have_their_group_where_there_are_subordinate_ids(self) -> None:
        for given, wanted in (("65534:200000:65536\n", "True"), ("", "False")):
            assert self.run_of(given, OPENS, "id", "-u").split() == [wanted, "65534"]

    def test_ids_that_the_system_does_not_give(self) -> None:
        """newuidmap refuses the ids, and the room contains only the user's own."""
        with tempfile.NamedTemporaryFile("w") as file:
            file.write("65534:0:5\n")
            file.flush()
            os.chmod(file.name, 0o644)
            same = AS_A_USER[:-1] + [AS_A_USER[-1].replace('mount --bind "$0" /etc/subgid', "true")]
            done = outcome([*same, file.name, *HINGE, "run", "--quiet", "--", "cat", "/proc/self/gid_map"], cwd="/")
        assert (done.returncode, done.stdout.split()) == (0, ["65534", "65534", "1"]), done.stderr

    def test_hosts_of_a_net(self) -> None:
        os.chmod(self.folder, 0o777)
        net = self.folder / "x.net"
        net.write_text(
            f"host a {OPENS} >{self.folder}/told; exec sleep 100\nmain b until [ -s {self.folder}/told ]; do sleep 0.05;"
            " done\nlink a b\n"
        )
        done = self.as_a_user("65534:200000:65536\n", *HINGE, "net", str(net), "--quiet")
        assert (self.folder / "told").read_text() == "True\n", done.stderr
