"""The summary states how a program ended, and a run that can't continue ends at the moment of that verdict. Checksums describe a run's
inputs, so that a replay on another machine is distinguishable from a different run."""

import json
import shutil
import sys
from typing import Any

from hinge.simulated.own_random import taken
from hinge.simulated.verdict import DEADLOCKED, LIMITED, of_wait
from machines import Simulated, environment, needs

LOCKS = """
#include <pthread.h>
#include <unistd.h>
static pthread_mutex_t a = PTHREAD_MUTEX_INITIALIZER, b = PTHREAD_MUTEX_INITIALIZER;
static void *work(void *first) {
    pthread_mutex_lock(first ? &a : &b), getppid(), usleep(1000), pthread_mutex_lock(first ? &b : &a);
    pthread_mutex_unlock(&a), pthread_mutex_unlock(&b);
    return 0;
}
int main(void) {
    pthread_t one, two;
    pthread_create(&one, 0, work, 0), pthread_create(&two, 0, work, &one), pthread_join(one, 0), pthread_join(two, 0);
}
"""
ADDS = """
#include <pthread.h>
static volatile int sum;
static void *work(void *unused) { for (int i = 0; i < 500; i++) { int was = sum; for (volatile int k = 0; k < 5; k++); sum = was + 1; } return unused; }
int main(void) {
    pthread_t two;
    pthread_create(&two, 0, work, 0), work(0), pthread_join(two, 0);
    return sum != 1000;
}
"""
# Each waits for the other's first word.
PEER = "import socket; s = socket.create_server(('', 80)); c, _ = s.accept(); c.recv(1)"
ASKER = "import socket; s = socket.create_connection(('server', 80)); s.recv(1)"


class OfVerdicts(Simulated):
    def ended(self, *words: str) -> "tuple[int, dict[str, Any]]":
        """Returns a run's status and the summary's words on the program's end. No server may count as ended."""
        done = self.started("--seed", "1", "--json", "summary", *words)
        assert "the server ended" not in done.stderr
        return done.returncode, json.loads((self.folder / "summary").read_text())["ended"]

    def test_a_status_of_wait(self) -> None:
        assert [of_wait(status).name() for status in (0, 3 << 8, 11, 11 | 128)] == ["status 0", "status 3", "SIGSEGV", "SIGSEGV"]

    def test_statuses_and_signals_are_the_programs(self) -> None:
        for status in (0, 2, 3, 6, 75, 77, 124):
            assert self.ended("--", "sh", "-c", f"exit {status}") == (
                status,
                {"by": "itself", "status": status, "name": f"status {status}"},
            )
        status, ended = self.ended("--", "sh", "-c", "kill -SEGV $$")
        assert (status, ended["by"], ended["signal"]) == (139, "signal", "SIGSEGV")
        for command, status in (("no-such-program", 127), ("./never", 127), ("/etc/passwd", 126)):
            ran = self.run_by(1, "--", command)
            assert (ran.status, "ended" in ran.summary) == (status, False), command

    def test_a_deadlock_of_threads(self) -> None:
        """The deadlock is at the same moment in each run, and the summary lists each thread."""
        words = ("--", self.compiled(LOCKS))
        status, ended = self.ended(*words)
        assert (status, ended["by"], len(ended["waiting"])) == (DEADLOCKED, "deadlock", 3)
        assert {one["call"] for one in ended["waiting"]} == {"futex"}
        assert 0.001 <= ended["at"] < 0.002, ended["at"]
        assert self.ended(*words) == (status, ended)

    def test_a_deadlock_over_a_link(self) -> None:
        status, ended = self.ended(
            "--link", "20ms", "--server", f'exec {sys.executable} -c "{PEER}"', "--", sys.executable, "-c", ASKER
        )
        assert (status, ended["by"]) == (DEADLOCKED, "deadlock")
        assert [one["call"] for one in ended["waiting"]] == ["recvfrom", "recvfrom"]

    def test_what_waits_for_a_moment_is_no_deadlock(self) -> None:
        for words in (
            ["sleep", "1000000"],
            ["timeout", "100000", "sleep", "infinity"],
            [sys.executable, "-c", "import signal; signal.alarm(50000); signal.pause()"],
        ):
            status, ended = self.ended("--", *words)
            assert ended["name"] in {"status 0", "status 124", "SIGALRM"}, words

    def test_a_limit_of_simulated_time(self) -> None:
        for words in (["sleep", "5"], ["sh", "-c", "while :; do sleep 1; done"]):
            status, ended = self.ended("--limit", "3s", "--", *words)
            assert (status, ended["by"], round(ended["at"], 5)) == (LIMITED, "limit", 3)

    @needs("timeout")
    def test_a_search_sees_hangs_and_any_status(self) -> None:
        for words, name in (
            (["timeout", "10", "sleep", "100"], "status 124"),
            (["sh", "-c", "exit 2"], "status 2"),
            ([self.compiled(LOCKS)], "deadlock: it in futex"),
        ):
            done = self.hinge("search", "run", "--seeds", "1,2", "--", *words)
            assert done.returncode == 1, done.stderr
            assert f"seed 2: {name}" in done.stdout
            assert f"seed 1 fails by {name} with 0 faults" in done.stdout
        (self.folder / "never.net").write_text("main a ./never\nhost b\nlink a b\n")
        for what, end, told in (
            ("run", ["--", "./never"], "./never: No such file or directory"),
            ("never.net", [], "sh: 1: ./never: not found"),
        ):
            done = self.hinge("search", what, "--seeds", "1", *end)
            assert (done.returncode, done.stdout) == (127, "")
            assert done.stderr == f"hinge search: seed 1: {told}\n"
        done = self.hinge("search", "run", "--seeds", "1,2", "--server", "exit 3", "--", "true")
        assert (done.returncode, done.stdout) == (0, "0 of 2 runs failed\n")
        assert done.stderr == "hinge search: the server ended with 3 by itself in 2 of 2 runs, first by seed 1\n"

    def test_pauses_between_calls(self) -> None:
        """A sum without a lock and without a call becomes wrong only by a pause in the loop, and the same pause makes it wrong
        again."""
        words = ("--", self.compiled(ADDS))
        assert self.ended(*words)[0] == 0
        calls = range(1, 40)
        found = next(call for call in calls if self.ended("--pauses", f"{call}+1ms@400", *words)[0])
        first, second = (self.started("--seed", "1", "--pauses", f"{found}+1ms@400", *words) for _ in range(2))
        assert (first.returncode, first.stderr.split(" s in ")[0]) == (1, second.stderr.split(" s in ")[0])
        done = self.hinge("search", "run", "--seeds", "1", "--pauses", f"{found}+1ms@400", *words)
        cause = done.stdout[done.stdout.index(f"pause {found}+1000000ns@400") :].splitlines()
        threads = [line.split(" (it): ")[0].split(": ")[1] for line in cause if ": goes on" in line or ": pauses at " in line]
        assert (len(threads), len(set(threads))) == (2, 1), done.stdout
        if shutil.which("gdb"):
            assert f"pause {found}+1000000ns@400, in work" in cause[0]

    @needs("gdb")
    def test_the_places_of_a_deadlock(self) -> None:
        places = [one["place"] for one in self.ended("--", self.compiled(LOCKS))[1]["waiting"]]
        assert [place.split(" ")[0] for place in places] == ["main", "work", "work"]

    def test_a_core(self) -> None:
        """The core file is in the program's folder, as the user's limit requests."""
        done = self.started("--", "sh", "-c", "ulimit -c unlimited; sh -c 'kill -SEGV $$'; true")
        assert done.returncode == 0, done.stderr
        assert [path.read_bytes()[:4] for path in self.folder.glob("core*")] == [b"\x7fELF"]

    def test_a_file_that_differs_is_named(self) -> None:
        """The files: one that the run read, one that it looked for in vain, a folder whose names it read, and one that it then
        changed."""
        words = ("--", "sh", "-c", "cat data; cat more; ls other; cat log; echo >> log")
        (self.folder / "log").touch()
        (self.folder / "other").mkdir()
        data = self.folder / "data"
        data.write_text("a")
        self.ended(*words)
        (self.folder / "summary").rename(self.folder / "one")
        for change, told in (
            (data.exists, " files, beside ./log that a run changed; the simulated time"),
            ((self.folder / "more").touch, "; new: ./more"),
            ((self.folder / "other" / "new").touch, "; other ./other"),
            (data.unlink, "; gone: ./data"),
            (lambda: data.write_text("b"), "; other ./data"),
        ):
            change()
            assert told in self.started("--seed", "1", "--like", "one", *words).stderr


READS = """
#include <stdio.h>
int main(void) {
    char text[99] = "";
    FILE *data = fopen("data", "r"), *new = fopen("new", "w");
    return !data || !fgets(text, sizeof text, data) || printf("%s", text) < 0 || fputs("x", new) < 0 || fclose(new);
}
"""
# What the compiler makes of -march=native, and one that asks the processor before.
DRAWS = 'int main(void) { unsigned char had; unsigned number; __asm__ volatile("rdrand %0; setc %1" : "=r"(number), "=qm"(had)); return !had; }'
NUMBERED = 'int main(void) { unsigned limit; __asm__ volatile("lsl %1, %0" : "=r"(limit) : "r"(0x7b)); return limit == 0; }'
ASKS = DRAWS.replace(
    "{ ",
    '{ unsigned a = 1, c = 0; __asm__ volatile("cpuid" : "+a"(a), "+c"(c) : : "ebx", "edx"); if (!(c >> 30 & 1)) return 0; ',
    1,
)


class OfWhatWasGiven(Simulated):
    def run_of(self, summary: str, *options: str, **more: str) -> str:
        """Returns the messages of the run with this summary."""
        words = ["--seed", "1", *options, "--json", summary, "--", "sh", "-c", "env"]
        done = self.started(*words, env=environment(**more))
        self.assertEqual(done.returncode, 0, done.stderr)
        return done.stderr

    def test_another_environment_and_folder(self) -> None:
        """The checksum of the program's file is the same in both folders, and so is the checksum of a file at home."""
        copy = self.folder / "copy" / "it"
        copy.parent.mkdir()
        copy.write_text("#!/bin/sh\ncat ~/it")
        copy.chmod(0o755)
        shutil.copy(copy, self.folder)
        words = ("--seed", "1", "--json", str(self.folder / "one"), "--", "./it")
        self.started(*words, env=environment(HOME=str(self.folder)))
        told = self.started(
            "--like", str(self.folder / "one"), *words, env=environment(HOME=str(copy.parent)), cwd=copy.parent
        ).stderr
        self.assertRegex(told, "other environment, folder; the same .* files; the simulated time is the same\n")

    def test_few_variables(self) -> None:
        """With --clean-env no other variable influences the run."""
        self.run_of("one", "--clean-env", ASKED="a", PATH="/usr/bin:/bin")
        other = ("--clean-env", "--like", "one", "--real-limit", "200s")
        told = self.run_of("other", *other, ASKED="b", PATH="/usr/bin:/usr/bin:/bin")
        self.assertRegex(
            told, "--like one: the same words, environment, folder, input and kernel; .*; the simulated time is the same\n"
        )
        given = [json.loads((self.folder / name).read_text())["given"] for name in ("one", "other")]
        self.assertEqual(given[0], given[1])

    def test_another_root(self) -> None:
        """The program and its input are inside the root. The run writes nothing there, and nothing in the current folder."""
        own = self.folder / "root"
        place = own / str(self.folder)[1:]
        place.mkdir(parents=True)
        (place / "data").write_text("frozen\n")
        (self.folder / "data").write_text("changed\n")
        (self.folder / self.compiled(READS, "-static")).rename(own / "reads")
        done = self.started("--seed", "1", "--root", str(own), "--link", "20ms", "--json", "one", "--", "/reads")
        self.assertEqual((done.returncode, done.stdout), (0, "frozen\n"), done.stderr)
        self.assertEqual(sorted(path.name for path in own.rglob("*") if path.is_file()), ["data", "reads"])
        self.assertFalse((self.folder / "new").exists())
        record = json.loads((self.folder / "one").read_text())
        self.assertEqual(list(record["files"]), ["/reads", "./data"])
        self.assertIn("./new", record["absent"])
        for words in (["--root", "never"], ["--root", str(self.folder)]):
            self.assertEqual(self.started(*words, "--", "true").returncode, 2)

    def test_numbers_of_the_processors_own(self) -> None:
        """A program that uses the instruction without asking gets a warning; a program that asks learns that it is missing."""
        done = self.started("--seed", "1", "--", self.compiled(DRAWS))
        self.assertIn(f"may differ: {self.folder}/it takes random numbers from the processor", done.stderr)
        for options in ((), ("-c",)):  # an object has no table of segments
            self.assertEqual(taken(str(self.folder / self.compiled(ASKS, *options))), "")
        self.assertEqual([taken("/bin/sh"), taken(__file__)], ["", ""])

    def test_the_number_of_the_processor(self) -> None:
        """The program reads this number without a system call, so the kernel can't see the reading."""
        done = self.started("--seed", "1", "--", self.compiled(NUMBERED))
        self.assertIn(f"may differ: {self.folder}/it takes the number of its processor (lsl)", done.stderr)

    def test_no_summary(self) -> None:
        done = self.started("--like", "never", "--", "true")
        self.assertEqual(done.returncode, 2)
        self.assertIn("--like: never:", done.stderr)
