"""The command `hinge run --simulated`: input and output work as in real time, and impossible requests are reported."""

import ctypes
import os
import resource
import signal
import struct
import subprocess
import tempfile
import time
from functools import partial
from pathlib import Path
from unittest import mock

from hinge.run.system import libc
from hinge.simulated.build import NEEDED
from hinge.simulated.not_begun import too_few
from hinge.simulated.one_processor import OneProcessor
from machines import HINGE, SIMULATED, Simulated, below_of, environment, left, running

CLIENT = """
import socket
print(socket.gethostbyname("server"))
print(socket.create_connection(("server", 7000)).getpeername()[1])
"""
GOES_ON = "sh", "-c", "echo begun; while :; do sleep 1; done"
TAR = "#!/bin/bash\nfor i in {1..8}; do (for ((n = 0; n < 9999; n++)); do echo >$BASHPID-$n || exit; done) & done; wait\n"
# For a command that may not call ptrace, as in a container of an old kernel: struct sock_filter and sock_fprog of seccomp(2).
UNTRACED = b"".join(
    struct.pack("HBBI", *row) for row in ((32, 0, 0, 0), (21, 0, 1, 101), (6, 0, 0, 0x50001), (6, 0, 0, 0x7FFF0000))
)
NO_NEW_PRIVILEGES, SECCOMP, FILTER = 38, 22, 2  # of prctl(2)
PIPE, NONE = subprocess.PIPE, subprocess.DEVNULL


class OfStreams(Simulated):
    def test_an_hour_takes_a_moment(self) -> None:
        """A simulated hour with a few processes needs less than a second of real time."""
        ran = self.run_by(1, "--", "sleep", "3600")
        self.assertEqual(int(ran.summary["simulated"]), 3600, ran.err)
        self.assertIs(ran.summary["repeatable"], True)
        self.assertEqual((ran.summary["spun"], ran.summary["interrupts"]), (0, 0))

    def test_a_32_bit_program(self) -> None:
        """The file contains only the header of a program, since the kernel reads no further."""
        (self.folder / "old").write_bytes(b"\x7fELF\x01\x01\x01".ljust(16, b"\0") + struct.pack("<HHI", 2, 3, 1).ljust(200, b"\0"))
        (self.folder / "old").chmod(0o755)
        done = self.started("--quiet", "--", "./old")
        told = "hinge run: ./old: it is a 32-bit program, and the simulated machine runs 64-bit programs only\n"
        self.assertEqual((done.returncode, done.stderr), (126, told))

    def test_both_streams(self) -> None:
        done = self.started("--quiet", "--", "sh", "-c", "echo out; echo err >&2; exit 3")
        self.assertEqual((done.returncode, done.stdout, done.stderr), (3, "out\n", "err\n"))

    def test_the_order_of_two_streams_that_go_to_one_place(self) -> None:
        asked = "for i in 1 2 3 4; do echo out $i; echo err $i >&2; done"
        done = self.started("--quiet", "--", "sh", "-c", asked, stderr=subprocess.STDOUT)
        self.assertEqual(done.stdout, "".join(f"out {i}\nerr {i}\n" for i in range(1, 5)))

    def test_output_comes_as_it_is_written(self) -> None:
        """The first line arrives while the command still waits for a file, which the test creates after reading the line."""
        asked = "echo first; until [ -e go ]; do head -c 100000 /dev/zero >/dev/null; done; echo last"
        with self.begun("first", "sh", "-c", asked) as process:
            (self.folder / "go").touch()
            self.assertEqual(process.stdout.read(), "last\n")

    def test_input_from_a_file_and_from_a_pipe(self) -> None:
        text = "".join(f"line {i}\n" for i in range(100_000))
        words = [*SIMULATED, "--quiet", "--", "cksum"]
        told = subprocess.run(["cksum"], input=text, capture_output=True, text=True).stdout
        self.assertEqual(subprocess.run(words, input=text, stdout=PIPE, text=True).stdout, told)
        (self.folder / "given").write_text(text)
        with open(self.folder / "given") as file:
            self.assertEqual(self.started("--quiet", "--", "cksum", stdin=file).stdout, told)

    def test_much_output(self) -> None:
        """The output is longer than the part that a machine may write ahead of its reader."""
        done = self.started("--quiet", "--", "head", "-c", str(200 << 20), "/dev/zero", text=False)
        self.assertEqual(len(done.stdout), 200 << 20)

    def test_a_reader_that_goes_away_ends_it(self) -> None:
        with self.begun("y", "yes") as process:
            process.stdout.close()
            self.assertEqual(process.wait(), 128 + signal.SIGPIPE)

    def test_a_full_disk_is_told(self) -> None:
        for words in (["echo", "hi"], ["sh", "-c", "echo hi; sleep 100000"]):
            with open("/dev/full", "w") as full:
                done = subprocess.run([*SIMULATED, "--quiet", "--", *words], stdin=NONE, stdout=full, stderr=PIPE, text=True)
            self.assertEqual((done.returncode, done.stderr), (6, "hinge run: standard output: No space left on device\n"))


class OfSurroundings(Simulated):
    def test_folder_environment_and_user(self) -> None:
        (self.folder / "given").write_text("what was given\n")
        asked, sockets = "pwd; id; umask; echo $ASKED; cat given", "; echo ${SSH_AUTH_SOCK-none} ${DISPLAY-none}"
        names = environment(ASKED="two words", SSH_AUTH_SOCK="/somewhere", DISPLAY=":0")
        outside = subprocess.run(["sh", "-c", asked], cwd=self.folder, env=names, stdout=PIPE, text=True)
        done = self.started("--quiet", "--", "sh", "-c", asked + sockets, env=names)
        self.assertEqual((done.stdout, done.stderr), (outside.stdout + "none none\n", ""))

    def test_a_file_that_it_makes_stays(self) -> None:
        self.started("--", "sh", "-c", "umask 027; echo kept > made")
        self.assertEqual((self.folder / "made").read_text(), "kept\n")
        self.assertEqual((self.folder / "made").stat().st_mode & 0o777, 0o640)

    def test_what_is_written_in_scratch_is_lost(self) -> None:
        (self.folder / "there").write_text("before\n")
        asked = "echo after > there; echo new > made; cat there made; rm there; ls"
        done = self.started("--quiet", "--scratch", "--transcript", "h", "--", "sh", "-c", asked)
        self.assertEqual((done.returncode, done.stdout), (0, "after\nnew\nmade\n"), done.stderr)
        self.assertEqual((self.folder / "there").read_text(), "before\n")
        self.assertEqual(sorted(os.listdir(self.folder)), ["h", "there"])

    def test_server_and_client_by_name(self) -> None:
        (self.folder / "client.py").write_text(CLIENT)
        serves = "exec python3 -m http.server 7000 >/dev/null 2>&1"
        done = self.started("--quiet", "--server", serves, "--", "python3", "client.py")
        self.assertEqual(done.stdout, "10.8.0.2\n7000\n", done.stderr)


class OfEnds(Simulated):
    def test_signals_end_it_at_once_with_nothing_left(self) -> None:
        # A folder of its own for what is temporary, since other tests run at the same time.
        with tempfile.TemporaryDirectory() as temporary:
            for number in (signal.SIGINT, signal.SIGTERM, signal.SIGHUP):
                with self.begun("begun", *GOES_ON, TMPDIR=temporary) as process:
                    [kernel, *_] = below_of(process.pid)
                    self.assertGreater(len(left(Path(temporary))), 1)
                    process.send_signal(number)
                    self.assertEqual(process.wait(), 128 + number)
                self.assertFalse(os.path.exists(f"/proc/{kernel}"))
            self.assertEqual(left(Path(temporary)), [])

    def test_a_launcher_that_is_killed_takes_its_machine_along(self) -> None:
        with self.begun("begun", *GOES_ON) as process:
            self.assertTrue(below := below_of(process.pid))
            process.kill()
        self.assertEqual(running(below), [])

    def test_a_machine_is_on_one_processor(self) -> None:
        """The machine's kernel and that kernel's processes, which are its children, all use one processor."""
        with self.begun("begun", *GOES_ON) as process:
            found = [one for one in below_of(process.pid) if os.path.exists(f"/proc/{one}")]
            places = {frozenset(os.sched_getaffinity(one)) for one in found}
            process.terminate()
        self.assertEqual([len(place) for place in places], [1])

    def test_it_leaves_a_processor_for_which_it_waits(self) -> None:
        """Of half a second, the machine may wait for a processor a fifth."""
        place = OneProcessor()
        place.allowed, place.present, place.seen = [0, 1, 2], 0, 0.0
        self.assertEqual([place.choose_again(0.4, 0.4), place.choose_again(1.0, 0.19), place.present], [False, False, 0])
        self.assertEqual([place.choose_again(2.0, 0.41), place.present in (1, 2)], [True, True])
        place.allowed = [0]
        self.assertFalse(place.choose_again(3.0, 1.4))

    def test_the_limit_of_real_time(self) -> None:
        done = self.started("--up", "1ms", "--real-limit", "500ms", "--", *GOES_ON)
        self.assertEqual(done.returncode, 124)
        self.assertTrue(done.stderr.startswith("hinge run: it was ended after 0.5 s of real time, by --real-limit\n"))
        self.assertRegex(done.stderr, r"simulated time was at \d+\.\d{6} s; (nothing has waited .*)?the last was \w+ by ")


class OfRefusals(Simulated):
    def refused(self, status: int, sentence: str, *words: str, **more: object) -> None:
        done = self.started("--up", "1ms", *words, **more)
        self.assertEqual((done.returncode, done.stdout, done.stderr), (status, "", f"hinge run: {sentence}\n"))

    def test_options_and_folders(self) -> None:
        outside = "--outside, --to: simulated time has no way to the rest of the network, whose time is real"
        self.refused(2, outside, "--outside", "--", "true")
        self.refused(2, "--map => pipe 3: pipe 3 isn't configured", "--map", "=> pipe 3", "--", "true")
        own = "--simulated: /dev/shm isn't in the machine, whose /dev, /proc, /run, /sys are its own"
        self.refused(6, own, "--", "true", cwd="/dev/shm")
        no_kernel = f"HINGE_KERNEL: {self.folder} has no kernel and first process of this version of hinge"
        self.refused(6, no_kernel, "--", "true", env=environment(HINGE_KERNEL=str(self.folder)))

    def test_wrong_options(self) -> None:
        for words, told in (
            (["--memory", "1T"], "'1T' isn't a size from 64M to 64G"),
            (["--watch"], "--watch does nothing beside --simulated"),
        ):
            self.assertIn(told, self.started(*words, "--", "true").stderr)

    def test_a_shell_on_a_terminal(self) -> None:
        main, second = os.openpty()
        self.addCleanup(os.close, main)
        self.addCleanup(os.close, second)
        told = "--simulated: there is no terminal in simulated time; give bash its commands by -c or on standard input"
        self.refused(2, told, "--", "bash", stdin=second)

    def test_a_machine_that_cannot_begin_tells_the_cause(self) -> None:
        """The causes are limits on this process, and a container that forbids a process to trace another."""
        rules = ctypes.create_string_buffer(UNTRACED)

        def keep_from_tracing() -> None:
            libc.prctl(NO_NEW_PRIVILEGES, 1, 0, 0, 0)
            libc.prctl(SECCOMP, FILTER, struct.pack("HxxxxxxP", 4, ctypes.addressof(rules)))

        for limit, cure in (
            (partial(resource.setrlimit, resource.RLIMIT_AS, (1 << 30, 1 << 30)), "ulimit -v unlimited"),
            (partial(resource.setrlimit, resource.RLIMIT_FSIZE, (1 << 20, 1 << 20)), "ulimit -f unlimited"),
            (partial(resource.setrlimit, resource.RLIMIT_NOFILE, (20, 20)), "ulimit -Hn 1024"),
            (keep_from_tracing, "docker run --cap-add SYS_PTRACE"),
        ):
            done = self.started("--quiet", "--", "true", preexec_fn=limit)
            self.assertEqual((done.returncode, done.stderr.count("\n")), (6, 1), done.stderr)
            self.assertIn(cure, done.stderr)
        with mock.patch("os.geteuid", return_value=1):  # as root has no limit of processes
            with mock.patch("resource.getrlimit", lambda kind: (9, 64 - (kind == resource.RLIMIT_NPROC))):
                self.assertIn("the limit of processes is 63", too_few() or "")

    def test_a_build_of_a_kernel_names_all_that_it_lacks(self) -> None:
        done = subprocess.run([*HINGE, "kernel", "--again"], env=environment(PATH=str(self.folder)), capture_output=True, text=True)
        self.assertEqual(done.returncode, 7)
        self.assertRegex(done.stderr, r"^hinge kernel: needs cc, make, .*, libc\.a.*: apt-get install gcc make .* libc6-dev.*\n$")

    def test_a_build_that_is_ended_leaves_no_folder(self) -> None:
        """The tar that the build started writes into the build's folder until the test kills it, too."""
        for name in NEEDED:
            (self.folder / name).write_text(TAR if name == "tar" else "#!/bin/sh\necho /libc.a\n")
            (self.folder / name).chmod(0o755)
        places = {"TMPDIR": str(self.folder), "XDG_CACHE_HOME": str(self.folder), "PATH": f"{self.folder}:{os.environ['PATH']}"}
        with subprocess.Popen(
            [*HINGE, "kernel", "--again", "--source", "tar"], env=environment(**places), cwd=self.folder, stderr=PIPE
        ) as build:
            while build.poll() is None and not list(self.folder.glob(".hinge-*/*-100")):
                time.sleep(0.01)
            build.terminate()
        self.assertEqual((build.returncode, list(self.folder.rglob(".*"))), (-signal.SIGTERM, []))

    def test_options_of_simulated_time_alone(self) -> None:
        done = subprocess.run([*HINGE, "run", "--at", "2026-01-01", "--", "true"], capture_output=True, text=True)
        self.assertEqual(done.returncode, 2)
        self.assertTrue(done.stderr.endswith("hinge run: error: --at does nothing without --simulated\n"), done.stderr)
