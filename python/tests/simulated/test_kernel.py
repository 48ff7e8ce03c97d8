"""The kernel gives time to spinning programs, whichever call polls, and what a process learns without a call is repeatable. Each test
fails without the patch."""

import subprocess
import sys

from machines import HERE, Simulated, needs, probe, probed

SECOND, MILLISECOND = 10**9, 10**6


@needs("cc")
class OfSpins(Simulated):
    """Without time for spinning programs, these tests would only end by the limit of real time."""

    def spun(self, kind: str) -> "tuple[str, int]":
        """Returns what a spinning probe prints, and the ns that its run took."""
        ran = self.run_by(1, "--", probe(), kind)
        self.assertEqual(ran.status, 0, ran.err)
        self.assertTrue(ran.out.startswith(kind), ran.out)
        return ran.out, round(ran.summary["spun"] * SECOND)

    def test_one_that_gives_its_turn_away(self) -> None:
        """The probe waits for a second of another thread's sleep. The kernel gives that time, and at most a step more."""
        _, spun = self.spun("yields")
        self.assertTrue(SECOND - MILLISECOND < spun < SECOND + MILLISECOND, spun)

    def test_one_that_polls(self) -> None:
        """The program waits for a timer of a second, and finds the timer on time, to within clock readings of 50 ns."""
        out, _ = self.spun("polls")
        took = probed(out)[1]
        self.assertTrue(SECOND <= took < SECOND + 1000, out)

    def test_one_that_selects_and_looks_at_the_clock(self) -> None:
        """iperf3's loop: 40 ms pass in few rounds. After 100 free rounds, each gets a 64th of the wait."""
        out, spun = self.spun("selects")
        self.assertTrue(100 < probed(out)[0] < 1000, out)
        self.assertTrue(39 * MILLISECOND < spun < 41 * MILLISECOND, spun)

    def test_one_that_looks_at_the_clock(self) -> None:
        """100 ms pass in 5,000 readings of at most 20 us, and the readings that lead up to them."""
        out, _ = self.spun("clocks")
        self.assertTrue(5000 <= probed(out)[0] < 6000, out)

    def test_one_that_waits_for_a_flag(self) -> None:
        """The program never calls the kernel, so the machine interrupts it from outside, and a message reports the interruption."""
        ran = self.run_by(1, "--", probe(), "flag")
        self.assertEqual((ran.status, ran.out), (0, "flag\n"), ran.err)
        self.assertGreater(ran.summary["interrupts"], 0)
        self.assertIs(ran.summary["repeatable"], False)
        self.assertIn("a second run by seed 1 may differ: a process computed for 2 s", ran.err)

    def test_a_spinner_makes_no_packet_late(self) -> None:
        """A program that spins beside a ping gets at most the time until the ping's next event."""
        both = f"{probe()} yields & ping -q -c 2 server; wait"
        ran = self.run_by(1, "--up", "600ms", "--down", "600ms", "--", "sh", "-c", both)
        self.assertEqual(ran.status, 0, ran.err)
        self.assertGreater(ran.summary["spun"], 0.9)
        self.assertLess(max(ran.summary["up"]["late_max_ms"], ran.summary["down"]["late_max_ms"]), 0.01)

    def test_one_that_waits_by_polls_gets_nothing(self) -> None:
        """400 waits of 10 ms, and a thousandth, by which a poll may be late. The kernel gives no time to a program that sleeps."""
        ran = self.run_by(1, "--", probe(), "waits")
        self.assertEqual(probed(ran.out)[0] // MILLISECOND, 4004, ran.out)
        self.assertEqual(ran.summary["spun"], 0)

    def test_one_that_computes_gets_next_to_nothing(self) -> None:
        """1,000 clock readings are 50 us, and the kernel gives at most 20 us for each."""
        ran = self.run_by(1, "--", probe(), "computes")
        self.assertLess(probed(ran.out)[0], 20 * 10**6)


@needs("cc")
class OfTheProcessor(Simulated):
    def test_the_counter_is_the_simulated_clock(self) -> None:
        """The counter counts ns since the machine's start, 1,000 s before the command's, and a reading takes 50 ns."""
        ran = self.run_by(1, "--", probe(), "counter")
        first, step, core = probed(ran.out)
        self.assertEqual((first // SECOND, step, core), (1000, 50, 0))
        self.assertEqual(self.run_by(1, "--", probe(), "counter").out, ran.out)

    def test_its_own_random_numbers_are_hidden(self) -> None:
        ran = self.run_by(1, "--", probe(), "processor")
        if "can't hide" in ran.err:
            self.skipTest("this system can't trap cpuid")
        self.assertEqual(ran.out, "processor rdrand 0 rdseed 0 number 0\n")

    def test_vector_registers_are_a_threads_own(self) -> None:
        """Each of four threads keeps its registers through calls, other threads' turns, signal handlers and forks."""
        self.assertEqual(self.run_by(1, "--", probe(), "registers").out, "registers lost 0\n")

    def test_a_host_that_hides_nothing_is_told(self) -> None:
        ran = self.run_by(1, "--cpu", "host", "--", "true")
        self.assertIs(ran.summary["repeatable"], False)
        self.assertIn("may differ: by --cpu host programs ask the processor itself", ran.err)

    def test_a_fixed_processor(self) -> None:
        """The processor has the same name on all machines, and AVX2 from level 3 on."""
        for level, name in (("v2", "Simulated level2"), ("v3", "Simulated level3")):
            ran = self.run_by(1, "--cpu", level, "--", "python3", "-c", CPUID_NAME)
            self.assertEqual((ran.out, ran.summary["cpu"]), (f"{name}\n", level), ran.err)


# cpuid's name of the processor, by machine code: leaf 0x80000002 into 16 bytes.
CPUID_NAME = """
import ctypes, mmap
code = bytes.fromhex('5389f84889fe' '4889f7' 'b802000080' '0fa2' '8907895f04894f0889570c' '5bc3')
memory = mmap.mmap(-1, 4096, prot=mmap.PROT_READ | mmap.PROT_WRITE | mmap.PROT_EXEC)
memory.write(code)
room = ctypes.create_string_buffer(16)
ctypes.CFUNCTYPE(None, ctypes.c_void_p)(ctypes.addressof(ctypes.c_char.from_buffer(memory)))(ctypes.addressof(room))
print(room.raw.rstrip(b'\\0').decode())
"""


class OfTheSystem(Simulated):
    """A process's requests for random numbers, memory, new files and the time."""

    ASKS = """
        head -c 32 /dev/urandom | od -An -tx1
        cat /proc/sys/kernel/random/uuid /proc/sys/kernel/random/boot_id
        head -2 /proc/meminfo
        echo text > made; sleep 1; echo text > later
        ls -iU --time-style=full-iso -l; df . | tail -1; stat -c '%i %x %y %z' made later; date +%s.%N
        cat /proc/interrupts /proc/stat /proc/vmstat | cksum
        uname -v"""

    def test_what_it_says_is_the_same_by_one_seed(self) -> None:
        one, other = (self.run_by(5, "--", "sh", "-c", self.ASKS) for _ in range(2))
        self.assertEqual((one.status, one.out), (0, other.out))
        self.assertGreater(len(one.out.splitlines()), 10)

    def test_random_numbers_are_others_by_another(self) -> None:
        one, other = (self.run_by(seed, "--", "od", "-N", "1000", "/dev/urandom").out for seed in (5, 6))
        self.assertNotEqual(one, other)

    def test_a_new_file_has_the_simulated_time(self) -> None:
        ran = self.run_by(1, "--", "sh", "-c", "sleep 3600; echo text > made; stat -c %Y made; date +%s")
        made, now = probed(ran.out)
        self.assertEqual((made, now), (1767225600 + 3600,) * 2)

    def test_the_date_is_the_one_that_is_asked_for(self) -> None:
        for asked, told in (("2031-05-06", "2031-05-06 00:00:00"), ("2031-05-06T07:00+02:00", "2031-05-06 05:00:00")):
            self.assertEqual(self.run_by(1, "--at", asked, "--", "date", "-u", "+%F %T").out, f"{told}\n")

    def test_it_has_run_for_a_while(self) -> None:
        """iputils' ping takes a clock below a second for an unread one, and would send everything at once. Here 3 pings take 2
        s."""
        ran = self.run_by(1, "--", "ping", "-q", "-c", "3", "server")
        self.assertEqual(round(ran.summary["simulated"]), 2, ran.err)


POLLS = """
import subprocess
process = subprocess.Popen(["sleep", "1"])
while process.poll() is None: pass
"""
KILLS = """
import os, subprocess
process = subprocess.Popen(["sh", "-c", "sleep 1 & echo $!"], stdout=subprocess.PIPE, text=True)
number = int(process.stdout.readline())
try:
    while True: os.kill(number, 0)
except ProcessLookupError:
    pass
"""
STARTS = "(sleep 1; echo > there) & while ! /bin/ls there 2>/dev/null; do :; done"
YIELDS = """
import mmap, os, time
shared = mmap.mmap(-1, 4096)
for one in range(3):
    if os.fork() == 0:
        while not shared[0]: os.sched_yield()
        os._exit(0)
if os.fork() == 0:
    time.sleep(1)
    shared[0] = 1
    os._exit(0)
for one in range(4): os.wait()
"""


class OfAsking(Simulated):
    def test_each_takes_a_second(self) -> None:
        """The loops wait for a child, another process, or a change in shared memory, some by starting programs."""
        scripts = [(sys.executable, "-c", text) for text in (POLLS, KILLS, YIELDS)]
        for words in (*scripts, ("sh", "-c", STARTS)):
            with self.subTest(words[2]):
                ran = self.run_by(1, "--", *words)
                self.assertEqual(ran.status, 0, ran.err)
                self.assertAlmostEqual(ran.summary["simulated"], 1, delta=0.3)
                self.assertIs(ran.summary["repeatable"], True)

    @needs("cc")
    def test_by_any_call(self) -> None:
        """Each of twenty calls, repeated in a loop, waits for a second."""
        made = self.compiled((HERE / "spins.c").read_text())
        count = int(subprocess.check_output([made], cwd=self.folder))
        loop = f"for way in $(seq 0 {count - 1}); do ../{made} $way || exit; done"
        ran = self.run_by(1, "--", "sh", "-c", loop)
        self.assertEqual(ran.status, 0, ran.err)
        self.assertAlmostEqual(ran.summary["simulated"] / count, 1, delta=0.1)

    def test_a_process_that_stays_behind(self) -> None:
        """The background process ends with the run, which doesn't wait for it."""
        ran = self.run_by(1, "--", "sh", "-c", "setsid sleep 1000 & sleep 1; echo end")
        self.assertEqual((ran.status, ran.out), (0, "end\n"), ran.err)
        self.assertLess(ran.summary["simulated"], 2)
