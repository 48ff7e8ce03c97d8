"""Configuration lines from files of ipfw and dnctl, and as the program reads them, in any spelling."""

import os
import re
import subprocess
import unittest
from typing import Optional

from hinge.configurations.configured import InForce, Limit, LineFault, Pipe, Queue, Setting, setting_of, spelled_lines
from hinge.configurations.ipfw_lines import ipfw_bandwidth, loss_rate
from hinge.program import dummynet
from kit import DATA, folder, run, write
from oracle import FastDummynet, configured

EXPECTED = """\
pipe 1 config bw 10Mbit/s delay 20ms queue 50
pipe 2 config bw 512Kbit/s delay 20 queue 100Kbytes
queue 1 config pipe 1 weight 10 mask dst-ip 0xffffffff
queue 2 config pipe 1 weight 1 mask src-ip 0xffffffff
queue 3 config pipe 1 weight 5
pipe 3 config bw 3Mbit/s plr 0.001 buckets 256
pipe 4 config bw 1MByte/s delay 250
pipe 7 config bw 1500Byte/s queue 3Kbytes
pipe 8 config bw 1Mbit/s delay 127 plr 0.1
pipe 10 config bw 2Mbit/s
queue 10 config pipe 10 weight 2
pipe delete 3
pipe delete 4
pipe 13 config bw 5Mbit/s
"""
LEFT_OUT = {16: "${UNSET}", 17: "left out", 18: "no such pipe", 24: "src-ip /24", 25: "pipe has queues"}


class Ipfw(unittest.TestCase):
    def test_a_script(self) -> None:
        done = run("ipfw", DATA / "rc.firewall")
        assert done.stdout == EXPECTED
        assert done.returncode == 3
        notes = done.stderr.splitlines()
        for line, told in LEFT_OUT.items():
            assert any(f"rc.firewall:{line}: left out" in note and told in note for note in notes), (line, told, done.stderr)
        assert "5 commands for pipes and queues were left out" in notes[-1]

    def test_what_comes_out_is_taken(self) -> None:
        replies = configured(FastDummynet(), EXPECTED.encode())
        assert len(replies) == len(EXPECTED.splitlines())

    def test_units_of_bandwidth_are_ipfws(self) -> None:
        for text, value in (
            ("10Mb", "10Mbit/s"),
            ("10Mbps", "10Mbit/s"),
            ("10MB", "10MByte/s"),
            ("10MBit/s", "10Mbit/s"),
            ("5", "5bit/s"),
            ("3kbytes/s", "3kByte/s"),
            ("3Kb/s", "3Kbit/s"),
            ("eth0", "eth0"),
        ):
            assert ipfw_bandwidth(text) == value

    def test_loss_rates_lose_their_exponent(self) -> None:
        assert [loss_rate(text) for text in ("1e-3", "0.05", "5E-2", "1e0", "x")] == ["0.001", "0.05", "0.05", "1", "x"]

    def test_a_flush_forgets_what_was_before(self) -> None:
        script = write("flush.sh", "ipfw pipe 1 config bw 1Mbit/s\nipfw -f pipe flush\nipfw pipe 2 config delay 3\n")
        done = run("ipfw", script)
        assert (done.returncode, done.stdout) == (0, "pipe 2 config delay 3\n")

    def test_loops_count_where_the_script_runs_with_a_function_that_prints(self) -> None:
        """As the page says. The file itself has a variable that no line sets."""
        script = write("loop.sh", "for i in 1 2; do\n  ipfw pipe $i config bw ${i}Mbit/s \\\n    delay 5\ndone\n")
        done = run("ipfw", script)
        assert (done.returncode, done.stdout) == (3, "")
        assert "loop.sh:2: left out: ipfw pipe $i config bw ${i}Mbit/s delay 5 ($i isn't set in these files)" in done.stderr
        printed = subprocess.run(
            ["sh", "-c", f"ipfw() {{ echo ipfw $*; }}; . {script}"], capture_output=True, text=True, check=True
        ).stdout
        done = run("ipfw", input=printed)
        assert (done.returncode, done.stdout) == (0, "pipe 1 config bw 1Mbit/s delay 5\npipe 2 config bw 2Mbit/s delay 5\n")

    def test_what_configures_no_pipe_has_a_status(self) -> None:
        for text in (
            "ipfw sched 1 config type fq_codel\n",
            "for i in $(jot 3); do ipfw pipe $i config bw 1Mbit/s; done\n",
            "ipfw add 1 allow ip from any to any\n",
            "",
        ):
            done = run("ipfw", write("none.sh", text))
            assert (done.returncode, done.stdout) == (3, ""), (text, done.stderr)

    def test_no_program_of_a_script_runs(self) -> None:
        made = folder() / "made"
        for words in (f"$(touch {made})", f"`touch {made}`", f"1; touch {made}", f"1 && touch {made}", f"<(touch {made})"):
            run("ipfw", write("runs.sh", f"A={words}\ntouch {made}\nipfw pipe 1 config bw {words}\nipfw pipe 1 config bw $A\n"))
            assert not made.exists(), words

    def test_many_lines_are_judged_by_one_session(self) -> None:
        script = write(
            "many.sh", "".join(f"ipfw pipe {n} config bw {n}Kbit/s\n" for n in range(1, 2001)) + "ipfw pipe 1 config delay x\n"
        )
        calls = folder() / "calls"
        program = folder() / "counted"
        program.write_text(f'#!/bin/sh\necho called >>"{calls}"\nexec "{dummynet()}" "$@"\n')
        program.chmod(0o755)
        done = run("ipfw", script, env={**os.environ, "DUMMYNET": str(program)})
        assert (done.stdout.count("\n"), done.returncode, calls.read_text()) == (2000, 3, "called\n"), done.stderr

    def test_standard_input_and_a_missing_file(self) -> None:
        assert run("ipfw", input="dnctl pipe 1 config bw 1Mbit/s\n").stdout == "pipe 1 config bw 1Mbit/s\n"
        assert run("ipfw", "missing").returncode == 6

    def test_a_line_of_ipfw_in_place_of_a_file_is_answered(self) -> None:
        config, line = "pipe 1 config bw 1Mbit/s", "hinge run --line 'pipe 1 config bw 1Mbit/s' -- COMMAND"
        answers = {f"{option}{config}": line for option in ("", "-q ", "-n ", "-f ", "-S ")}
        answers |= {"-f pipe flush": "hinge down NAME; a run ends with its COMMAND", "-S pipe list": "hinge status NAME"}
        for words, wanted in answers.items():
            done = run("ipfw", *words.split())
            assert (done.returncode, done.stderr.partition("; write ")[2].rpartition(" (hinge docs ")[0]) == (2, wanted), words


def read(line: str) -> tuple[str, int, Optional[Setting]]:
    """Parses configuration lines in any spelling. Returns the last line's kind (`pipe` or `queue`), number and setting, which is
    None for a delete."""
    return setting_of(spelled_lines(line.encode())[-1])


class Settings(unittest.TestCase):
    def test_a_spelling_of_the_user(self) -> None:
        wanted = Pipe(1, 2_000_000, 20, Limit(50, None), 2**30)
        for line in (
            "pipe 1 config bw 2Mbit/s delay 20ms plr 0.5",
            "pipe 1 config plr 0.5 delay 20 bw 2000000bit/s",
            "ipfw pipe 1 config bw 250KByte/s delay 20 plr 0.5",
            "pipe 1 config bw 2000000 delay 20 plr .5 # slow",
        ):
            self.assertEqual(read(line), ("pipe", 1, wanted))

    def test_a_loss_rate_is_kept_as_the_program_keeps_it(self) -> None:
        """A packet is lost whose word is below the rate in parts of 2^31."""
        for rate in ("0.7", "0.3", "0.0000000001", "0.000000001", "0.9999999999"):
            (_, _, pipe) = read(f"pipe 1 config plr {rate}")
            words = [word for word in (pipe.loss - 1, pipe.loss) if 0 <= word < 2**31]
            calls = "".join(f"c,0,submit,pipe,1,10.0.0.1,10.0.0.2,17,1,2,100,{word},0\n" for word in words)
            text = f"pipe 1 config plr {rate}\n{calls}"
            done = subprocess.run([dummynet(), "live"], input=text, stdout=subprocess.PIPE, text=True)
            fates = re.findall("^r,(lost|queued)", done.stdout, re.M)
            self.assertEqual(fates, ["lost" if word < pipe.loss else "queued" for word in words], rate)

    def test_a_queue_of_any_pipe(self) -> None:
        wanted = Queue(3, 9, 5, Limit(None, 10), 0)
        for line in (
            "queue 3 config pipe 9 weight 5 queue 10KBytes mask src-ip 0xff",
            "queue 3 config mask src-ip 0xff weight 5 queue 10Kbytes pipe 9",
        ):
            self.assertEqual(read(f"pipe 9 config\n{line}"), ("queue", 3, wanted))

    def test_a_delete(self) -> None:
        self.assertEqual(read("pipe 4 config\npipe 4 delete"), ("pipe", 4, None))
        self.assertEqual(setting_of("queue delete 4"), ("queue", 4, None))

    def test_what_is_in_force(self) -> None:
        lines = (
            b"pipe 1 config bw 8Mbit/s delay 20ms queue 10Kbytes plr 0.1 mask src-ip 0xff buckets 64\npipe 2 "
            b"config\nqueue 3 config pipe 1 weight 3\n"
        )
        in_force = InForce([*spelled_lines(lines), "queue delete 3"])
        self.assertEqual((sorted(in_force.pipes), sorted(in_force.queues)), ([1, 2], []))

    def test_no_command(self) -> None:
        with self.assertRaisesRegex(LineFault, "^config line 1, word 5: bad number$"):
            spelled_lines(b"pipe 1 config bw 8Mbps")
