"""All sources of time and chance in Python, which follow the simulated clock or the seed, unless TESTING names the limit; and the clock
that C code has, with the library of `hinge kernel --clock` and without."""

import ast
import asyncio
import ctypes
import datetime
import importlib.util
import os
import random
import re
import secrets
import shutil
import subprocess
import sys
import time
import unittest
import uuid
from types import ModuleType

from hingetulip import aio
from hingetulip.aio.border import CLOCK_LIBRARY
from simulated_hosts import TOP
from with_folder import WithFolder

CHILD = """
import ast, asyncio, calendar, datetime, email.utils, os, random, secrets, ssl, sys, tempfile, time, uuid
from os import urandom
from random import random as early_random
from time import monotonic as early_monotonic, time as early_time
from hingetulip import aio

SYSTEM, UTC = random.SystemRandom(), datetime.timezone.utc

async def main():
    await asyncio.sleep(10.25)
    if "numpy" in sys.argv[3]:
        import numpy
    return {text: repr(eval(text)) for text in ast.literal_eval(sys.argv[2])}

if "numpy" in sys.argv[3]:
    import numpy
print(aio.run(main(), seed=int(sys.argv[1]), start=86_400))
"""
WALL = """time.time() | time.time_ns() / 1e9 | early_time() | time.clock_gettime(time.CLOCK_REALTIME)
    | time.clock_gettime_ns(time.CLOCK_REALTIME) / 1e9 | datetime.datetime.now(UTC).timestamp() | datetime.datetime.now().timestamp()
    | datetime.datetime.utcnow().replace(tzinfo=UTC).timestamp() | datetime.datetime.today().timestamp()
    | calendar.timegm(time.gmtime()) + 0.25 | time.mktime(time.localtime()) + 0.25
    | time.mktime(time.strptime(time.ctime())) + 0.25 | time.mktime(time.strptime(time.asctime())) + 0.25
    | time.mktime(time.strptime(time.strftime('%c'))) + 0.25 | (datetime.date.today().toordinal() - 719_163) * 86_400 + 10.25
    | email.utils.mktime_tz(email.utils.parsedate_tz(email.utils.formatdate())) + 0.25"""
GROWING = """time.monotonic() | time.monotonic_ns() / 1e9 | time.perf_counter() | time.perf_counter_ns() / 1e9 | early_monotonic()
    | time.process_time() | time.process_time_ns() / 1e9 | time.thread_time() | time.thread_time_ns() / 1e9
    | time.clock_gettime(time.CLOCK_MONOTONIC) | time.clock_gettime(time.CLOCK_BOOTTIME) | asyncio.get_running_loop().time()
    | time.clock_gettime(time.CLOCK_PROCESS_CPUTIME_ID) | os.times().elapsed | os.times().user"""
SEED = """random.getstate()[1][:9] | early_random() | random.Random().random() | random.SystemRandom().random() | SYSTEM.random()
    | secrets.choice(range(9**9)) | secrets.randbelow(9**9) | secrets.randbits(64) | secrets.token_bytes(8) | secrets.token_hex(8)
    | secrets.token_urlsafe(8) | secrets.SystemRandom().random() | uuid.uuid1().node | uuid.uuid4() | os.urandom(8) | urandom(8)
    | os.getrandom(8) | tempfile.mktemp() | ssl.RAND_bytes(8) | email.utils.make_msgid().rpartition('.')[2].partition('@')[0]"""
OF_NUMPY = "numpy.random.random() | numpy.random.default_rng().random() | numpy.random.RandomState().random_sample()"
PURE = """time.mktime time.strptime time.struct_time time.sleep time.tzset time.get_clock_info time.clock_getres time.clock_settime
    time.clock_settime_ns time.pthread_getcpuclockid random.Random secrets.compare_digest uuid.uuid3 uuid.uuid5 uuid.UUID
    uuid.SafeUUID uuid.Enum uuid.main uuid.bytes_ uuid.int_ os.utime os.times_result
    os.timerfd_create os.timerfd_gettime os.timerfd_gettime_ns os.timerfd_settime os.timerfd_settime_ns"""
LIMITS = {"uuid.getnode": "uuid.getnode", "hash": "`hash` of texts"}  # and how TESTING names each


def listed(text: str) -> list[str]:
    return [" ".join(it.split()) for it in text.split("|")]


def answers(texts: list[str], seed: int, hash_seed: str) -> dict[str, str]:
    """Returns the expressions' values in a run in a separate process."""
    environment = {**os.environ, "PYTHONPATH": os.pathsep.join(sys.path), "PYTHONHASHSEED": hash_seed}
    words = [sys.executable, "-c", CHILD, str(seed), repr(texts), " ".join(texts)]
    done = subprocess.run(words, env=environment, capture_output=True, text=True, check=False)
    assert not done.returncode, done.stderr
    found: dict[str, str] = ast.literal_eval(done.stdout)
    return found


def sources(module: ModuleType, pattern: str = "[a-z]") -> set[str]:
    """Returns the public functions and classes of a module, without the methods of the module's own generator."""
    names = [name for name in dir(module) if not name.startswith("_") and re.search(pattern, name)]
    found = {name: getattr(module, name) for name in names if callable(getattr(module, name))}
    own = getattr(module, "_inst", module)
    return {f"{module.__name__}.{name}" for name, it in found.items() if getattr(it, "__self__", None) is not own or own is module}


class Sources(unittest.TestCase):
    def test_clocks(self) -> None:
        found = answers(listed(WALL) + listed(GROWING), 1, "1")
        assert {text: 86_410.25 for text in listed(WALL)} == {text: float(found[text]) for text in listed(WALL)}
        assert {text: 10.25 for text in listed(GROWING)} == {text: float(found[text]) for text in listed(GROWING)}

    @unittest.skipIf(CLOCK_LIBRARY is None, "no hinge-clock.so")
    def test_numbers_and_names(self) -> None:
        texts = listed(SEED) + listed(OF_NUMPY) * (importlib.util.find_spec("numpy") is not None)
        first, again, other = answers(texts, 3, "1"), answers(texts, 3, "77"), answers(texts, 4, "1")
        assert first == again
        assert [] == [text for text in texts if first[text] == other[text]]

    def test_no_source_is_missing(self) -> None:
        known = {*PURE.split(), *LIMITS, *re.findall(r"\b(?:time|random|secrets|uuid|os)\.\w+", f"{WALL} {GROWING} {SEED}")}
        all_of = sources(time) | sources(secrets) | sources(uuid, "^(?!os$|sys$)") | sources(os, "rand|time|clock")
        assert set() == all_of - known
        unbound = {name for name in sources(random) if name.rpartition(".")[2] in random.__all__}
        assert {"random.Random", "random.SystemRandom"} == unbound
        now = {
            f"{kind}.{name}"
            for kind in ("date", "datetime")
            for name in ("today", "now", "utcnow")
            if hasattr(getattr(datetime, kind), name)
        }
        assert set() == {name for name in now if f"datetime.{name}(" not in WALL}

    def test_the_page_names_the_limits(self) -> None:
        page = " ".join((TOP / "docs" / "TESTING.md").read_text(encoding="utf-8").split())
        assert [] == [name for name in LIMITS.values() if name not in page]


ASKED = """
import asyncio, ctypes, time
from hingetulip import aio

libc = ctypes.CDLL(None)

class Two(ctypes.Structure):
    _fields_ = [("seconds", ctypes.c_long), ("parts", ctypes.c_long)]

def gettime(clock):
    found = Two()
    assert libc.clock_gettime(clock, ctypes.byref(found)) == 0
    return found.seconds * 10**9 + found.parts

def of_day():
    found = Two()
    assert libc.gettimeofday(ctypes.byref(found), None) == 0
    return found.seconds * 10**6 + found.parts

async def main():
    await asyncio.sleep(90.000001)
    return gettime(0), gettime(1), of_day(), libc.time(None), gettime(2) < 60 * 10**9

real = time.time()
print(aio.run(main()))
print(abs(gettime(0) / 1e9 - real) < 60, abs(libc.time(None) - real) < 60)
"""


@unittest.skipUnless(shutil.which("cc"), "no cc")
class WithClock(WithFolder):
    def test_c_code_has_the_simulated_time_and_afterwards_the_real_one(self) -> None:
        """By the clock that HINGE_CLOCK names, else one that is built here."""
        made = os.environ.get("HINGE_CLOCK") or f"{self.folder}/hinge-clock.so"
        if not os.environ.get("HINGE_CLOCK"):
            flags = ["-std=c17", "-O2", "-Wall", "-Wextra", "-Werror", "-shared", "-fPIC"]
            subprocess.run(["cc", *flags, *(TOP / "hosts").glob("clock*.c"), "-o", made], check=True)
        env = {**os.environ, "HINGE_CLOCK": made, "PYTHONPATH": str(TOP / "python"), "PYTHONDONTWRITEBYTECODE": "1"}
        asked = [sys.executable, TOP / "python" / "hinge" / "__main__.py", "kernel", "--clock"]
        clock = subprocess.run(asked, env=env, stdout=subprocess.PIPE, text=True, check=True).stdout.strip()
        done = subprocess.run([sys.executable, "-c", ASKED], env={**env, "LD_PRELOAD": clock}, capture_output=True, text=True)
        assert done.stderr == ""
        assert done.stdout.splitlines() == ["(1700000090000001000, 90000001000, 1700000090000001, 1700000090, True)", "True True"]


@unittest.skipIf(CLOCK_LIBRARY is None or importlib.util.find_spec("OpenSSL") is None, "no hinge-clock.so or no python3-openssl")
class ClockOfOpenSSL(unittest.TestCase):
    def test_a_timer_of_dtls_runs_in_simulated_time(self) -> None:
        from OpenSSL import SSL
        from OpenSSL._util import ffi

        def left(asker: SSL.Connection) -> float:
            parts = (ctypes.c_long * 2)()
            ctypes.CDLL("libssl.so.3").SSL_ctrl(
                ctypes.c_void_p(int(ffi.cast("uintptr_t", asker._ssl))), 73, ctypes.c_long(0), parts
            )
            return parts[0] + parts[1] / 1e6

        async def main() -> list[float]:
            asker = SSL.Connection(SSL.Context(SSL.DTLS_METHOD))
            asker.set_connect_state()
            with self.assertRaises(SSL.WantReadError):
                asker.do_handshake()
            first = left(asker)
            await asyncio.sleep(0.75)
            return [first, left(asker)]

        assert [1.0, 0.25] == aio.run(main())
