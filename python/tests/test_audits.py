"""Audits of histories by hand and of those that the module writes, against `dummynet audit`."""

import io
import pickle
import subprocess
import tempfile
import unittest

import hingetulip
from hingetulip import HISTORY_LIMIT, Audit, ClosedError, HistoryError, InUseError, RangeError, Service, Verdict, audit, audits
from hingetulip.recorded import RecordedShaper
from simulated_hosts import PROGRAM
from with_folder import WithFolder

LAWFUL = b"""\
dummynet-history,3
c,0,configure,pipe 1 config bw 8000000bit/s
r,configured
c,0,submit,pipe,1,10.0.0.1,10.0.0.2,17,1000,2000,1000,0,0
r,queued,0,0,0
c,1,collect,1000000
r,delivered,1000000,1
d,0,0,0,1000000
end,3
"""
VERDICTS = {
    LAWFUL: Verdict(3, None),
    LAWFUL.replace(b"0,0,1000000", b"0,1,1000000"): Verdict(3, 2),
    LAWFUL.replace(b"queued,0,0,0", b"lost,0,0"): Verdict(3, 1),
    LAWFUL.replace(b"configured", b'"configured"').replace(b"\n", b"\r\n"): Verdict(3, None),
    b"dummynet-history,3\nend,0\n": Verdict(0, None),
    b"dummynet-live,1\n#,next\nend,0\n": Verdict(0, None),
}
# With the number of the first bad record.
BAD = {
    b"": 1,
    LAWFUL.replace(b"end,3\n", b""): 9,
    LAWFUL.replace(b"end,3", b"end,4"): 9,
    LAWFUL.replace(b"queued", b"quoted"): 5,
    LAWFUL.replace(b"configured", b"deleted").replace(b"d,0,0,0,", b"d,0,0,"): 8,
}


def by_program(history: bytes) -> str:
    """What the program prints of a history."""
    with tempfile.NamedTemporaryFile() as file:
        file.write(history)
        file.flush()
        done = subprocess.run([PROGRAM, "audit", file.name], capture_output=True, text=True)
    return (done.stdout + done.stderr).strip()


def told(verdict: Verdict) -> str:
    return f"lawful {verdict.entries}" if verdict.lawful else f"differs {verdict.differs}"


class Histories(unittest.TestCase):
    def test_verdicts_are_the_programs(self) -> None:
        for history, verdict in VERDICTS.items():
            self.assertEqual((audit(history), told(verdict)), (verdict, by_program(history)), history)
            self.assertEqual(bool(verdict), verdict.lawful)

    def test_bad_records_are_the_programs(self) -> None:
        for history, record in BAD.items():
            with self.assertRaises(HistoryError) as raised:
                audit(history)
            self.assertEqual((str(raised.exception), raised.exception.record), (by_program(history), record), history)

    def test_parts_of_each_length(self) -> None:
        for history, verdict in VERDICTS.items():
            for step in range(1, len(history) + 1):
                self.assertEqual(audit(history[at : at + step] for at in range(0, len(history), step)), verdict)

    def test_what_a_history_can_be(self) -> None:
        parts = LAWFUL.splitlines(keepends=True)
        for history in (LAWFUL, bytearray(LAWFUL), memoryview(LAWFUL), io.BytesIO(LAWFUL), parts, iter(parts)):
            self.assertEqual(audit(history), Verdict(3, None))
        for wrong in (LAWFUL.decode(), io.StringIO(LAWFUL.decode()), [*LAWFUL], None, 5):
            with self.assertRaises(TypeError):
                audit(wrong)  # type: ignore[arg-type]

    def test_a_long_history_in_one_part(self) -> None:
        entries = 20_000
        text = b"".join(b"c,0,advance,%d\nr,advanced,%d\n" % (at, at) for at in range(entries))
        history = b"dummynet-history,3\n%send,%d\n" % (text, entries)
        self.assertGreater(len(history), 5 * audits.PART)
        self.assertEqual(audit(history), Verdict(entries, None))
        self.assertEqual(audit(history.replace(b"r,advanced,7\n", b"r,advanced,8\n")), Verdict(entries, 7))

    def test_limits(self) -> None:
        self.assertEqual(audit(LAWFUL, len(LAWFUL)), Verdict(3, None))
        with self.assertRaises(HistoryError) as raised:
            audit(LAWFUL, len(LAWFUL) - 1)
        self.assertEqual((str(raised.exception), raised.exception.record), ("history too long", None))
        for limit in (-1, 2**64):
            with self.assertRaises(RangeError):
                Audit(limit)
        self.assertEqual(HISTORY_LIMIT, 2**28)


class Parts(unittest.TestCase):
    def test_an_audit_ends(self) -> None:
        with Audit() as it:
            it.feed(b"")
            it.feed(LAWFUL)
            self.assertEqual((it.closed, repr(it)), (False, "<hingetulip.Audit, open>"))
            self.assertTrue(it.finish().lawful)
            self.assertEqual((it.closed, repr(it)), (True, "<hingetulip.Audit, closed>"))
        it.close()
        short = Audit(len(LAWFUL) - 1)
        with self.assertRaises(HistoryError):
            short.feed(LAWFUL)
        for closed in (it, short):
            with self.assertRaisesRegex(ClosedError, "the audit has ended"):
                closed.feed(b"")
            with self.assertRaises(ClosedError):
                closed.finish()

    def test_it_begins_anew(self) -> None:
        it = Audit()
        it.feed(b"dummynet")
        it.__init__()  # type: ignore[misc]
        it.feed(LAWFUL)
        self.assertEqual(it.finish(), Verdict(3, None))

    def test_one_call_at_a_time(self) -> None:
        it = Audit()
        with it._turn:
            for call in (lambda: it.feed(LAWFUL), it.finish, it.close):
                with self.assertRaises(InUseError):
                    call()
        it.feed(LAWFUL)
        self.assertTrue(it.finish().lawful)

    def test_it_is_not_copied(self) -> None:
        with self.assertRaises(TypeError):
            pickle.dumps(Audit())
        fault = HistoryError("", 7)
        again = pickle.loads(pickle.dumps(fault))
        self.assertEqual((type(again), str(again), again.record), (HistoryError, str(fault), 7))


class Recorded(WithFolder):
    def test_a_recorded_shaper(self) -> None:
        path = self.folder / "h"
        with RecordedShaper(path, seed=1) as shaper:
            self.assertEqual(shaper.audit(), Verdict(0, None))
            shaper.configure("pipe 1 config bw 8Mbit/s plr 0.5")
            for moment in range(300):
                shaper.submit(moment, 1000, pipe=1)
            self.assertEqual(shaper.audit(), Verdict(301, None))
            shaper.collect(10**9)
        self.assertEqual(shaper.audit(), Verdict(302, None))
        text = path.read_bytes()
        self.assertEqual(by_program(text), "lawful 302")
        path.write_bytes(text.replace(b"r,configured", b"r,deleted"))
        self.assertEqual(shaper.audit(), Verdict(302, 0))

    def test_the_history_of_a_service(self) -> None:
        path = self.folder / "h"
        with Service(2) as service:
            service.history(path)
            service.callers[0].configure("pipe 1 config bw 8Mbit/s")
            service.callers[1].submit(0, 1000, pipe=1)
            service.callers[1].show()
        with open(path, "rb") as file:
            self.assertEqual(hingetulip.audit(file), Verdict(3, None))
