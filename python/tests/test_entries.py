"""Files that the module reads. Histories: each kind of call and reply, faults, histories that the module writes, and their calls made
again. Packet files: each row's fields, every form of a row, the first fault, and a replay of the packets."""

import pickle
from typing import Any
from unittest import mock

import hingetulip
from hingetulip import Delivery, Entry, EntryCall, EntryReply, Fate, FlowStatus, HistoryError, Outcome, Rule, Submitted, entries
from hingetulip.packet_file import HEADER
from hingetulip.recorded import RecordedShaper
from with_folder import WithFolder

PACKET = Submitted(5, 1000, 1, None, 0x0A000001, 0x0A000002, 17, 3, 4, 9)
TO_A_QUEUE = Submitted(6, 65535, None, 65535, 2**32 - 1, 0, 255, 65535, 0, 2**32 - 1)
CONFIGURED, DELETED, REFUSED = EntryReply.CONFIGURED, EntryReply.DELETED, EntryReply.REFUSED
ONE = "c,0,configure,pipe 1 config bw 8Mbit/s\nr,configured\n"
# Two flows of the same pipe, whose masks differ, as one text, and as they are read.
FLOWS = """\
f,0,pipe,1,1,0.0.0.0,0.0.0.0,0,0,0,0.0.0.0,0.0.0.0,0,0,0,1,1000,2,3,4,5
f,1,queue,2,1,255.255.255.255,0.0.0.0,255,0,65535,10.0.0.1,0.0.0.0,17,0,7,0,0,0,0,6,0
"""
SHOWN = [FlowStatus(0, None, 1, 0, 0, 0, 0, 0, 1, 1000, 2, 3, 4, 5), FlowStatus(1, 2, 1, 0x0A000001, 0, 17, 0, 7, 0, 0, 0, 0, 6, 0)]


def entry(call: EntryCall, reply: EntryReply, caller: int = 0, **told: Any) -> Entry:
    """An entry by what it tells."""
    return Entry(caller, call, reply, None, None, None, None, None, [], [], None)._replace(**told)


def configure(line: str, reply: EntryReply, **told: Any) -> Entry:
    return entry(EntryCall.CONFIGURE, reply, line=line, **told)


def submit(packet: Submitted, fate: Fate, caller: int) -> Entry:
    return entry(EntryCall.SUBMIT, EntryReply.FATE, caller, moment=packet.moment, packet=packet, at=fate.at, fate=fate)


# Each kind of a call and of a reply: its text, and what is read.
KINDS = {
    ONE: configure("pipe 1 config bw 8000000bit/s", CONFIGURED),
    "c,0,configure,pipe delete 1\nr,deleted\n": configure("pipe delete 1", DELETED),
    "c,0,configure,queue delete 3\nr,no-such-queue\n": configure("queue delete 3", REFUSED, refusal="no such queue"),
    "c,0,configure,pipe delete 9\nr,no-such-pipe\n": configure("pipe delete 9", REFUSED, refusal="no such pipe"),
    "c,0,configure,pipe delete 1\nr,pipe-has-queues\n": configure("pipe delete 1", REFUSED, refusal="pipe has queues"),
    "c,15,submit,pipe,1,10.0.0.1,10.0.0.2,17,3,4,1000,9,5\nr,queued,7,8,2\n": submit(PACKET, Fate(Outcome.QUEUED, 7, 8, 2), 15),
    "c,1,submit,queue,65535,255.255.255.255,0.0.0.0,255,65535,0,65535,4294967295,6\nr,lost,6,1\n": submit(
        TO_A_QUEUE, Fate(Outcome.LOST, 6, 1, None), 1
    ),
    "c,2,submit,pipe,1,10.0.0.1,10.0.0.2,17,3,4,1000,9,5\nr,full,5,0\n": submit(PACKET, Fate(Outcome.FULL, 5, 0, None), 2),
    "c,2,submit,pipe,1,10.0.0.1,10.0.0.2,17,3,4,1000,9,5\nr,no-target,5\n": submit(
        PACKET, Fate(Outcome.NO_TARGET, 5, None, None), 2
    ),
    "c,3,advance,4611686018427387904\nr,advanced,18446744073709551615\n": entry(
        EntryCall.ADVANCE, EntryReply.CLOCK, 3, moment=2**62, at=2**64 - 1
    ),
    "c,3,collect,5\nr,delivered,6,2\nd,0,1,2,3\nd,4,5,6,7\n": entry(
        EntryCall.COLLECT, EntryReply.DELIVERIES, 3, moment=5, at=6, deliveries=[Delivery(3, 0, 1, 2), Delivery(7, 4, 5, 6)]
    ),
    "c,3,collect,5\nr,delivered,6,0\n": entry(EntryCall.COLLECT, EntryReply.DELIVERIES, 3, moment=5, at=6),
    "c,4,show\nr,status,2\n" + FLOWS: entry(EntryCall.SHOW, EntryReply.FLOWS, 4, flows=SHOWN),
    "c,4,show\nr,exhausted\n": entry(EntryCall.SHOW, REFUSED, 4, refusal="the shaper answered 2^62 calls before"),
    # Replies to other calls.
    "c,4,show\nr,delivered,1,1\nd,9,8,7,6\n": entry(
        EntryCall.SHOW, EntryReply.DELIVERIES, 4, at=1, deliveries=[Delivery(6, 9, 8, 7)]
    ),
    "c,3,advance,5\nr,configured\n": entry(EntryCall.ADVANCE, CONFIGURED, 3, moment=5),
}


def history(texts: list[str], version: str = "dummynet-history,3") -> bytes:
    return f"{version}\n{''.join(texts)}end,{len(texts)}\n".encode()


class Entries(WithFolder):
    def test_each_kind_alone(self) -> None:
        for text, wanted in KINDS.items():
            self.assertEqual(hingetulip.read_history(history([text])), (Rule.ORDERED, [wanted]), text)

    def test_each_names_its_own_items(self) -> None:
        for texts in ([*KINDS], [*reversed(KINDS)], 3 * [*KINDS]):
            self.assertEqual(hingetulip.read_history(history(texts)).entries, [KINDS[text] for text in texts])

    def test_other_forms_of_the_text(self) -> None:
        texts, wanted = [*KINDS][5:], [*KINDS.values()][5:]
        plain = history(texts)
        forms = {
            "carriage returns alone": plain.replace(b"\n", b"\r"),
            "quotes": plain.replace(b"\nc,", b'\n"c",').replace(b"\nd,", b'\n"d",').replace(b"\nf,", b'\n"f",'),
            "a transcript with remarks": history([f"#,next\n{text}" for text in texts], "dummynet-live,1"),
        }
        for name, text in forms.items():
            self.assertEqual(hingetulip.read_history(text), (Rule.ORDERED, wanted), name)
        self.assertEqual(hingetulip.read_history(history(texts[:8], "dummynet-history,2")).rule, Rule.FREE)
        self.assertEqual(hingetulip.read_history(b"dummynet-history,3\nend,0\n"), (Rule.ORDERED, []))

    def test_the_first_bad_record_is_named(self) -> None:
        one = history([ONE])
        for text, record in {b"": 1, one[:-6]: 4, one.replace(b"end,1", b"end,2"): 4, history([ONE, "c,16,show\n"]): 4}.items():
            with self.assertRaises(HistoryError) as raised:
                hingetulip.read_history(text)
            self.assertEqual((raised.exception.record, str(raised.exception)), (record, f"history record {record}: bad"))

    def test_lines_without_room_at_first(self) -> None:
        text = history([*KINDS])
        wanted = hingetulip.read_history(text)
        for room in (0, 1, 20, 10_000):
            with mock.patch.object(entries, "LINE_ROOM", room):
                self.assertEqual(hingetulip.read_history(text), wanted)

    def test_a_recorded_run_is_made_again(self) -> None:
        with hingetulip.Shaper() as again:
            path = self.folder / "h"
            with RecordedShaper(path, seed=1) as shaper:
                shaper.configure("pipe 1 config bw 8Mbit/s plr 0.2 queue 3 delay 3ms")
                for moment in range(0, 60_000_000, 300_000):
                    shaper.submit(moment, 1000, pipe=1, sport=moment % 7)
                    shaper.collect(moment)
            made = hingetulip.read_history(path).entries
            self.assertEqual(len(made), 401)
            for one in made:
                if one.line is not None:
                    again.configure(one.line)
                elif one.packet is not None:
                    self.assertEqual(again.submit(**one.packet._asdict()), one.fate)
                else:
                    self.assertEqual(again.collect(one.moment or 0), one.deliveries)
            self.assertEqual({one.fate.outcome for one in made if one.fate}, {Outcome.QUEUED, Outcome.LOST, Outcome.FULL})


HEAD = HEADER + b"\n"
ROW = b"5,pipe,1,10.0.0.1,10.0.0.2,17,3,4,1000,9\n"
QUOTED = b'"5","pipe",1,"10.0.0.1",10.0.0.2,17,3,4,1000,"9"\r\n'
LAST = b"4611686018427387904,queue,65535,255.255.255.255,0.0.0.0,255,65535,0,65535,4294967295\n"
COLUMNS = ("moment", "kind", "number", "src", "dst", "proto", "sport", "dport", "length", "word")
FIELDS = [
    (5, 0, 1, 0x0A000001, 0x0A000002, 17, 3, 4, 1000, 9),
    (2**62, 1, 65535, 2**32 - 1, 0, 255, 65535, 0, 65535, 2**32 - 1),
]


def fields(packets: hingetulip.Packets) -> list[tuple[int, ...]]:
    return list(zip(*(getattr(packets, name).tolist() for name in COLUMNS)))


class Rows(WithFolder):
    def test_each_field_has_its_column(self) -> None:
        self.assertEqual(fields(hingetulip.read_packets(HEAD + ROW + LAST)), FIELDS)

    def test_each_form_of_a_row_is_read(self) -> None:
        returns = ROW.replace(b"\n", b"\r")
        forms = {
            "no byte": (b"", 0),
            "no row": (HEAD, 0),
            "a mark alone": (b"\xef\xbb\xbf\r\n", 0),
            "a header in quotes behind an empty line": (b'\n"moment"' + HEAD[6:-1] + b"\r" + ROW, 1),
            "quotes round the front of a field": (b'"mom"ent' + HEAD[6:] + ROW, 1),
            "a quote that the end closes": (HEADER[:-4] + b'"word', 0),
            "no line feed at the end": (HEAD + ROW[:-1], 1),
            "a byte order mark, and carriage returns": (b"\xef\xbb\xbf" + (HEAD + ROW).replace(b"\n", b"\r\n"), 1),
            "quotes between plain rows": (HEAD + ROW + QUOTED + ROW, 3),
            "returns alone": (HEAD + 3 * returns, 3),
            "empty lines": (HEAD + b"\n\n" + ROW + b"\n", 1),
        }
        for name, (text, count) in forms.items():
            with self.subTest(name):
                self.assertEqual(fields(hingetulip.read_packets(text)), count * FIELDS[:1])

    def test_the_first_fault_is_named_by_row_and_field(self) -> None:
        faults = {
            "no header": (ROW, 0, 0),
            "a quote that is none": (b'"mo""ment"' + HEAD[6:] + ROW, 0, 0),
            "quotes round two fields": (b'"moment,target"' + HEAD[13:] + ROW, 0, 0),
            "a word": (HEAD + ROW + b"x\n" + ROW, 2, 0),
            "a length of 0": (HEAD + 2 * ROW + ROW.replace(b"1000", b"0"), 3, 9),
            "behind returns": (HEAD + 3 * ROW.replace(b"\n", b"\r") + b"y" + ROW, 4, 1),
        }
        for name, (text, row, field) in faults.items():
            with self.subTest(name), self.assertRaises(hingetulip.RowError) as raised:
                hingetulip.read_packets(text)
            self.assertEqual((raised.exception.row, raised.exception.field), (row, field))
            self.assertEqual(str(pickle.loads(pickle.dumps(raised.exception))), f"packet row {row}, field {field}: bad")

    def test_a_file_is_replayed_with_its_words(self) -> None:
        with hingetulip.Shaper() as shaper:
            path = self.folder / "packets.csv"
            path.write_bytes(HEAD + ROW + ROW.replace(b",9\n", b",4294967295\n"))
            shaper.configure("pipe 1 config bw 8Mbit/s plr 0.5")
            fates = shaper.submit_many(hingetulip.read_packets(str(path)))
            self.assertEqual([fate.outcome.name for fate in fates], ["LOST", "QUEUED"])
            self.assertEqual(shaper.collect(2_000_000), [hingetulip.Delivery(due=1_000_005, packet=0, flow=0, start=5)])
