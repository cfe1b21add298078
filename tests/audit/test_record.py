"""The record: entries and their chain, what sessions carried, seals and reports, against what
gateway/ and docs/ say of them.
"""

import hashlib
import unittest
from dataclasses import dataclass
from pathlib import Path
from typing import Any

from mireseason_audit.chain import ChainReader, hash_of
from mireseason_audit.faults import Wrong
from mireseason_audit.findings import Finding
from mireseason_audit.frame import fault_of, fields_of, framed
from mireseason_audit.identity import Identity
from mireseason_audit.records import Entry, Kept, Messages, Outgoing, Sent, configured, day_of
from mireseason_audit.report import report
from mireseason_audit.seal import Sealed, compared, digest, first_of, read_seal, write_seal
from mireseason_audit.verdict import Verdict
from mireseason_audit.wire import WireReader, carried, header_fault, parts_of

from tests.audit.common import folder, keys
from tests.audit.samples import ACCEPTED, CONFIGURATION, OFFERED, REJECT, SHOWN, soh


def carries(data: bytes, number: int, frame: bytes, firm: str) -> bool:
    """Whether a session's message of this number carries a frame; those before it are its own."""
    parts = parts_of(frame)
    assert parts is not None
    given = int(parts.number)
    reader = WireReader(iter([Sent(firm, given, 1, frame)]), lambda place: None)
    for own in range(1, number):
        head = soh("35=0|34=%d|49=VENUE|52=20250314-09:00:10.001|56=%s" % (own, firm))
        assert reader.take(Outgoing(firm, own, None, framed(fields_of(head + b"\x01")))) is None
    return reader.take(Outgoing(firm, number, given, data)) is None


def entry(place: int, moment: str, line: bytes, before: bytes, **other: Any) -> Entry:
    received = moment + "000"
    made = Entry(place, 0, moment, None, None, line, before, b"", received)._replace(**other)
    return made._replace(hash=hash_of(made, True))


SPOILT: list[tuple[str, Any]] = [  # a column of an entry, and what stands there
    ("place", 99),
    ("term", -1),
    ("moment", "08:59:59.000"),
    ("firm", "NOBODY"),
    ("number", 0),
    ("line", b"clock 09:00:00"),
    ("before", bytes(32)),
    ("hash", bytes(32)),
]


class Chains(unittest.TestCase):
    def test_the_hash_is_that_of_the_schema(self) -> None:
        """The text of gateway/schema.sql: BEFORE PLACE TERM MOMENT RECEIVED FIRM NUMBER CONNECTION
        LENGTH, a line feed, the line.
        """
        line, before = b"hex DLR1 09:00:10.000 00", bytes(range(32))
        moments = "09:00:10.000", "09:00:09.999876"
        made = Entry(7, 2, moments[0], "DLR1", 5, line, before, b"", moments[1], 3)
        text = before.hex() + " 7 2 09:00:10.000 09:00:09.999876 DLR1 5 3 %d\n" % len(line)
        self.assertEqual(hash_of(made, True), hashlib.sha256(text.encode() + line).digest())
        made = made._replace(firm=None, number=None, connection=None)
        text = text.replace("DLR1 5 3", "- - -")
        self.assertEqual(hash_of(made, True), hashlib.sha256(text.encode() + line).digest())

    def test_the_hash_of_old_logs(self) -> None:
        """Before form 3: BEFORE PLACE TERM MOMENT FIRM NUMBER LENGTH, a line feed, the line."""
        line, before = b"hex DLR1 09:00:10.000 00", bytes(range(32))
        made = Entry(7, 2, "09:00:10.000", "DLR1", 5, line, before, b"")
        text = before.hex() + " 7 2 09:00:10.000 DLR1 5 %d\n" % len(line)
        self.assertEqual(hash_of(made, False), hashlib.sha256(text.encode() + line).digest())
        made = made._replace(firm=None, number=None)
        text = text.replace("DLR1 5", "- -")
        self.assertEqual(hash_of(made, False), hashlib.sha256(text.encode() + line).digest())

    def found(self, *entries: Entry) -> list[str]:
        reader = ChainReader(has_chain=True, has_door=True)
        for one in entries:
            reader.take(one)
        return [finding.text for finding in reader.found.findings]

    def test_whole_and_broken_chains(self) -> None:
        first = entry(0, "09:00:00.000", b"", bytes(32))
        second = entry(1, "09:00:01.000", b"clock 09:00:01.000", first.hash)
        third = entry(2, "09:00:02.000", b"clock 09:00:02.000", second.hash)
        self.assertEqual(self.found(first, second, third), [])
        self.assertIn("entry 1 is missing: after 0 comes 2", self.found(first, third))
        self.assertIn("entry 0 is missing", self.found(second))
        earlier = entry(2, "09:00:00.500", b"clock 09:00:00.500", second.hash)
        self.assertEqual(len(self.found(first, second, earlier)), 1)
        later = entry(1, "09:00:01.000", b"clock 09:00:01.000", first.hash, term=2)
        older = entry(2, "09:00:02.000", b"clock 09:00:02.000", later.hash, term=1)
        found = self.found(first, later, older)
        self.assertEqual(found, ["its term 1 is before 2, that of entry 1"])
        other = entry(2, "09:00:02.000", b"clock 09:00:03.000", second.hash)
        self.assertEqual(len(self.found(first, second, other)), 1)
        line = b"hex DLR1 09:00:02.000 00"
        stranger = entry(2, "09:00:02.000", line, second.hash, firm="DLR2", number=3)
        self.assertEqual(len(self.found(first, second, stranger)), 1)
        foreign = entry(2, "09:00:02.000", b"clock 09:00:02.000", bytes(32))
        self.assertEqual(len(self.found(first, second, foreign)), 1)

    def test_the_numbers_of_a_session(self) -> None:
        """Each is above all before it, and the first that is not is told; the greatest is remembered."""
        for numbers, told in (
            ((5, 6, 9), []),
            ((5, 5), ["number 5 of DLR1's session comes after 5"]),
            ((5, 9, 7, 8), ["number 7 of DLR1's session comes after 9"]),
        ):
            rows = [entry(0, "09:00:00.000", b"", bytes(32))]
            for place, number in enumerate(numbers, 1):
                moment = "09:00:%02d.000" % place
                line = b"hex DLR1 %s 00" % moment.encode()
                rows.append(entry(place, moment, line, rows[-1].hash, firm="DLR1", number=number))
            reader = ChainReader(has_chain=True, has_door=True)
            for one in rows:
                reader.take(one)
            self.assertEqual([finding.text for finding in reader.found.findings], told)
            self.assertEqual(reader.found.numbers["DLR1"], (max(numbers), len(numbers)))

    def test_lines_that_no_gateway_writes(self) -> None:
        """Each is of the row's firm and moment, and follows on the entry before it."""
        first = entry(0, "09:00:00.000", b"", bytes(32))
        moment = "09:00:01.000"
        for line, is_right in (
            (b"hex DLR1 09:00:01.000 00", True),
            (b"hex DLR1 09:00:01.000 00\nclock 09:00:01.000", False),
            (b"in DLR1 09:00:01.000 8=FIXT.1.1|", False),
            (b"piece DLR1 09:00:01.000 8", False),
            (b"say DLR1 T1 09:00:01.000 S 117=a", False),
        ):
            second = entry(1, moment, line, first.hash, firm="DLR1", number=1)
            found = self.found(first, second)
            expected = [] if is_right else ["its line is not one that a gateway writes"]
            self.assertEqual(found, expected, line)

    def test_each_entry_that_is_spoilt_is_told(self) -> None:
        """Forty entries, one of them spoilt in each way."""
        rows: list[Entry] = []
        for place in range(40):
            firm = None if place % 5 == 0 else "DLR%d" % (place % 3)
            moment = "09:00:%02d.000" % place
            text = "clock " + moment if firm is None else "hex %s %s 00" % (firm, moment)
            line, before = text.encode(), rows[-1].hash if rows else bytes(32)
            number = None if firm is None else place
            rows.append(entry(place, moment, line, before, firm=firm, number=number))
        self.assertEqual(self.found(*rows), [])
        for at in range(2, 40):
            for name, value in SPOILT:
                spoilt = rows[at]._replace(**{name: value})
                for made in (spoilt, spoilt._replace(hash=hash_of(spoilt, True))):
                    changed = [*rows[:at], made, *rows[at + 1 :]]
                    found = self.found(*changed)
                    self.assertEqual(bool(found), made != rows[at], (at, name))

    def test_the_day_of_entry_0(self) -> None:
        digest = hashlib.sha256(CONFIGURATION).hexdigest().encode()
        line = b"version v 1\nprogram 00\nconfiguration " + digest + b"\n%%\n" + CONFIGURATION
        day = day_of(line)
        self.assertEqual((day.version, day.date), ("v 1", "20250314"))
        firms = [(firm.name, firm.kind) for firm in day.firms]
        self.assertEqual(firms, [("DLR1", "dealer"), ("INV1", "investor")])
        self.assertEqual(day.head, CONFIGURATION + b"%%\n")
        parts = [line.replace(b"%%\n", b""), line.replace(digest, b"00")]
        for wrong in (b"", line[1:], line + b" ", *parts):
            self.assertRaises(Wrong, day_of, wrong)

    def test_no_file_is_called_by_what_is_no_name(self) -> None:
        """Files are called by the names of firms, and a log may have been written by anybody."""
        for name in ("A", "ABCDEFG8"):
            text = CONFIGURATION.replace(b"INV1", name.encode())
            self.assertEqual(configured("", "", text).firms[1].name, name)
        for name in ("", "../../x", "/tmp/x", "A/B", "a", "1A", "ABCDEFGH9", "A\\n", "A\\u0000"):
            text = CONFIGURATION.replace(b"INV1", name.encode())
            self.assertRaisesRegex(Wrong, "has a firm named", configured, "", "", text)
        self.assertRaises(Wrong, configured, "", "", CONFIGURATION.replace(b'"INV1"', b"5"))
        self.assertRaises(Wrong, configured, "", "", CONFIGURATION + b"x = " + b"[" * 100_000)


class Wires(unittest.TestCase):
    """The body on the wire: 1181 first; 60 in front of 537, 297 or 453, or last; 45 is the
    session's.
    """

    def test_each_type(self) -> None:
        for text, expected in (
            (ACCEPTED, "|1181=2|131=R1|117=a1|60=20250314-09:00:10.000|297=0"),
            (
                SHOWN,
                "|1181=1|131=R1|146=1|55=[N/A]|48=BONDA0000001|22=4|54=1|38=2000000"
                "|126=20250314-09:05:00.000|60=20250314-09:00:00.000|453=1|448=INV1|447=D"
                "|452=13",
            ),
            (REJECT, "|1181=6|45=9|371=50|372=Z|373=1|60=20250314-09:01:10.000"),
            (
                OFFERED,
                "|1181=3|131=A|117=Q2|55=[N/A]|48=BONDA0000001|22=4|54=1|133=99.515625"
                "|135=2000000|62=20250314-09:04:00.000|60=20250314-09:00:20.000|537=1|453=1"
                "|448=DLR2|447=D|452=35",
            ),
        ):
            parts = parts_of(soh(text))
            assert parts is not None
            self.assertEqual(carried(parts, 9), soh(expected))
        self.assertIsNone(parts_of(b"8=FIXT.1.1\x01"))


class Sessions(unittest.TestCase):
    """A message that plainly carries a frame: no other byte of it may stand there."""

    def test_each_changed_byte(self) -> None:
        for text in (ACCEPTED, SHOWN, REJECT):
            frame = soh(text)
            parts = parts_of(frame)
            assert parts is not None
            head = soh("35=%s|34=7|49=VENUE|52=20250314-09:00:10.001|56=DLR1")
            body = head.replace(b"%s", parts.kind) + carried(parts, None) + b"\x01"
            wire = framed(fields_of(body))
            self.assertIsNone(fault_of(wire))
            self.assertTrue(carries(wire, 7, frame, "DLR1"))
            self.assertFalse(carries(wire, 8, frame, "DLR1"))
            self.assertFalse(carries(wire, 7, frame, "DLR2"))
            for at in range(len(wire)):
                for other in (wire[at] ^ 1, 1, 0x7C):
                    changed = wire[:at] + bytes([other]) + wire[at + 1 :]
                    self.assertEqual(carries(changed, 7, frame, "DLR1"), changed == wire, at)

    def test_a_header_with_another_field(self) -> None:
        """The length and the sum are those of what stands there."""
        frame = soh(ACCEPTED)
        parts = parts_of(frame)
        assert parts is not None
        sent, body = Sent("DLR1", 2, 9, frame), carried(parts, None) + b"\x01"
        whole = "35=AI|34=1|49=VENUE|52=20250314-09:00:10.001|56=DLR1"
        for head, is_right in (
            (whole, True),
            (whole.replace("|56=", "|115=X|56="), False),
            (whole.replace("|52=", "|43=Y|52="), False),
            (whole.replace("35=AI", "35=0").replace("|56=", "|35=AI|56="), False),
            (whole + "|57=X", False),
        ):
            data = framed(fields_of(soh(head) + body))
            reader = WireReader(iter([sent]), lambda place: None)
            found = reader.take(Outgoing("DLR1", 1, 2, data))
            self.assertEqual(found is None, is_right, head)
            self.assertEqual(carries(data, 1, frame, "DLR1"), is_right, head)


class Told(unittest.TestCase):
    """What a message may have beside a frame, on a day that gives notes: one field behind all
    others, with words of the day's table, or a name. The replay has the same note, or another.
    """

    REASONS = {b"too late": b"Lifted", b"the request has ended": b"Closed"}
    REFUSED = (
        "8=FIXT.1.1|9=72|35=AI|49=VENUE|56=DLR1|34=2|52=20250314-09:01:05.000|117=a2|297=5|300=4"
        "|10=136|"
    )
    GONE = (
        "8=FIXT.1.1|9=73|35=AI|49=VENUE|56=DLR1|34=2|52=20250314-09:00:50.000|297=5|300=4|58=Gone"
        "|10=000|"
    )
    HEAD = "35=AI|34=1|49=VENUE|52=20250314-09:01:05.001|56=DLR1"

    def note(self, frame: str, end: str, reasons: dict[bytes, bytes] | None = None) -> bytes | None:
        """The note that a message tells which carries a frame and ends so; None where it is no
        message that carries it.
        """
        parts = parts_of(soh(frame))
        assert parts is not None
        data = framed(fields_of(soh(self.HEAD) + carried(parts, None) + soh(end) + b"\x01"))
        sent = Sent("DLR1", 2, 9, soh(frame))
        known = self.REASONS if reasons is None else reasons
        reader = WireReader(iter([sent]), lambda place: None, known)
        return None if reader.take(Outgoing("DLR1", 1, 2, data)) else reader.note

    def test_what_may_stand_there(self) -> None:
        for frame, end, note in (
            (self.REFUSED, "", b""),
            (self.REFUSED, "|58=too late", b"why DLR1 2 Lifted"),
            (self.REFUSED, "|58=the request has ended", b"why DLR1 2 Closed"),
            (ACCEPTED, "|1003=20250314-INV1-DLR1-1", b"trade DLR1 2 20250314-INV1-DLR1-1"),
            (ACCEPTED, "|1003=x", b"trade DLR1 2 x"),  # the replay has another
            (self.GONE, "", b""),
        ):
            self.assertEqual(self.note(frame, end), note, end)

    def test_what_may_not(self) -> None:
        for frame, end in (
            (self.REFUSED, "|58=Lifted"),
            (self.REFUSED, "|58="),
            (self.REFUSED, "|58=too late |"),
            (self.REFUSED, "|58=too late|58=too late"),
            (self.REFUSED, "|58=too late|1003=x"),
            (self.REFUSED, "|58=too late|1=x"),
            (self.REFUSED, "|1=x|58=too late"),
            (self.GONE, "|58=too late"),
            (ACCEPTED, "|1=x"),
            (ACCEPTED, "|1003="),
            (ACCEPTED, "|1003=x y"),
            (ACCEPTED, "|1003=x\ny"),
            (ACCEPTED, "|1003=" + "x" * 41),
        ):
            self.assertIsNone(self.note(frame, end), end)
        for end in ("|58=too late", "|1003=20250314-INV1-DLR1-1"):
            self.assertIsNone(self.note(self.REFUSED, end, {}), end)

    def test_the_table_in_entry_0(self) -> None:
        digest = hashlib.sha256(CONFIGURATION).hexdigest().encode()
        head = b"venue -\nversion v\ngateway g 1\nprogram 00\nconfiguration " + digest + b"\n"
        table = b"reason Closed the request has ended\nreason Lifted too late\n"
        day = day_of(head + table + b"%%\n" + CONFIGURATION)
        self.assertEqual(day.names_of_reasons, self.REASONS)
        self.assertEqual((day.gateway, day.notes_flag), ("g 1", ("--notes",)))
        self.assertEqual(day_of(head + b"%%\n" + CONFIGURATION).notes_flag, ())
        for wrong in (
            b"reason Closed\n",
            b"reason \n",
            b"reason A b\nreason A c\n",
            b"reason A|b\n",
            b"reason A b\nreason B b\n",
            b"reason A \xff\n",
            b"reason A " + b"x" * 101 + b"\n",
            b"reason A b",
            b"reason  b\n",
        ):
            text = head + wrong + b"%%\n" + CONFIGURATION
            self.assertRaises(Wrong, day_of, text)


class OwnMessages(unittest.TestCase):
    """What a session sends of itself carries nothing of the venue."""

    def fault(self, kind: str, carries: bool = False) -> str | None:
        text = "35=%s|34=7|49=VENUE|52=20250314-09:00:10.001|56=DLR1|131=R1|117=a1|297=0|"
        return header_fault(framed(fields_of(soh(text % kind))), 7, "DLR1", carries)

    def test_each_type(self) -> None:
        for kind in "01234", "5A":
            self.assertEqual([self.fault(one) for one in kind], [None] * len(kind))
        for one, text in (
            ("0|34=8|34=7", "its 34 is another"),
            ("0|49=X", "it is not of the venue"),
            ("0|56=DLR2", "it is not of the venue"),
        ):
            self.assertRegex(self.fault(one) or "", text)
        for one in ("AI", "S", "R", "AJ", "AG", "8", "U", "", "00", "j", "AI|35=0"):
            self.assertRegex(self.fault(one) or "", "a session sends no such message of itself")
            self.assertIsNone(self.fault(one, carries=True))


class Reports(unittest.TestCase):
    def test_nothing_in_a_log_writes_a_line_of_its_own(self) -> None:
        forged = "X\nverdict: each firm was sent what the rules give, byte for byte\x1b[2J\u2028"
        day = configured(forged, "", CONFIGURATION)
        counts = {"DLR1": 0, "INV1": 0}
        verdict = Verdict("day.db", day, Identity(day, {}), True, program="v 1\r", messages=counts)
        verdict.findings = [Finding(forged, "its moment %s" % forged, 3)]
        lines = report(verdict)
        self.assertTrue(all(line.isprintable() for line in lines), lines)
        verdicts = [line.partition(",")[0] for line in lines if line.startswith("verdict: ")]
        self.assertEqual(verdicts, ["verdict: 1 thing is not as it should be"])
        self.assertIn("X\\nverdict: each", lines[-2])
        self.assertIn("\\x1b[2J\\u2028: entry 3: its moment X\\n", lines[-2])


@dataclass(frozen=True)
class KeptTexts:
    """A log of which some texts are kept, by what is asked."""

    texts: dict[tuple[str, int], str]

    def hash_at(self, place: int) -> str:
        return self.texts.get(("hash", place), "")

    def event_hash_at(self, place: int) -> str:
        return self.texts.get(("door", place), "")

    def first(self, word: str, firm: str, count: int) -> str:
        return self.texts.get((word + " " + firm, count), "")


class Seals(unittest.TestCase):
    """How a log ends, against its seal; each hundredth entry stands in it, and the last."""

    def found(self, sealed: int, now: int, kept: str = "") -> list[str]:
        texts = KeptTexts({("hash", sealed): kept})
        return [one.text for one in compared(self.seal(sealed), self.seal(now), texts)]

    def seal(self, last: int) -> Sealed:
        hundredths = ["entry %d hash%d" % (place, place) for place in range(0, last + 1, 100)]
        return Sealed((*hundredths, "last %d hash%d" % (last, last)))

    def test_how_a_log_ends(self) -> None:
        self.assertEqual(self.found(120, 120), [])
        behind = "the log goes on to entry 234, after entry %d, the last that was sealed"
        self.assertEqual(self.found(200, 234), [behind % 200])
        self.assertEqual(self.found(120, 234, "hash120"), [behind % 120])
        others = "from entry 101 to 120 they are not those that were sealed"
        self.assertEqual(self.found(120, 234, "another"), [others + "; " + behind % 120])
        self.assertEqual(self.found(120, 110), [others + "; the log ends at entry 110"])

    def test_messages_that_go_on(self) -> None:
        """Those that were sealed are still there, or not."""
        for word, whose in (("sent", "messages"), ("session", "messages of its session")):
            for before, after, kept, text in (
                ("2 d", "5 e", "2 d", "go on after those that were sealed: 3 more"),
                ("0 d", "1 e", "0 d", "go on after those that were sealed: 1 more"),
                ("2 d", "5 e", "2 x", "are not those that were sealed"),
                ("5 d", "2 e", "5 d", "are not those that were sealed"),
                ("2 d", "2 e", "2 d", "are not those that were sealed"),
            ):
                seal, now = (Sealed(("%s DLR1 %s" % (word, one),)) for one in (before, after))
                texts = KeptTexts({(word + " DLR1", int(before[0])): kept})
                (found,) = compared(seal, now, texts)
                self.assertEqual((found.where, found.text), ("DLR1", "its %s %s" % (whose, text)))

    def test_the_first_messages(self) -> None:
        blocks = [
            Messages((1, 2), (3, None), (b"a", b"b")),
            Messages((3,), (4,), (b"c",)),
            Messages((4, 5), (5, 6), (b"d", b"e")),
        ]
        rows = [row for block in blocks for row in zip(*block)]
        for count in range(7):
            taken = [row for block in first_of(blocks, count) for row in zip(*block)]
            self.assertEqual(taken, rows[:count])

    def test_what_a_digest_is_of(self) -> None:
        """How many messages, and the SHA-256 of all that is kept of each, however they are read in blocks. Another form would speak
        against each seal that was taken before."""
        whole = Kept(
            (2, 4),
            (1, None),
            (b"ab", b"c"),
            (0, 1),
            (0, 1),
            (0, 1),
            ("AI", "3"),
            ("09:00", "09:01"),
        )
        text = b"2 1 2 0 0 0 AI 09:00\nab" + b"4 -1 1 1 1 1 3 09:01\nc"
        self.assertEqual(digest([whole]), "2 " + hashlib.sha256(text).hexdigest())
        self.assertEqual(digest([whole.picked([0]), whole.picked([1])]), digest([whole]))
        for at in range(len(whole)):
            columns: Any = [*whole[:at], whole[at][::-1], *whole[at + 1 :]]
            turned = Kept._make(columns)
            self.assertNotEqual(digest([turned]), digest([whole]), at)
        sent = Messages((1, 2), (3, 9), (b"ab", b"c"))
        text = b"1 3 2\nab" + b"2 9 1\nc"
        self.assertEqual(digest([sent]), "2 " + hashlib.sha256(text).hexdigest())
        self.assertEqual(digest([]), "0 " + hashlib.sha256(b"").hexdigest())

    def test_each_changed_line(self) -> None:
        """Whatever else a seal says than the log: it is told."""
        days = ["%s day %s" % (word, word) for word in ("date", "version", "program")]
        lines = ["title", *days, "configuration day c", "entry 0 a", "entry 100 b", "last 120 c"]
        lines += ["sent DLR1 2 d", "session DLR1 3 e", "sent INV1 0 f", "session INV1 1 g"]
        sealed = Sealed(tuple(lines))
        kept = KeptTexts({})
        self.assertEqual(list(compared(sealed, sealed, kept)), [])
        for at in range(len(lines)):
            changes: list[list[str]] = [[lines[at] + "x"], [], [lines[at], lines[at]]]
            for other in changes:
                now = Sealed((*lines[:at], *other, *lines[at + 1 :]))
                self.assertTrue(list(compared(sealed, now, kept)), (at, other))
                self.assertTrue(list(compared(now, sealed, kept)), (at, other))

    def test_a_version_in_two_lines(self) -> None:
        """A line ends at a line feed alone, in a seal as in entry 0."""
        what = Sealed(("mireseason-seal 1", "version day v\x0b1\u2028\r", "last 0 a"))
        with folder() as name:
            private, public = keys(Path(name))
            write_seal(what, private, Path(name) / "seal")
            self.assertEqual(read_seal(Path(name) / "seal", public), what)


if __name__ == "__main__":
    unittest.main()
