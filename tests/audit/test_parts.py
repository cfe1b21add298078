"""The parts of the audit, one by one, against what docs/ and gateway/ say of frames, prices,
lines, lists and words.
"""

import unittest
from collections import Counter
from functools import partial
from pathlib import Path
from unittest import mock

from mireseason_audit import pair_command, reading, work
from mireseason_audit.bonds import Bond, bonds_of
from mireseason_audit.dictionary import read_dictionary
from mireseason_audit.facts import quantity_in
from mireseason_audit.faults import Unreadable, Wrong
from mireseason_audit.frame import (
    barred,
    fault_of,
    fields_of,
    framed,
    number_in,
    sum_of,
    text_of,
)
from mireseason_audit.jobs import due_texts, held, is_head
from mireseason_audit.lines import came_of, firm_and_time
from mireseason_audit.arguments import connection_of, whole_source_of
from mireseason_audit.main import parser_of
from mireseason_audit.pair import Compared, Differences, compared_by, difference_words, differences
from mireseason_audit.prices import Band, Price
from mireseason_audit.progress import Progress
from mireseason_audit.reading import Reader
from mireseason_audit.records import Sent, configured
from mireseason_audit.second_day import moved_fields
from mireseason_audit.story import seconds
from mireseason_audit.templates import date_text, quantity_text
from mireseason_audit.timeline import broken, gap_text, words_lines
from mireseason_audit.venue import Venue

from tests.audit.common import ROOT, folder
from tests.audit.samples import ACCEPTED, CONFIGURATION, OFFERED, QUOTE, REJECT, SHOWN, soh


def told(text: str, is_dealer: bool) -> str:
    reader = Reader(read_dictionary(ROOT / "fix" / "MIRESEASON.xml"))
    return reader.told(fields_of(soh(text)), is_dealer).text


class Frames(unittest.TestCase):
    def test_a_frame_is_written_as_the_documents_have_it(self) -> None:
        for text in (ACCEPTED, QUOTE, SHOWN, REJECT, OFFERED):
            data = soh(text)
            self.assertEqual(framed(fields_of(data)[2:-1]), data)
            self.assertIsNone(fault_of(data))
            self.assertEqual(barred(data), text)

    def test_each_changed_byte_is_a_fault(self) -> None:
        data = soh(ACCEPTED)
        for at in range(len(data)):
            for other in (data[at] ^ 1, data[at] ^ 128, 1, 0x7C):
                if other != data[at]:
                    changed = data[:at] + bytes([other]) + data[at + 1 :]
                    self.assertIsNotNone(fault_of(changed), at)

    def test_sums(self) -> None:
        for length in (0, 1, 255, 256, 257, 4096):
            for data in (b"\xff" * length, bytes(at * 7 % 256 for at in range(length))):
                self.assertEqual(sum_of(data), sum(data) % 256)

    def test_bytes_that_are_no_text(self) -> None:
        self.assertEqual(barred(b"8=\xff\x01\x00|"), "8=\\xff|\\x00|")
        self.assertEqual(fields_of(b"x\x01=\x018=1\x01"), [(0, b"x"), (0, b"="), (8, b"1")])

    def test_a_tag_has_up_to_nine_digits(self) -> None:
        long = b"1" * 5000 + b"=x"
        for part in (long, b"0131=x", b"1234567890=x", b"+8=x", b"1_0=x", "\u0661=x".encode()):
            self.assertEqual(fields_of(part), [(0, part)])
        self.assertEqual(fields_of(b"123456789=\xff=\x01"), [(123456789, b"\xff=")])
        self.assertEqual(fields_of(b"1=" + b"x" * 9999), [(1, b"x" * 9999)])
        for text, number in (("012", 12), ("", None), ("\u00b2", None), ("1" * 10, None)):
            self.assertEqual(number_in(text), number, text)


class Prices(unittest.TestCase):
    def test_thirty_seconds(self) -> None:
        for text, expected in (
            ("99.50390625", "99-161"),
            ("99.515625", "99-16+"),
            ("99.5", "99-16"),
            ("101", "101-00"),
            ("0.00390625", "0-001"),
            (".5", "0-16"),
            ("5.", "5-00"),
            ("99.501", ""),
            ("", ""),
            ("x", ""),
            ("-1", ""),
            (".", ""),
            ("-", ""),
            ("-.", ""),
            ("1.2.3", ""),
            ("1e2", ""),
            ("1e9999", ""),
            ("1e999999999", ""),
            ("1_0", ""),
            ("+1", ""),
            ("\u0663", ""),
            ("NaN", ""),
            ("Infinity", ""),
            ("99.5\n", ""),
            ("0" * 16, ""),
        ):
            self.assertEqual(Price(text).thirty_seconds, expected, text)

    def test_moved(self) -> None:
        self.assertEqual(Price("99.5").moved(1), "99.53125")
        self.assertEqual(Price("99.53125").moved(-1), "99.5")
        self.assertEqual(Price("100").moved(-32), "99")

    def test_a_moved_quote_is_a_frame_with_another_price_alone(self) -> None:
        changed = moved_fields(fields_of(soh(QUOTE)), 32, {})
        assert changed is not None
        fields, before, after = changed
        self.assertEqual((before.text, after.text), ("99.50390625", "100.50390625"))
        self.assertIsNone(fault_of(framed(fields)))
        same = [pair for pair in fields_of(soh(QUOTE))[2:-1] if pair[0] != 133]
        self.assertEqual([pair for pair in fields if pair[0] != 133], same)
        self.assertIsNone(moved_fields(fields_of(soh(ACCEPTED)), 32, {}))

    def test_a_price_is_moved_up_to_an_end_of_its_bonds_band(self) -> None:
        band = Band(Price("99"), Price("0100.50"))
        for by, expected in (
            (1, "99.53515625"),
            (31, "100.47265625"),
            (32, "100.5"),
            (64, "100.5"),
        ):
            self.assertEqual(band.moved(Price("99.50390625"), by), Price(expected))
        self.assertEqual(band.moved(Price("99.50390625"), -32), Price("99"))
        for outside in ("98.99609375", "100.50390625", "-99.5", "x"):
            self.assertIsNone(band.moved(Price(outside), 1), outside)
        fields, wide = fields_of(soh(QUOTE)), Band(Price("90"), Price("110"))
        for ends, expected in ((band, "100.5"), (wide, "101.50390625")):
            moved = moved_fields(fields, 64, {text_of(fields, 48): Bond("B", band=ends)})
            self.assertEqual(moved and moved[2].text, expected)
        narrow = Band(Price("99.50390625"), Price("99.50390625"))
        self.assertIsNone(moved_fields(fields, 64, {text_of(fields, 48): Bond("B", band=narrow)}))


class Bands(unittest.TestCase):
    @staticmethod
    def band_in(version: int, ends: str) -> Band | None:
        text = 'version = %d\ndate = "20250314"\n[[bond]]\nid = "BONDA0000001"\ngrid = 256\n%s'
        day = configured("1", "", (text % (version, ends)).encode())
        return bonds_of(day)["BONDA0000001"].band

    def test_a_band_is_one_of_version_3(self) -> None:
        ends = 'low = "95.5"\nhigh = "105"\n'
        self.assertEqual(self.band_in(3, ends), Band(Price("95.5"), Price("105")))
        for version in (1, 2):
            self.assertIsNone(self.band_in(version, ends))
            self.assertIsNone(self.band_in(version, "low = 5\n"))
        self.assertIsNone(self.band_in(3, ""))

    def test_a_band_that_no_venue_takes(self) -> None:
        for ends in ('low = "99"', "low = 99\nhigh = 100", 'low = "99"\nhigh = "x"'):
            with self.assertRaisesRegex(Wrong, "bond BONDA0000001 has a band"):
                self.band_in(3, ends)


class Quantities(unittest.TestCase):
    """A quantity is spelled with at most one point: `2000000.` and `2000000.0` are 2,000,000."""

    def test_texts(self) -> None:
        for text, expected in (
            ("2000000", "2\u202f000\u202f000"),
            ("2000000.", "2\u202f000\u202f000"),
            ("0002000000.0", "2\u202f000\u202f000"),
            ("7", "7"),
            (".5", ".5"),
            ("", ""),
            ("x", "x"),
            ("\u00b2", "\u00b2"),
            ("1e6", "1e6"),
        ):
            self.assertEqual(quantity_text(text), expected)
        self.assertEqual(date_text("20251109"), "9 November 2025")
        for text in ("2025110", "20251309", "\u00b2" * 8, "2025\u0661\u066109", ""):
            self.assertEqual(date_text(text), text)

    def test_what_counts_as_face_value(self) -> None:
        texts = {"2000000.0": 2_000_000, "7": 7, "5.": 5, "": 0, ".5": 0, "x": 0}
        self.assertEqual({text: quantity_in(text) for text in texts}, texts)


class Lines(unittest.TestCase):
    def test_lines_of_a_day(self) -> None:
        data = soh(QUOTE)
        for verb, text in ((b"hex", data.hex().encode()), (b"in", QUOTE.encode())):
            line = verb + b" DLR1 09:00:10.000 " + text
            came = came_of(line)
            assert came is not None
            self.assertEqual((came.firm, came.time, came.frame), ("DLR1", "09:00:10.000", data))
            self.assertEqual(firm_and_time(line), ("DLR1", "09:00:10.000"))
        said = came_of(b"say DLR1 T1 09:00:10 S 117=a1|131=R1|133=99.5")
        assert said is not None
        fields = [(35, b"S"), (50, b"T1"), (117, b"a1"), (131, b"R1"), (133, b"99.5")]
        self.assertEqual(said.fields, fields)
        self.assertEqual(firm_and_time(b"clock 09:05:00.000"), (None, "09:05:00.000"))
        others = (b"clock 09:05:00", b"", b"# x", b"hex DLR1 09:00:00 0", b"say")
        for line in (*others, b"piece DLR1 09:00:00 8="):
            self.assertIsNone(came_of(line), line)


class Holding(unittest.TestCase):
    def found(self, rows: list[bytes], lines: list[bytes]) -> list[tuple[str, int | None]]:
        sent = [Sent("DLR1", at, at + 10, data) for at, data in enumerate(rows, 1)]
        findings = held("DLR1", sent, lines)
        return [(one.text.partition(" ")[2].split(" ")[0], one.number) for one in findings]

    def test_the_first_difference(self) -> None:
        a, b = soh(ACCEPTED), soh(REJECT)
        one, two = b"DLR1 " + ACCEPTED.encode(), b"DLR1 " + REJECT.encode()
        self.assertEqual(self.found([a, b], [one, two]), [])
        self.assertEqual(self.found([a, b], [one]), [("log", 2)])
        self.assertEqual(self.found([a], [one, two]), [("log", 2)])
        self.assertEqual(self.found([b, a], [one, two]), [("log", 1)])
        self.assertEqual(self.found([ACCEPTED.encode()], [one]), [("log", 1)])  # bars are no SOH


class Names(unittest.TestCase):
    def test_what_names_a_log(self) -> None:
        for log, connection in (
            ("postgres:host=db1 dbname=x", "host=db1 dbname=x"),
            ("postgres:", ""),
            ("postgres://db1/x", "postgres://db1/x"),
            ("postgresql://db1/x", "postgresql://db1/x"),
        ):
            self.assertEqual(connection_of(log), connection)
            words = parser_of().parse_args(["check", log, "--schema", "day"])
            source = whole_source_of(words, Venue(()), Path())
            self.assertEqual((source.name, getattr(source, "connection")), ("day", connection))


class Lists(unittest.TestCase):
    """Lists of what was due, one behind the other."""

    def test_where_each_begins(self) -> None:
        """However the program's blocks are cut."""
        one = b"date 20250314\ndealer DLR1 4 10000000 T1\nown 09:00:10.000 date |\nlifted 1\n"
        two = b"date 20250314\ndealer DLR2 4 10000000 T2\n"
        days: list[list[bytes]] = [[], [one], [two, one], [two, two, one]]
        for texts in days:
            data = b"".join(texts)
            for size in range(1, len(data) + 2):
                blocks = [data[at : at + size] for at in range(0, len(data), size)]
                self.assertEqual([b"".join(pieces) for pieces in due_texts(blocks)], texts, size)

    def test_whose_each_is(self) -> None:
        day, date = configured("", "", CONFIGURATION), b"date 20250314\n"
        dealer = day.firms[0]
        self.assertTrue(is_head([date, b"dealer DLR1 4 10000000 T1\n"], day, dealer))
        others: list[list[bytes]] = [
            [date, b"dealer DLR11 4 10000000 T1\n"],
            [date, b"dealer DLR2 4 10000000 T1\n"],
            [date],
            [],
            [b"date 20250315\n", b"dealer DLR1 4 10000000 T1\n"],
            [date, b"lifted 1\n"],
            [b"date 20250314"],
        ]
        for head in others:
            self.assertFalse(is_head(head, day, dealer), head)


class Words(unittest.TestCase):
    def test_what_is_told(self) -> None:
        head = "8=FIXT.1.1|9=1|35=%s|49=VENUE|56=X|34=1|52=20250314-09:00:00.000|%s|10=000|"
        for kind, body, is_dealer, expected in (
            ("AI", "131=R1|117=a1|297=0", True, "accepted"),
            ("AI", "131=R1|117=a1|297=5|300=8", True, "refused: invalid price"),
            ("AI", "117=a1|297=17", True, "withdrawn"),
            ("AI", "117=a1|297=9", True, "no such quote"),
            ("AI", "131=R1|297=11", True, "accepted"),
            ("AI", "117=a1|297=5|300=4", True, "refused: too late to enter"),
            ("AI", "131=A|297=0", False, "accepted"),
            ("AI", "131=A|117=Q1|297=17", False, "Q1 is gone"),
            ("AI", "131=A|297=11|453=1|448=DLR3|447=D|452=35", False, "DLR3 declined"),
            ("AI", "693=h|131=A|117=Q1|297=0", False, "awarded"),
            (
                "AI",
                "693=h|131=A|117=Q1|297=5|300=4|58=Gone",
                False,
                "refused: quote replaced or gone",
            ),
            ("AI", "693=p|131=A|297=11", False, "passed"),
            ("AI", "693=h|117=Q9|297=9", False, "not found"),
            ("AI", "131=A|297=7", False, "expired"),
            ("AG", "131=A|658=1|146=1|55=[N/A]|48=X|22=4", False, "refused: unknown symbol"),
            ("AJ", "693=N1|131=R1|694=4", True, "cover"),
            ("AJ", "693=N1|131=R1|694=5", True, "done away"),
            ("AJ", "693=N1|131=R1|117=a1|694=1|133=99.5", True, "won"),
            ("AJ", "693=N1|131=R1|694=3", True, "expired"),
            ("AJ", "693=N1|131=R1|694=6", True, "passed"),
            ("3", "45=4|371=50|372=Z|373=1", True, "rejected: required tag missing"),
            ("3", "45=4|371=\u00b2|373=1", True, "rejected: required tag missing"),
        ):
            self.assertEqual(told(head % (kind, body), is_dealer), expected, body)

    def test_the_dictionary(self) -> None:
        dictionary = read_dictionary(ROOT / "fix" / "MIRESEASON.xml")
        named = dictionary.named(fields_of(soh(ACCEPTED)))
        last = [(one.name, one.meaning) for one in named][-2:]
        self.assertEqual(last, [("QuoteStatus", "accepted"), ("CheckSum", "")])
        self.assertEqual(dictionary.type_name("S"), "Quote")
        with folder() as name:
            path = Path(name) / "none.xml"
            self.assertRaises(Unreadable, read_dictionary, path)
            for text in ("<fix>", "<fix><fields><field number='x'/></fields></fix>"):
                path.write_text(text)
                self.assertRaises(Unreadable, read_dictionary, path)

    def test_a_price_in_32nds_has_its_decimal_below(self) -> None:
        """Beside the quote's name, which stands there alone where the price is a decimal already."""
        for price, in_32nds, shown, below in (
            ("99.515625", True, "99-16+", "99.515625 · a1"),
            ("99.515625", False, "99.515625", "a1"),
            ("99.51", True, "99.51", "a1"),
        ):
            words = reading.Words(reading.Shape.QUOTE, "quotes", Price(price), "a1")
            expected = [("said", "quotes " + shown), ("decimal", below)]
            self.assertEqual(words_lines(words, "said", 40, in_32nds), expected)

    def test_texts_of_the_drawing(self) -> None:
        self.assertEqual(broken("a bb ccc dddd", 6), ["a bb", "ccc", "dddd"])
        texts = [gap_text(gap) for gap in (0.04, 59.9, 61, 3600)]
        self.assertEqual(texts, ["+0.040 s", "+59.900 s", "+1 min 01 s", "+60 min 00 s"])
        self.assertEqual([seconds(text) for text in ("09:00:01", "00:01:00.500")], [32401, 60.5])
        for text in ("", "00:00:inf", "00:00:nan", "09:00", "x:00:00", "9:0:0", "09:00:00\n"):
            self.assertEqual(seconds(text), 0, text)


class Pairs(unittest.TestCase):
    def held(self, first: str, second: str) -> Differences:
        head = "date 20250314\ndealer DLR1 4 10000000 T1\n"
        with folder() as name:
            paths = Path(name) / "first", Path(name) / "second"
            for path, text in zip(paths, (first, second)):
                path.write_text(head + text)
            return differences(*paths)

    def test_lists(self) -> None:
        shown = "shown INV1 BONDA0000001 1 2000000 09:05:00.000 09:00:00.000\n"
        own = "own 09:00:10.000 8=FIXT.1.1|\n"
        cover, away = "closed 1 4 09:01:00.000\n", "closed 1 5 09:01:00.000\n"
        same = self.held(shown + own + cover, shown + own + cover)
        self.assertTrue(same.only_cover and not difference_words(same))
        other = self.held(shown + own + cover, shown + own + away)
        self.assertEqual(other.notices, Counter({("cover", "done away"): 1}))
        self.assertTrue(other.only_cover and other.are_declared)
        ended = self.held(shown + own + cover, shown + own + "closed 1 3 09:05:00.000\n")
        self.assertTrue(ended.are_declared and not ended.only_cover)
        later = self.held(shown + own + away, shown + own + "closed 1 5 09:01:00.001\n")
        self.assertEqual((later.moved_notices, later.only_cover), (1, False))
        lifted = self.held(shown + own + "lifted 1\n", shown + own)
        self.assertEqual((lifted.lifted, lifted.only_cover), ((1, 0), False))
        lost = self.held(shown + own, shown)
        self.assertFalse(lost.are_declared)
        self.assertIn("MUST NOT", difference_words(lost)[0])

    def test_what_compare_may_print(self) -> None:
        for lines in (
            ("row equal", "due equal", "messages equal"),
            ("row differs", "due differs at 3", "messages differ at 12"),
        ):
            self.assertEqual(compared_by(lines).lines, lines)
        for wrong in (
            (),
            ("row equal", "due equal"),
            ("x", "y", "z"),
            ("row equal", "due equal", ""),
            ("due equal", "row equal", "messages equal"),
            ("row equal", "due differs at ", "messages equal"),
            ("row equal", "due equal", "messages differs at 2"),
            ("row equal", "due equal", "messages equal", "more"),
        ):
            self.assertRaises(Unreadable, compared_by, wrong)

    def test_what_is_said_of_it(self) -> None:
        own, other = "own 09:00:10.000 8=FIXT.1.1|\n", "own 09:00:11.000 8=FIXT.1.1|\n"
        same, turned = self.held(own + other, own + other), self.held(own + other, other + own)
        notice = self.held("closed 1 4 09:01:00.000\n", "closed 1 5 09:01:00.000\n")
        for lines, found, is_good in (
            (("row equal", "due equal", "messages equal"), same, True),
            (("row equal", "due differs at 1", "messages differ at 2"), notice, True),
            (("row equal", "due equal", "messages differ at 2"), same, False),
            (("row differs", "due equal", "messages equal"), same, False),
            (("row equal", "due differs at 1", "messages equal"), turned, False),
            (("row equal", "due equal", "messages equal"), notice, False),
        ):
            told = pair_command.Told()
            pair_command.say_compared(Compared(lines), found, told)
            self.assertEqual(told.is_good, is_good, told.lines)

    def test_the_headline(self) -> None:
        self.assertTrue(Compared(("row equal", "due equal", "messages equal")).holds)
        self.assertTrue(Compared(("row equal", "due differs at 3", "messages differ at 2")).holds)
        self.assertFalse(Compared(("row equal", "due equal", "messages differ at 2")).holds)
        self.assertTrue(Compared(("row differs", "due equal", "messages differ at 2")).holds)


class Processes(unittest.TestCase):
    def test_there_are_no_more_than_jobs(self) -> None:
        jobs = work.plan_of([partial(int, "3"), partial(int, "4")])
        with mock.patch.object(work, "pool_of", wraps=work.pool_of) as pool:
            self.assertEqual(work.run_jobs(jobs, 20, Progress()), [3, 4])
        pool.assert_called_once_with(2)


if __name__ == "__main__":
    unittest.main()
