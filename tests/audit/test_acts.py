"""Acts on requests, by the messages that name these; and what of them stays in memory."""

import pickle
import unittest
from contextlib import closing
from pathlib import Path

from mireseason_audit.book import Book
from mireseason_audit.dictionary import read_dictionary
from mireseason_audit.exchanges import Exchange, Told
from mireseason_audit.frame import fields_of
from mireseason_audit.lines import came_of, firm_and_time
from mireseason_audit.messages import MessageWriter, Shown
from mireseason_audit.reading import Reader
from mireseason_audit.records import Entry, configured
from mireseason_audit.requests import Requests, dealers_of
from mireseason_audit.summary import Summarizer

from tests.audit.common import ROOT, folder
from tests.audit.samples import CONFIGURATION, soh


class Acts(unittest.TestCase):
    def test_who_acts(self) -> None:
        """A message that comes in pieces is its firm's, and a sweep the clock's."""
        day = configured("", "", CONFIGURATION)
        reader = Reader(read_dictionary(ROOT / "fix" / "MIRESEASON.xml"))
        asks = soh("35=R|49=INV1|56=VENUE|34=1|50=T1|131=A|48=BONDA0000001|54=1|38=7|448=DLR1|")
        line = b"in INV1 09:00:00.000 " + asks
        for text, actor, words in (
            (line, "INV1", "asks"),
            (b"piece INV1 09:00:00.000 10=000|", "INV1", "sends a piece"),
            (b"clock 09:00:00.000", None, "deadline"),
        ):
            requests = Requests(reader)
            told = soh("35=AI|49=VENUE|56=INV1|34=1|52=20250314-09:00:00.000|131=A|297=0|")
            answer = Told(day.firms[1], 1, "AI", fields_of(told), told)
            list(requests.take(self.exchange(1, line, answer)))
            ((_, act),) = requests.take(self.exchange(2, text, answer))
            self.assertEqual((act.actor, act.said.text), (actor, words))

    def test_whom_a_request_names(self) -> None:
        """447=D and 452=35 name a dealer, in any order; entries of other roles name none."""
        for text, dealers in (
            ("453=1|448=DLR1|447=D|452=35|", ["DLR1"]),
            (
                "453=3|448=DLR2|452=35|447=D|448=BANK|447=D|452=4|448=DLR1|447=D|452=35|",
                ["DLR2", "DLR1"],
            ),
            ("453=2|448=DLR1|447=B|452=35|448=DLR2|447=D|452=035|", []),
            ("453=0|", []),
        ):
            self.assertEqual(dealers_of(fields_of(soh(text))), dealers, text)

    def test_a_request_that_came_in_pieces(self) -> None:
        """It is opened by no line, and what is told of it is no matter of the request before it."""
        day = configured("", "", CONFIGURATION)
        requests = Requests(Reader(read_dictionary(ROOT / "fix" / "MIRESEASON.xml")))
        accepted = "35=AI|56=INV1|131=%s|297=0|"
        shown = "35=R|56=DLR1|131=%s|126=20250314-09:05:00|"
        for place, verb, name, own in ((1, b"in", "A", "R1"), (2, b"piece", "B", "R2")):
            line = verb + b" INV1 09:00:00.000 35=R|131=%b|448=DLR1|" % name.encode()
            texts = soh(accepted % name), soh(shown % own)
            told = [
                Told(firm, place, kind, fields_of(text), text)
                for firm, kind, text in zip(reversed(day.firms), ("AI", "R"), texts)
            ]
            list(requests.take(self.exchange(place, line, *told)))
        self.assertEqual([one.shown for one in requests.all], [{"DLR1": "R1"}])
        cancel = soh("35=AI|56=DLR1|131=R2|117=x|297=0|")
        answer = Told(day.firms[0], 3, "AI", fields_of(cancel), cancel)
        line = b"in DLR1 09:00:00.000 35=S|131=R2|117=x|"
        self.assertEqual(list(requests.take(self.exchange(3, line, answer))), [])

    def exchange(self, place: int, line: bytes, *told: Told) -> Exchange:
        firm, _ = firm_and_time(line)
        row = Entry(place, 0, "09:00:00.000", firm, None, line, b"", b"")
        return Exchange(row, came_of(line), told)


class Memory(unittest.TestCase):
    """What firms send does not stay in memory, whatever they send."""

    def test_types_that_nobody_has(self) -> None:
        day = configured("", "", CONFIGURATION)
        reader = Reader(read_dictionary(ROOT / "fix" / "MIRESEASON.xml"))
        with folder() as name, closing(Book(Path(name) / "book", write=True)) as book:
            summarizer = Summarizer(day, reader, book)
            size = 0
            for number in range(400):
                line = b"in INV1 09:00:00.000 35=%d%b|" % (number, b"x" * 4000)
                row = Entry(number + 1, 0, "09:00:00.000", "INV1", 1, line, b"", b"")
                summarizer.take(Exchange(row, came_of(line), ()))
                size = size or len(pickle.dumps(summarizer.summary))
            self.assertEqual(summarizer.summary.firms["INV1"].came, 400)
            self.assertLess(len(pickle.dumps(summarizer.summary)), 2 * size)

    def test_fields_that_are_long(self) -> None:
        writer = MessageWriter(read_dictionary(ROOT / "fix" / "MIRESEASON.xml"))
        for number in range(400):
            fields = fields_of(b"117=%d%b\x01" % (number, b"x" * 4000))
            writer.html(Shown("e1", True, "09:00:00.000", 1, "1", "", fields))
        self.assertLess(len(pickle.dumps(writer)), 100_000)


if __name__ == "__main__":
    unittest.main()
