"""The pages of the stored day: byte for byte as they are stored, and each figure from a message."""

import io
import os
import re
import subprocess
import tarfile
import unittest
from collections import Counter
from pathlib import Path

from tests.audit.common import DAY, STORED, Folder, Ran, audit, folder
from tests.audit.pages import Element, read_page, rows_of, table_behind, walk
from tests.audit.witness import Asked, Came, Witness

PAGES = STORED / "pages.tar.xz"
LAPSED_COVERS = {1: "08:04:17.936", 13: "10:36:22.921"}  # of two requests, the 62 of the cover
ACTS = "Who said what, and who was told what"


class Pages(unittest.TestCase):
    """The stored day, paged once."""

    kept: Folder
    place: Path
    ran: Ran
    witness: Witness
    index: Element

    @classmethod
    def setUpClass(cls) -> None:
        cls.kept = folder()
        cls.place = Path(cls.kept.name) / "pages"
        ran = audit("page", DAY, cls.place)
        assert ran.status == 0, ran.text
        cls.ran = ran
        cls.witness = Witness(DAY)
        cls.index = read_page(cls.place / "index.html")

    @classmethod
    def tearDownClass(cls) -> None:
        cls.kept.cleanup()

    # ------------------------------------------------------------ bytes

    def test_each_file_is_as_it_is_stored(self) -> None:
        if os.environ.get("WRITE_PAGES"):
            write_stored(self.place)
        found = {
            str(path.relative_to(self.place)): path
            for path in self.place.rglob("*")
            if path.is_file()
        }
        with tarfile.open(PAGES) as stored:
            names = {member.name for member in stored.getmembers()}
            self.assertEqual(names, set(found))
            for name, path in sorted(found.items()):
                file = stored.extractfile(name)
                assert file is not None
                self.assertEqual(file.read().splitlines(), path.read_bytes().splitlines(), name)

    def test_sums(self) -> None:
        words = ["sha256sum", "-c", "--quiet", "SHA256SUMS"]
        done = subprocess.run(words, cwd=self.place, capture_output=True, check=False)
        self.assertEqual(done.returncode, 0, done.stderr)

    def test_one_script_and_no_host(self) -> None:
        """The one script is that of the day's page, a file that only hides rows."""
        for path in self.place.rglob("*.html"):
            for element in walk(read_page(path)):
                if element.name == "script":
                    self.assertEqual((element.attributes, element.raw), ({"src": "filter.js"}, ""))
                    self.assertEqual(path.name, "index.html")
                acting = [name for name in element.attributes if name.startswith("on")]
                self.assertFalse(acting, path)
                for name in ("href", "src"):
                    value = element.attributes.get(name, "")
                    self.assertNotRegex(value, r"^[a-z]+:|^//", path)
        self.assertNotRegex((self.place / "style.css").read_text(), r"url\(|@import")
        script = (self.place / "filter.js").read_text()
        self.assertNotRegex(script, r"innerHTML|fetch|eval|import|http|write|cookie|storage")
        self.assertLess(len(script.splitlines()), 20)

    def test_each_link_leads_somewhere(self) -> None:
        anchors: dict[Path, set[str]] = {}
        for path in self.place.rglob("*.html"):
            elements = [one.attributes for one in walk(read_page(path))]
            anchors[path] = {one["id"] for one in elements if "id" in one}
        for path in anchors:
            for link in read_page(path).all("a"):
                name, _, anchor = link.attributes["href"].partition("#")
                target = (path.parent / name).resolve() if name else path
                self.assertTrue(target.is_file(), "%s -> %s" % (path, name))
                if anchor:
                    self.assertIn(anchor, anchors[target], "%s -> %s" % (path, name))

    # ------------------------------------------------------------ the day

    def figures(self) -> dict[str, str]:
        pairs = self.index.all("dl", "figures")[0].own("div")
        return {pair.all("dt")[0].text: pair.all("dd")[0].text for pair in pairs}

    def test_the_figures_of_the_day(self) -> None:
        witness, requests = self.witness, self.witness.requests
        ends = Counter(asked.end for asked in requests)
        self.assertEqual(len(requests), 40)
        self.assertEqual(
            self.figures(),
            {
                "Requests": "40",
                "Awarded": str(ends["awarded"]),
                "Passed": str(ends["passed"]),
                "Expired": str(ends["expired"]),
                "Quotes accepted": str(sum(len(asked.quotes) for asked in requests)),
                "Messages that came": str(len(witness.came)),
                "Messages sent": str(len(witness.sent)),
                "Refused": str(sum(witness.refused().values())),
            },
        )

    def test_face_value_is_not_added_across_bonds(self) -> None:
        """The bonds of the day have no currency."""
        traded: Counter[str] = Counter()
        for asked in self.witness.requests:
            if asked.end == "awarded":
                traded["Traded, " + asked.message["48"]] += int(asked.message["38"])
        pairs = self.index.all("dl", "amounts")[0].own("div")
        listed = {pair.all("dt")[0].text: pair.all("dd")[0].text for pair in pairs}
        expected = {name: format(one, ",").replace(",", " ") for name, one in traded.items()}
        self.assertEqual(listed, expected)

    def test_the_requests_of_the_day(self) -> None:
        rows = rows_of(table_behind(self.index, "Requests"))
        self.assertEqual(len(rows), len(self.witness.requests))
        for number, (row, asked) in enumerate(zip(rows, self.witness.requests), 1):
            told = asked.notices.get(asked.dealer_told("1"), {})
            price = told.get("133") or told.get("132") or ""
            side = {"1": "buys", "2": "sells"}[asked.message["54"]]
            quantity = format(int(asked.message["38"]), ",").replace(",", " ")
            self.assertEqual(
                [" ".join(cell.text.split()) for cell in row][:9],
                [
                    str(number),
                    asked.moment,
                    asked.investor,
                    asked.message["131"],
                    side,
                    quantity,
                    asked.message["48"],
                    str(len(asked.dealers)),
                    str(len(asked.quotes)),
                ],
            )
            self.assertTrue(row[9].text.endswith(asked.end))
            cover = asked.dealer_told("4")
            if number in LAPSED_COVERS:
                cover += " ◔ past its 62"
            self.assertEqual(
                [cell.text for cell in row[10:]],
                [
                    asked.dealer_told("1"),
                    price,
                    cover,
                ],
            )

    def test_the_firms_of_the_day(self) -> None:
        witness = self.witness
        came = Counter(one.firm for one in witness.came)
        sent = Counter(row.firm for row in witness.sent)
        refused = witness.refused()
        names = witness.dealers + witness.investors
        rows = rows_of(table_behind(self.index, "Firms"))
        self.assertEqual(len(rows), len(names))
        for row, name in zip(rows, names):
            role = "dealer" if name in witness.dealers else "investor"
            counts = [str(came[name]), str(refused[name]), str(sent[name])]
            self.assertEqual([cell.text for cell in row][:5], [name, role, *counts])

    def test_what_was_refused(self) -> None:
        page = read_page(self.place / "refused-1.html")
        rows = rows_of(table_behind(page, "Refused"))
        expected = [came for came in self.witness.came if self.witness.is_refused(came)]
        listed = [(row[0].text, row[1].text, row[5].text) for row in rows]
        self.assertEqual(listed, [(one.moment, one.firm, str(one.place)) for one in expected])
        for row, came in zip(rows, expected):
            price = came.message.get("133") or came.message.get("132")
            if price:
                self.assertIn(price, row[2].text)

    # ------------------------------------------------------------ requests

    def request_pages(self) -> list[tuple[Asked, Element]]:
        return [
            (asked, read_page(self.place / "requests" / ("%04d.html" % number)))
            for number, asked in enumerate(self.witness.requests, 1)
        ]

    def test_who_said_and_was_told_what(self) -> None:
        """Each line of a request's page is an entry, and each thing told the message that its
        link names.
        """
        sent = {(row.firm, row.number): row for row in self.witness.sent}
        came = {one.place: one for one in self.witness.came}
        listed: Counter[tuple[str, int]] = Counter()
        for asked, page in self.request_pages():
            for time, entry, who, said, told in rows_of(table_behind(page, ACTS)):
                place = int(entry.text)
                self.assertEqual(time.text, self.witness.moments[place])
                if place in came:
                    self.assertEqual(who.text, came[place].firm)
                    self.check_price(said, came[place].message)
                else:
                    self.assertEqual((who.text, said.text), ("the clock", "◷ deadline"))
                for item in told.all("li"):
                    link = item.all("a")[0]
                    firm, number = link.text, int(link.attributes["href"].partition("#s")[2])
                    self.assertEqual(sent[firm, number].place, place)
                    self.assertIn(firm, [asked.investor, *asked.dealers])
                    self.check_price(item, sent[firm, number].message)
                    listed[firm, number] += 1
        self.assertEqual(set(listed.values()), {1})
        for row in (row for key, row in sent.items() if key not in listed):
            answer = row.message["35"] in ("3", "AG") or row.message.get("297") == "9"
            self.assertTrue(answer, "no page has number %d to %s" % (row.number, row.firm))

    def check_price(self, cell: Element, message: dict[str, str]) -> None:
        """The price in a cell is that of the message, in 32nds and as a decimal."""
        prices = cell.all("span", "price")
        price = message.get("133") or message.get("132")
        self.assertEqual([one.text for one in prices], [price] if price else [])

    def test_the_lives_of_quotes(self) -> None:
        for asked, page in self.request_pages():
            listed: dict[str, list[list[str]]] = {}
            dealer = ""
            for row in rows_of(table_behind(page, "Quotes")):
                cells = [cell.text for cell in row]
                if row[0].name == "th":
                    dealer, cells = cells[0], cells[2:]
                if len(cells) >= 6:
                    listed.setdefault(dealer, []).append(cells)
            quotes: dict[str, list[Came]] = {}
            for came in asked.quotes:
                quotes.setdefault(came.firm, []).append(came)
            self.assertEqual(set(listed), set(quotes))
            for dealer, lines in listed.items():
                self.assertEqual(len(lines), len(quotes[dealer]))
                for line, came in zip(lines, quotes[dealer]):
                    self.check_life(asked, line, came, quotes[dealer])

    def check_life(self, asked: Asked, line: list[str], came: Came, quotes: list[Came]) -> None:
        """A line of the table of quotes against the messages."""
        name = came.message["117"]
        given = [row.message for row in self.witness.at[came.place]]
        shown = [message["117"] for message in given if message["35"] == "S"]
        price = came.message.get("133") or came.message["132"]
        self.assertEqual(line[:4], [name, shown[0], price, came.moment])
        withdrawn = [
            row
            for row in self.witness.sent
            if (row.firm, row.message.get("117")) == (came.firm, name)
            and row.message.get("297") == "17"
        ]
        behind = [one for one in quotes if one.place > came.place]
        kinds = {"1": "won", "3": "expired", "4": "cover", "5": "done away", "6": "passed"}
        if withdrawn:
            end, fate = self.witness.moments[withdrawn[0].place], "withdrawn"
        elif behind:
            end, fate = behind[0].moment, "replaced"
        else:
            notice = asked.notices[came.firm]
            end, fate = notice["52"].partition("-")[2], kinds[notice["694"]]
        until = came.message.get("62", "").partition("-")[2]
        if until and until <= end:
            expected = ["◔", "past", "its", "62,", "then", *fate.split(), end]
            self.assertEqual(line[4], until)
            self.assertEqual(
                [word for word in line[5].split() if word.isascii() or word == "◔"], expected
            )
        else:
            self.assertEqual((line[4], line[5].partition(" ")[2]), (end, fate))

    def test_the_lines_of_time(self) -> None:
        """The drawing has each quote as a bar, and no time and no price that is not in a message
        of the request.
        """
        for asked, page in self.request_pages():
            drawing, narrow = page.all("svg", "timeline")
            lapsed = [
                row for row in rows_of(table_behind(page, "Quotes")) if "past" in row[-2].text
            ]
            for one in (drawing, narrow):
                self.assertEqual(len(one.all("rect", "bar")), len(asked.quotes))
                self.assertEqual(len(one.all("path", "lapse")), len(lapsed))
            acts = rows_of(table_behind(page, ACTS))
            times = [one.text for one in drawing.all("text", "time")]
            self.assertEqual(times, [row[0].text for row in acts])
            table = " ".join(row[3].text + " " + row[4].text for row in acts)
            for text in drawing.all("text", "said") + drawing.all("text", "told"):
                for price in re.findall(r"\b[0-9]+-[0-9]{2}[0-9+]?", text.text):
                    self.assertIn(price, table)
            for text in drawing.all("text", "decimal"):
                for price in re.findall(r"^[0-9]+\.[0-9]+\b", text.text):
                    self.assertIn(price, table)

    # ------------------------------------------------------------ firms

    def test_all_messages_of_a_firm(self) -> None:
        """A firm's page has each of its messages, as text and field by field."""
        for name in self.witness.dealers + self.witness.investors:
            page = read_page(self.place / "firms" / (name + "-1.html"))
            shown = {one.attributes["id"]: one for one in page.all("article")}
            came = [one for one in self.witness.came if one.firm == name]
            sent = [row for row in self.witness.sent if row.firm == name]
            expected = {"e%d" % one.place: one.message for one in came}
            expected |= {"s%d" % row.number: row.message for row in sent}
            self.assertEqual(set(shown), set(expected))
            for anchor, message in expected.items():
                text = shown[anchor].all("code")[0].text
                fields = [part.partition("=") for part in text.rstrip("|").split("|")]
                pairs = [(tag, value) for tag, _, value in fields]
                items = shown[anchor].all("li")
                listed = [(one.all("i")[0].text, one.all("b")[0].text) for one in items]
                self.assertEqual(listed, pairs)
                self.assertTrue(set(message.items()) <= set(pairs))
                self.assertFalse([one.text for one in items if "not in the dictionary" in one.text])


def write_stored(place: Path) -> None:
    """Stores the pages: for whoever has read them and found them good."""
    with tarfile.open(PAGES, "w:xz") as stored:
        for path in sorted(place.rglob("*")):
            if path.is_file():
                data = path.read_bytes()
                member = tarfile.TarInfo(str(path.relative_to(place)))
                member.size = len(data)
                stored.addfile(member, io.BytesIO(data))


if __name__ == "__main__":
    unittest.main()
