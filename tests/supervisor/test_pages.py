"""What the pages have for a supervisor: lists of requests, the firms' first pages, and prices."""

import json
import re
from collections.abc import Iterator
from html import unescape
from pathlib import Path

import pytest

from tests.audit.draw_day import BONDS, name_of
from tests.audit.pages import Element, read_page, rows_of, table_behind
from tests.audit.witness import thirty_seconds
from tests.harness.browser import Browser
from tests.supervisor.conftest import STORED, Audit, draw
from tests.supervisor.figures import Tally
from tests.supervisor.sheet import Sheet

DEALERS = ("ALPHA", "BRAVO", "CEDAR", "DELTA", "EIGER")
INVESTORS = ("FJORD", "GROVE")
CHOICES = """<!doctype html><meta charset="utf-8"><pre id="found"></pre>
<iframe id="page" src="index.html" style="width:1280px;height:900px"></iframe>
<script>
const frame = document.getElementById("page"), choices = %s, found = [];
frame.onload = () => {
  const page = frame.contentDocument;
  found.push([page.querySelector("form.filter").hidden, "", []]);
  for (const chosen of choices) {
    for (const select of page.querySelectorAll("form.filter select"))
      select.value = chosen[select.name] || "";
    page.querySelector("form.filter").dispatchEvent(new Event("change"));
    const rows = [...page.querySelectorAll("table.requests tbody tr")].filter(row => !row.hidden);
    found.push([false, page.querySelector("form.filter output").textContent,
      rows.map(row => row.cells[0].textContent)]);
  }
  document.getElementById("found").textContent = JSON.stringify(found);
};
</script>"""


@pytest.fixture(scope="module")
def pages(run: Audit, tmp_path_factory: pytest.TempPathFactory) -> Path:
    """The pages of the stored day."""
    place = tmp_path_factory.mktemp("pages") / "day"
    ran = run("page", STORED, place)
    assert ran.status == 0, ran.text
    return place


def numbers(page: Element) -> list[str]:
    """The numbers of the requests that a page lists."""
    return [row[0].text for row in rows_of(page.all("table", "requests")[0])]


def expected_lists(sheet: Sheet) -> dict[str, list[str]]:
    """Of each list the numbers of its requests."""
    found: dict[str, list[str]] = {}
    for one in sheet.requests:
        firms = [one.investor, *(asked.dealer for asked in one.asked)]
        names = ["firm-%s" % firm for firm in firms]
        names += ["bond-%s" % one.bond, "end-%s" % one.end, "hour-%s" % one.hour]
        for name in names:
            found.setdefault(name, []).append(str(one.number))
    return found


def test_the_lists_of_requests(pages: Path, sheet: Sheet) -> None:
    """By firm, bond, end and hour, each a page without a script, which the day's page names."""
    expected = expected_lists(sheet)
    listed = {path.stem: read_page(path) for path in (pages / "by").iterdir()}
    assert {name: numbers(page) for name, page in listed.items()} == expected
    assert not [name for name, page in listed.items() if page.all("script")]
    index = read_page(pages / "index.html")
    links = {link.attributes["href"] for link in index.all("nav", "lists")[0].all("a")}
    assert links == {"by/%s.html" % name for name in expected}


def test_the_script_hides_rows(pages: Path, sheet: Sheet, tmp_path: Path) -> None:
    if not Browser.is_installed():
        pytest.skip("there is no chromium")
    choices: list[dict[str, str]] = [
        {},
        {"firm": "DELTA"},
        {"bond": "US912810TM09", "end": "awarded"},
        {"hour": "09"},
        {"firm": "ALPHA", "end": "expired", "hour": "13"},
    ]
    (pages / "choices.html").write_text(CHOICES % json.dumps(choices))
    shown = Browser(tmp_path / "profile").show((pages / "choices.html").as_uri())
    (pages / "choices.html").unlink()
    found = re.search(r'<pre id="found">(.*?)</pre>', shown.dom, re.DOTALL)
    assert found and not shown.complaints, shown.told[-500:]
    (is_hidden, _, _), *results = json.loads(unescape(found[1]))
    assert not is_hidden
    lists = expected_lists(sheet)
    for chosen, (_, told, rows) in zip(choices, results):
        left = [str(one.number) for one in sheet.requests]
        for kind, key in chosen.items():
            left = [one for one in left if one in lists["%s-%s" % (kind, key)]]
        assert (rows, told) == (left, "%d of 40" % len(left))


def test_a_firm_begins_with_its_summary(pages: Path, sheet: Sheet) -> None:
    tally = Tally(sheet, "20261125")
    index = read_page(pages / "index.html")
    links = [row[0].all("a")[0].attributes["href"] for row in rows_of(table_behind(index, "Firms"))]
    assert links == ["firms/%s.html" % name for name in DEALERS + INVESTORS]
    for name in DEALERS:
        page = read_page(pages / "firms" / (name + ".html"))
        figures = tally.figures(("dealer", name))
        pairs = page.all("dl", "figures")[0].own("div")
        told = {pair.all("dt")[0].text: pair.all("dd")[0].text for pair in pairs}
        assert told["Requests that it was shown"] == str(figures["requests"])
        assert (told["Answered"], told["Won"], told["Quotes"]) == (
            str(figures["answered"]),
            str(figures["won"]),
            str(figures["quotes"]),
        )
        rows = rows_of(table_behind(page, "Requests that it was shown"))
        assert [row[0].text for row in rows] == expected_lists(sheet)["firm-" + name]
        trades = [row[10].text for row in rows if row[10].text]
        assert sorted(trades) == sorted(t.name for t in sheet.trades if t.dealer == name)
        assert name + "-1.html" in {link.attributes["href"] for link in page.all("a")}
    for name in INVESTORS:
        page = read_page(pages / "firms" / (name + ".html"))
        assert numbers(page) == expected_lists(sheet)["firm-" + name]
        assert not page.all("article")


def test_pages_say_that_times_are_utc(pages: Path) -> None:
    for path in pages.rglob("*.html"):
        page = read_page(path)
        assert "times in UTC" in page.all("header")[0].text
        for cell in page.all("td", "time"):
            assert cell.attributes["data-label"].endswith("(UTC)"), path
    assert "UTC" in read_page(pages / "requests" / "0001.html").all("svg", "timeline")[0].text


def test_a_request_names_its_trade_and_a_lapsed_cover(pages: Path, sheet: Sheet) -> None:
    by_request = {one.request.number: one for one in sheet.trades}
    for number in range(1, 41):
        page = read_page(pages / "requests" / ("%04d.html" % number))
        outcome = page.all("p", "outcome")[0].text
        trade = by_request.get(number)
        if trade is None:
            assert "cover" not in outcome
            continue
        assert trade.name in page.all("dl", "record")[0].text
        assert ("could not be hit any more" in outcome) == trade.cover_lapsed
        assert ("cover was %s" % trade.cover in outcome) == bool(trade.cover)


MESSAGES = ("code", "pre", "article")  # what a firm or the venue said, as it was


def unnamed_in(element: Element) -> Iterator[str]:
    """Each text with a bond's identifier and not its name beside it. A plot's rows have no room."""
    own = "".join(child for child in element.children if isinstance(child, str))
    for bond in BONDS:
        if bond in own and bond + " " + name_of(bond) not in element.text:
            yield element.text
    for child in element.children:
        if isinstance(child, Element) and child.name not in (*MESSAGES, "svg", "script"):
            yield from unnamed_in(child)


@pytest.mark.parametrize("more", [("--named",), ("--in-32nds",)])
def test_32nds_are_shown_of_bonds_that_are_quoted_so(
    run: Audit, venue: tuple[str, ...], seed: int, tmp_path: Path, more: tuple[str, ...]
) -> None:
    """And the names of those that have one, on each page beside the identifier."""
    log = draw(tmp_path / "day.db", 12, seed, venue, *more)
    assert run("page", log, tmp_path / "pages").status == 0
    if more == ("--named",):
        for path in (tmp_path / "pages").rglob("*.html"):
            assert not list(unnamed_in(read_page(path))), path
        more = ()
    shown = [
        one
        for path in (tmp_path / "pages" / "requests").iterdir()
        for one in read_page(path).all("span", "price")
    ]
    assert shown
    for one in shown:
        text = one.text.split()[-1]
        pair = [thirty_seconds(text), text] if more else [text]
        assert one.text.split() == [word for word in pair if word]
    drawn = [
        text.text
        for path in (tmp_path / "pages" / "requests").iterdir()
        for text in read_page(path).all("text", "said")
        if "quotes" in text.text
    ]
    assert drawn
    for words in drawn:
        on_grid = thirty_seconds(words.split()[-1]) if "." in words else ""
        assert ("-" in words) == bool(more) or not on_grid, words
