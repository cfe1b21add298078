"""Edges of the audit: each limit on both sides, each form of a word that a command takes, each line of a report."""

import argparse
import json
from collections.abc import Callable
from dataclasses import replace
from pathlib import Path
from types import SimpleNamespace
from typing import cast

import pytest
from mireseason_audit.arguments import (
    connection_of,
    date_of,
    digits_of,
    seconds,
    time_of_day,
    venue_name_of,
    venue_of,
)
from mireseason_audit.before import Before
from mireseason_audit.book import Fault
from mireseason_audit.came_on import CameOn, connections_of, with_connections
from mireseason_audit.chain import Chained
from mireseason_audit.door import Door
from mireseason_audit.faults import Unreadable
from mireseason_audit.findings import Finding
from mireseason_audit.folders import make_folder
from mireseason_audit.identity import Asked, Identity, Speaker, speakers_of
from mireseason_audit.log import Log
from mireseason_audit.log_form import FORMS, is_plain, short, strange_tables
from mireseason_audit.page_names import file_name, page_name
from mireseason_audit.pages import Pager, day_page, fault_link, pages_of
from mireseason_audit.records import Checkpoint, ConnectionEvent, Day, Entry, Firm, configured
from mireseason_audit.report import report, report_json
from mireseason_audit.request_lists import RequestList
from mireseason_audit.signatures import unsigned_checkpoint
from mireseason_audit.verdict import Verdict

DAY = configured(
    "rfq_venue 2.0",
    "ab" * 32,
    b'version = 3\ndate = "20261125"\n[[dealer]]\nname = "DLR1"\n[[investor]]\nname = "INV1"\n',
)

# ------------------------------------------------------------ words of a command

# What reads a word, the words that it takes with what it makes of them, and those that it refuses.
WORDS: dict[str, tuple[Callable[[str], object], dict[str, object], list[str]]] = {
    "date": (
        date_of,
        {"20261125": "20261125"},
        ["2026112", "202611250", "2026-11-25", "", "2026112x"],
    ),
    "venue": (
        venue_name_of,
        {name: name for name in ("-", "a", "A_1-x", "_", "x" * 40)},
        ["", "--", "-a", "x" * 41, "a b", "a.b", "ä"],
    ),
    "digest": (
        digits_of,
        {"ab" * 32: "ab" * 32, "AB" * 32: "ab" * 32},
        ["a" * 63, "a" * 65, "g" * 64, ""],
    ),
    "time": (
        time_of_day,
        {"09:00:00": "09:00:00.000", "23:59:59.999": "23:59:59.999"},
        ["9:00:00", "09:00", "09:60:00", "09:00:60", "30:00:00", "09:00:00.1", "09:00:00.", ""],
    ),
    "seconds": (
        seconds,
        {"0.1": 0.1, "3600": 3600.0, "5": 5.0},
        ["0.09", "3600.1", "0", "-1", "nan", "inf", "x", ""],
    ),
}


@pytest.mark.parametrize("name", WORDS)
def test_which_words_are_taken(name: str) -> None:
    read, taken, refused = WORDS[name]
    for text, value in taken.items():
        assert read(text) == value, text
    for text in refused:
        with pytest.raises(argparse.ArgumentTypeError):
            read(text)


def test_words_of_the_venue() -> None:
    """As a shell reads them."""
    assert venue_of(argparse.Namespace(venue="sh 'a b' c")).words == ("sh", "a b", "c")
    with pytest.raises(Unreadable, match="^the venue's program 'x: No closing quotation"):
        venue_of(argparse.Namespace(venue="'x"))
    assert connection_of("postgres:host=x") == "host=x"


def test_a_folder_to_write_into(tmp_path: Path) -> None:
    """It is made, or is empty."""
    for _ in range(2):
        make_folder(tmp_path / "new" / "folder")
    (tmp_path / "new" / "folder" / "file").touch()
    with pytest.raises(Unreadable, match="folder is not empty: name another folder, or empty it"):
        make_folder(tmp_path / "new" / "folder")
    with pytest.raises(Unreadable, match="file can't be written to: "):
        make_folder(tmp_path / "new" / "folder" / "file")


# ------------------------------------------------------------ pages


def test_names_of_pages() -> None:
    """A thousand places of a firm on each, and 500 rows of a list."""
    assert [page_name("INV1", place) for place in (0, 999, 1000)] == [
        "firms/INV1-1.html",
        "firms/INV1-1.html",
        "firms/INV1-2.html",
    ]
    assert [file_name(key) for key in (0, 41, 9999)] == ["0001.html", "0042.html", "10000.html"]
    assert [pages_of(rows) for rows in (0, 1, 500, 501, 1000, 1001)] == [0, 1, 1, 2, 2, 3]
    assert [day_page(page) for page in (1, 2, 3)] == ["index.html", "day-2.html", "day-3.html"]
    fault = Fault(1007, "09:00:02.000", "INV1", "hits Q1", "refused: x", "", 2)
    assert fault_link(fault) == "firms/INV1-2.html#e1007"


def test_pages_of_a_list() -> None:
    """At least one, also of a firm that has no request."""
    for count, pages in ((0, 1), (1, 1), (500, 1), (501, 2), (1001, 3)):
        one = RequestList("firm", "INV1", "x", (None,) * count)  # type: ignore[arg-type]
        assert (one.count, one.pages) == (count, pages)
        assert (one.name(1), one.name(2)) == ("firm-INV1.html", "firm-INV1-2.html")


def test_a_page_of_a_build_before(tmp_path: Path) -> None:
    """It is the same file, where there is one."""
    old, new = tmp_path / "old", tmp_path / "new"
    for folder in (old, new):
        (folder / "requests").mkdir(parents=True)
    (old / "requests" / "0001.html").write_text("x")
    before = Before(old, 7)
    assert before.give(new / "requests" / "0001.html", new)
    assert (new / "requests" / "0001.html").samefile(old / "requests" / "0001.html")
    assert not before.give(new / "requests" / "0002.html", new)
    assert [path.name for path in (new / "requests").iterdir()] == ["0001.html"]


@pytest.mark.parametrize(
    "request_, is_there", [(-1, False), (0, True), (2, True), (3, False), (None, True)]
)
def test_a_request_that_the_day_does_not_have(request_: int | None, is_there: bool) -> None:
    pager = cast(Pager, SimpleNamespace(request=request_))
    summary = SimpleNamespace(requests=[1, 2, 3], entries=9)
    verdict = verdict_of(last_place=9)
    if is_there:
        assert Pager.obstacle(pager, verdict, summary) is None  # type: ignore[arg-type]
        return
    number = -1 if request_ is None else request_
    with pytest.raises(Unreadable, match="^the day has no request %d: it has 3$" % (number + 1)):
        Pager.obstacle(pager, verdict, summary)  # type: ignore[arg-type]


# ------------------------------------------------------------ tables of a log


def test_tables_that_a_log_does_not_have() -> None:
    """Each table and each column of another name; in PostgreSQL there is one that says who speaks."""
    own = {name: columns.split() for name, columns in FORMS[6].items()}
    assert list(strange_tables(6, own, False)) == []
    more = own | {"speaker": ["one", "term"], "seal": [*own["seal"], "x" * 61], "more": ["a"]}
    long = "column %s.. of seal" % ("x" * 60)
    assert list(strange_tables(6, more, False)) == ["table more", long, "table speaker"]
    assert list(strange_tables(6, more, True)) == ["table more", long]
    assert list(strange_tables(6, {"outgoing": ["firm"]}, False)) == ["table outgoing"]
    assert list(strange_tables(5, {"outgoing": ["firm", "told"]}, False)) == [
        "column told of outgoing"
    ]
    assert [short("x" * count) for count in (60, 61)] == ["x" * 60, "x" * 60 + ".."]


@pytest.mark.parametrize(
    "columns, expected",
    [
        ("a INTEGER", True),
        ("a INTEGER PRIMARY KEY, b TEXT NOT NULL, c BLOB", True),
        ("a, b BIGINT, c BYTEA, PRIMARY KEY (a, b)", True),
        ("a INTEGER -- how many\n", True),
        ("a INTEGER DEFAULT 1", False),
        ("a TEXT COLLATE NOCASE", False),
        ("a INTEGER, CHECK (a > 0)", False),
        ("a INTEGER UNIQUE", False),
        ("a INTEGER AS (1)", False),
        ("a REAL", False),
        ("a INTEGER, PRIMARY KEY (a) ON CONFLICT REPLACE", False),
    ],
)
def test_which_table_is_plain(columns: str, expected: bool) -> None:
    assert is_plain("CREATE TABLE t (%s)" % columns) == expected
    assert not is_plain("CREATE TABLE t (%s) STRICT" % columns)


def test_how_long_a_definition_may_be() -> None:
    head = "CREATE TABLE t (a INTEGER) --"
    for length, expected in ((1 << 14, True), ((1 << 14) + 1, False)):
        text = "CREATE TABLE t (a INTEGER --%s\n)" % (
            "x" * (length - len("CREATE TABLE t (a INTEGER --\n)"))
        )
        assert len(text) == length and is_plain(text) == expected
    assert is_plain(head)


# ------------------------------------------------------------ on which connection a message came


def logon(number: int) -> ConnectionEvent:
    return ConnectionEvent(
        number,
        0,
        "09:00:00.000001",
        "logon",
        0,
        number,
        "INV1",
        "192.0.2.1:7",
        "ab",
        "",
        0,
        b"",
        b"",
    )


def entry(place: int, firm: str | None, number: int | None, connection: int | None) -> Entry:
    received = "09:00:00.000500"
    return Entry(place, 0, "09:00:00.000", firm, number, b"", b"", b"", received, connection)


class Came:
    """A log of four entries."""

    entries = {
        1: entry(1, "INV1", 5, 3),
        2: entry(2, "INV1", 6, 4),
        3: entry(3, None, None, None),
        4: entry(4, "DLR1", 7, None),
        5: entry(5, "INV1", None, None),
    }

    def __init__(self, has_door: bool = True) -> None:
        self.has_door = has_door

    def logons(self, firm: str) -> dict[int, ConnectionEvent]:
        return {3: logon(3)} if firm == "INV1" else {}

    def entry_at(self, place: int) -> Entry | None:
        return self.entries.get(place)


ON = {
    1: "received 09:00:00.000500 on connection 3 from %s, since 09:00:00.000001" % logon(3).peer,
    2: "received 09:00:00.000500 on connection 4, on which it had no Logon",
    3: "",
    4: "received 09:00:00.000500 on no connection",
    5: "made by the gateway 09:00:00.000500",
    6: "",
    None: "",
    0: "",
}


def test_on_which_connection_a_message_came() -> None:
    """Of a finding about an entry that a firm has; of a log that does not say it, nothing."""
    findings = [Finding("INV1", "x", place) for place in ON]
    told = with_connections(cast(Log, Came()), findings)
    assert {one.place: one.came_on for one in told} == ON
    assert [replace(one, came_on="") for one in told] == findings
    assert with_connections(cast(Log, Came(False)), findings) == findings
    assert connections_of(cast(Log, Came(False)), DAY) == {}
    assert connections_of(cast(Log, Came()), DAY) == {
        "DLR1": CameOn({}),
        "INV1": CameOn({3: logon(3)}),
    }


# ------------------------------------------------------------ a report


def verdict_of(**more: object) -> Verdict:
    made = Verdict("day.db", DAY, Identity(DAY, {}), True, True, 9)
    made.chained = Chained(entries=10, last_place=9, last=b"\x01" * 32)
    made.program, made.messages = "rfq_venue 2.1", {"DLR1": 12, "INV1": 3}
    for name, value in more.items():
        setattr(made, name, value)
    return made


def test_lines_of_a_report() -> None:
    """Each says what was found, and none that all is well where something was not."""
    door = Door(4, connections=2, last=b"\x02" * 32)
    good = verdict_of(digest="cd" * 32)
    good.chained.door = door
    lines = report(good)
    assert lines[:8] == [
        "day       20261125, of the gateway's only venue",
        "program   rfq_venue 2.0, SHA-256 " + "ab" * 32,
        "          this repository names no proved program, so whether it is one is not known",
        "entries   10, each follows on the one before: " + "01" * 32,
        "door      2 connections in 4 rows, each follows on the one before: " + "02" * 32,
        "by        rfq_venue 2.1, the program that you check with, SHA-256 " + "cd" * 32,
        "DLR1      dealer       12 messages: as replayed, as its list alone gives them, as its session"
        " carried them",
        "INV1      investor      3 messages: as replayed, as its session carried them",
    ]
    assert lines[-1] == "verdict: " + good.words
    findings = [Finding("INV1", "x", 4), Finding("entries", "y", 3), Finding("door", "z")]
    wrong = report(verdict_of(findings=findings, chained=replace(good.chained, door=door)))
    assert "entries   10, NOT AS THEY SHOULD BE" in wrong
    assert "door      2 connections in 4 rows, NOT AS THEY SHOULD BE" in wrong
    assert "INV1      investor      3 messages: NOT AS THEY SHOULD BE" in wrong
    assert wrong[-4:-1] == ["entries: entry 3: y", "door: z", "INV1: entry 4: x"]
    own = report(verdict_of(digest="ab" * 32, program=""))
    assert "by        unknown, the program that you check with: it is the day's own" in own
    assert not [line for line in own if line.startswith("door ")]
    two_files = report(verdict_of(has_chain=False))
    assert "entries   10, without a chain" in two_files
    assert "by        rfq_venue 2.1, the program that you check with" in two_files
    assert "INV1      investor      3 messages: as replayed" in two_files


def test_a_report_for_a_program() -> None:
    finding = Finding("INV1", "x", 4, 7, b"a\x01", b"b\x01", differing="y", came_on="z")
    verdict = verdict_of(findings=[finding], digest="cd" * 32)
    verdict.identity.speakers = [Speaker(0, 2, "gw1", "2.0")]
    said = json.loads(report_json(verdict))
    looks = said.pop("looks")
    assert looks[0] == {
        "name": "entries",
        "kind": "checked",
        "is_done": True,
        "is_wrong": False,
        "words": verdict.looks[0].words,
    }
    assert len(looks) == len(verdict.looks)
    assert said == {
        "verdict": verdict.words,
        "is_good": False,
        "log": "day.db",
        "date": "20261125",
        "venue": None,
        "program": {
            "version": "rfq_venue 2.0",
            "sha256": "ab" * 32,
            "is_proved": False,
            "words": verdict.identity.program_words,
        },
        "checked_by": {"version": "rfq_venue 2.1", "sha256": "cd" * 32},
        "gateways": [{"place": 0, "term": 2, "name": "gw1", "version": "2.0"}],
        "entries": 10,
        "last": "01" * 32,
        "firms": [
            {"name": "DLR1", "kind": "dealer", "messages": 12, "is_good": True},
            {"name": "INV1", "kind": "investor", "messages": 3, "is_good": False},
        ],
        "findings": [
            {
                "where": "INV1",
                "text": "x",
                "entry": 4,
                "number": 7,
                "given": "a|",
                "found": "b|",
                "came_on": "z",
                "items": ["messages"],
                "differing": "y",
            }
        ],
    }
    bare = json.loads(report_json(verdict_of(has_chain=False, findings=[Finding("INV1", "x")])))
    assert (bare["last"], bare["checked_by"]["sha256"]) == (None, None)
    (row,) = bare["findings"]
    assert {name for name, value in row.items() if value is None} == {
        "entry",
        "number",
        "given",
        "found",
        "came_on",
        "differing",
    }


def test_a_checkpoint_that_no_key_signed() -> None:
    """It may be that which was changed, or any entry that the last good one does not cover."""
    text = "checkpoint 3 is signed by none of the keys: the log was changed here"
    one = Checkpoint(3, 0, 9, b"", 0, b"", b"")
    for whole, more in (
        (9, ""),
        (8, ""),
        (7, ", or from entry 8 on"),
        (-1, ", or from entry 0 on"),
    ):
        found = unsigned_checkpoint(one, whole)
        assert (found.where, found.text, found.place) == ("entries", text + more, 9)
        assert found.items == ("signatures",)


# ------------------------------------------------------------ which log it is


def test_who_wrote_a_log() -> None:
    """Who began it, each gateway by its note, and of a term without a note its first entry."""
    day = replace(DAY, gateway="2.0")
    notes = [Speaker(9, 4, "gw2", "2.1"), Speaker(5, 3, "gw1", "2.0")]
    terms = [(0, 2), (5, 3), (7, 6), (9, 4)]
    assert speakers_of(day, terms, notes) == [
        Speaker(0, 2, "", "2.0"),
        Speaker(5, 3, "gw1", "2.0"),
        Speaker(7, 6, "", ""),
        Speaker(9, 4, "gw2", "2.1"),
    ]


# What the repository names as proved, what the day says of its program, and what is said of that.
PROGRAMS: dict[str, tuple[dict[str, str], Day, str]] = {
    "the proved one": (
        {"ab" * 32: "x"},
        DAY,
        "it is the program that this repository names as proved",
    ),
    "none is named": (
        {},
        DAY,
        "this repository names no proved program, so whether it is one is not known",
    ),
    "another build": (
        {"cd" * 32: "x"},
        DAY,
        "none that this repository names as proved: another build, or a second program",
    ),
    "a second implementation": (
        {"cd" * 32: "x"},
        replace(DAY, version="model 1"),
        "none that this repository names as proved: a second implementation",
    ),
}


@pytest.mark.parametrize("name", PROGRAMS)
def test_what_is_said_of_the_program(name: str) -> None:
    proved, day, words = PROGRAMS[name]
    identity = Identity(day, proved)
    assert identity.program_words == words and identity.is_proved == (name == "the proved one")
    assert identity.lines()[1:] == [
        "program   %s, SHA-256 %s" % (day.version, "ab" * 32),
        "          " + words,
    ]
    assert Identity(replace(day, program="", venue="north"), proved).lines() == [
        "day       20261125, of venue north"
    ]


def test_what_was_not_asked_for() -> None:
    assert Asked().unsaid == ["--date", "--venue-name", "--program-sha256"]
    assert Asked("", "", "").unsaid == []
    assert Asked(venue="-").unsaid == ["--date", "--program-sha256"]
    identity = Identity(DAY, {}, asked=Asked("20261125", "-", "ab" * 32))
    assert list(identity.findings()) == []
    identity.asked = Asked("20261124", "LDN", "cd" * 32)
    found = list(identity.findings())
    assert [(one.where, one.place) for one in found] == [("day", 0)] * 3
    assert [one.text for one in found] == [
        "it is of the date 20261125, and not 20261124",
        "it is of the venue -, and not LDN",
        "it is of the program %s, and not %s" % ("ab" * 32, "cd" * 32),
    ]
    assert Firm("x", True).kind == "dealer"
