"""Files that SQLite answers in two ways: a table has forged rows, with their chain made anew, and an index of
it what stood there before. Whatever the audit says has to be of the rows whose chain it checked.
"""

import sqlite3
import struct
from collections.abc import Callable
from contextlib import closing
from pathlib import Path
from typing import NamedTuple

import pytest
from mireseason_audit import sqlite_log
from mireseason_audit.evidence import Evidence
from mireseason_audit.faults import Unreadable
from mireseason_audit.sqlite_log import SqliteSource

from tests.audit import ledger
from tests.audit.more_forgeries import REWORDED
from tests.audit.test_forgeries import place, told
from tests.audit.test_until import ASKED
from tests.audit.two_answers import (
    SCHEMA_ROW,
    behind_its_index,
    behind_its_key,
    opened,
    without_key,
)

__all__ = ["place"]  # a fixture

BEYOND = "what is beyond"  # of what is asked: it differs, since each index is told
OTHER_TRADER = REWORDED % ("50=AL", "50=XL", "ALPHA")
OTHER_ADDRESS = "UPDATE connection SET address = '203.0.113.9:1' WHERE number = 1"
MORE_SENT = "INSERT INTO sent SELECT firm, number + 1, place, bytes, told FROM sent WHERE firm = 'ALPHA' ORDER BY number DESC LIMIT 1"


def by_a_part_of_an_index(log: Path) -> None:
    without_key(log, "entry")
    index = "entry (place, hash) WHERE place IS NOT NULL"
    behind_its_index(log, index, "sqlite_autoindex_entry_1", OTHER_TRADER)


def by_a_whole_index(log: Path) -> None:
    without_key(log, "entry")
    behind_its_index(log, "entry (place, hash)", "sqlite_autoindex_entry_1", OTHER_TRADER)


def by_an_index_of_the_door(log: Path) -> None:
    without_key(log, "connection")
    index = "connection (place, hash) WHERE place IS NOT NULL"
    behind_its_index(log, index, "sqlite_autoindex_connection_1", OTHER_ADDRESS)


def by_an_index_of_what_came(log: Path) -> None:
    """The rows are those of the day, and the index has another trader."""
    index = "entry (firm, place, term, moment, number, line, before, hash, received, connection)"
    back = REWORDED % ("50=XL", "50=AL", "ALPHA")
    behind_its_index(log, index, "sqlite_autoindex_entry_1", back, before=OTHER_TRADER)


def by_the_key(log: Path) -> None:
    behind_its_key(log, MORE_SENT)


class Forgery(NamedTuple):
    make: Callable[[Path], None]
    ask: str  # what an index answers
    told: str  # what the audit finds with a gateway's key, of what is signed


FORGERIES = {
    "by a part of an index": Forgery(
        by_a_part_of_an_index,
        "SELECT hash FROM entry WHERE place = (SELECT max(place) FROM entry)",
        "checkpoint 2 is signed by none of the keys",
    ),
    "by a whole index": Forgery(
        by_a_whole_index,
        "SELECT hash FROM entry WHERE place = (SELECT max(place) FROM entry)",
        "checkpoint 2 is signed by none of the keys",
    ),
    "by an index of the door": Forgery(
        by_an_index_of_the_door,
        "SELECT hash FROM connection WHERE place = (SELECT max(place) FROM connection)",
        "checkpoint 2 is signed by none of the keys",
    ),
    "by an index of what came": Forgery(
        by_an_index_of_what_came,
        "SELECT line FROM entry WHERE firm = 'ALPHA' ORDER BY place LIMIT 1",
        "no gateway makes this: index sqlite_autoindex_entry_1 of entry",
    ),
    "by the key": Forgery(by_the_key, "SELECT max(number) FROM sent WHERE firm = 'ALPHA'", ""),
}


@pytest.fixture
def log(place: Path, tmp_path: Path) -> Path:
    found = tmp_path / "day.db"
    found.write_bytes((place / "day.db").read_bytes())
    return found


def first_row(log: Path, query: str) -> object:
    with closing(sqlite3.connect(log)) as database:
        return database.execute(query).fetchone()


def with_rows_of(log: Path, path: Path) -> Path:
    """A log that has no other index than a gateway's, with the rows of the tables. Without the WHERE, SQLite would copy
    what stands in the index of a key, too.
    """
    tables = ["entry", "connection", "sent", "seal", "checkpoint"]
    put = "INSERT INTO main.%s SELECT * FROM forged.%s NOT INDEXED WHERE 1"
    with closing(sqlite3.connect(path, isolation_level=None)) as made:
        made.executescript(ledger.SCHEMA.read_text())
        made.execute("ATTACH ? AS forged", (str(log),))
        for table in tables:
            made.execute(put % (table, table))
    return path


@pytest.mark.parametrize("name", FORGERIES)
def test_what_an_index_says_is_not_believed(
    place: Path, log: Path, tmp_path: Path, name: str
) -> None:
    """Who asks by the index is told something else than the rows say. The audit finds the forgery, and answers each
    question by the rows.
    """
    forgery = FORGERIES[name]
    forgery.make(log)
    plain = with_rows_of(log, tmp_path / "plain.db")
    assert first_row(log, forgery.ask) != first_row(plain, forgery.ask)
    said = told(log, tmp_path, Evidence(keys=(place / "gateway.pub",)))
    assert forgery.told in said, said
    with SqliteSource(log).open() as shown, SqliteSource(plain).open() as rows:
        for asked, ask in ASKED.items():
            assert asked == BEYOND or ask(shown) == ask(rows), asked


@pytest.mark.parametrize(
    "name, table", [("by a part of an index", "entry"), ("by an index of the door", "connection")]
)
def test_no_gateway_makes_such_an_index(log: Path, name: str, table: str) -> None:
    """Though it has the name of one that SQLite makes. Nor does a gateway make a table without its key."""
    FORGERIES[name].make(log)
    with SqliteSource(log).open() as shown:
        assert list(shown.beyond_form()) == [
            "another definition of table %s" % table,
            "index sqlite_autoindex_%s_1 of %s" % (table, table),
        ]


# ------------------------------------------------------------ what is taken


def test_a_log_is_taken_once(log: Path, tmp_path: Path) -> None:
    """What is changed afterwards is not seen, but by who asks whether the log goes on."""
    source = SqliteSource(log).taken(tmp_path)
    with source.open() as taken:
        before = {asked: ask(taken) for asked, ask in ASKED.items()}
    with opened(log) as database:
        database.execute("DELETE FROM entry WHERE place > 5")
        database.execute("DELETE FROM sent")
    with source.open() as taken, source.current() as current:
        assert {asked: ask(taken) for asked, ask in ASKED.items()} == before
        assert current.last_place() == 5 and taken.last_place() == before["last place"]
    log.unlink()
    with source.open() as taken:
        assert {asked: ask(taken) for asked, ask in ASKED.items()} == before
    with pytest.raises(Unreadable):
        source.current()


@pytest.mark.parametrize(
    "value", ["x'00ff'", "x''", "'7'", "7", "7.5", "CAST(x'41ff' AS TEXT)", "''", "'a' || char(0)"]
)
def test_a_value_is_taken_as_it_is(log: Path, tmp_path: Path, value: str) -> None:
    """Of any type, in any column but the one that numbers the rows: a text of digits is no number."""
    asked = "SELECT typeof(place), hex(place), typeof(bytes), hex(bytes) FROM sent WHERE number = 2"
    with opened(log) as database:
        database.execute("UPDATE sent SET place = %s, bytes = %s WHERE number = 2" % (value, value))
        found = database.execute(asked).fetchall()
    SqliteSource(log).taken(tmp_path)
    with closing(sqlite3.connect(tmp_path / "taken.db")) as taken:
        assert sorted(taken.execute(asked).fetchall()) == sorted(found)
    assert len(found) > 1


def test_two_entries_of_one_place(log: Path) -> None:
    """No gateway could write both, and none of them is left out."""
    without_key(log, "entry")
    with opened(log) as database:
        database.execute("INSERT INTO entry SELECT * FROM entry WHERE place = 3")
    with pytest.raises(Unreadable, match="^day.db: UNIQUE .*entry.place$"):
        SqliteSource(log).open()


# ------------------------------------------------------------ a tree of pages that has rows without end

INNER, LEAF = (
    5,
    13,
)  # the first byte of a page of a table: of one that leads to pages, and of one that has rows
SMALL = 512  # bytes of a page
HEAD, COUNT, LAST = (
    12,
    3,
    8,
)  # where in an inner page its cells' places are, how many, and the last page
MANY = 40  # pages to which an inner page leads


@pytest.mark.parametrize(
    "table, told",
    [("sent", "it has more rows than"), ("entry", "UNIQUE constraint failed: entry.place")],
)
def test_rows_without_end(log: Path, table: str, told: str) -> None:
    """A page leads forty times to the next, that forty times to a third. Nobody has room for all their rows."""
    with opened(log) as database:
        database.execute("PRAGMA page_size = %d" % SMALL)
        database.execute("VACUUM")
        count = "WITH RECURSIVE n(x) AS (SELECT 1000 UNION ALL SELECT x + 1 FROM n WHERE x < 9999)"
        database.execute(
            count + " INSERT INTO sent SELECT 'ALPHA', x, 1, zeroblob(99), NULL FROM n"
        )
        ((*_, root, _),) = database.execute(SCHEMA_ROW, (table,)).fetchall()
    data = bytearray(log.read_bytes())
    leaf = leaf_below(data, root)
    inner = [
        page for page in pages_of(data, INNER) if page != root and count_in(data, page) >= MANY
    ]
    chain = [root, *inner[-5:], leaf]
    for page, following in zip(chain, chain[1:]):
        lead(data, page, following)
    log.write_bytes(data)
    with pytest.raises(Unreadable, match="^day.db: " + told):
        SqliteSource(log).open()


def leaf_below(data: bytearray, page: int) -> int:
    """The last page of rows below a page."""
    while data[(page - 1) * SMALL] == INNER:
        (page,) = struct.unpack_from(">I", data, (page - 1) * SMALL + LAST)
    return page


def pages_of(data: bytearray, kind: int) -> list[int]:
    pages = range(2, len(data) // SMALL + 1)
    return [page for page in pages if data[(page - 1) * SMALL] == kind]


def count_in(data: bytearray, page: int) -> int:
    return int(struct.unpack_from(">H", data, (page - 1) * SMALL + COUNT)[0])


def lead(data: bytearray, page: int, following: int) -> None:
    """Has each cell of an inner page lead to one page."""
    start = (page - 1) * SMALL
    for cell in range(count_in(data, page)):
        (at,) = struct.unpack_from(">H", data, start + HEAD + 2 * cell)
        struct.pack_into(">I", data, start + at, following)
    struct.pack_into(">I", data, start + LAST, following)


ROW = struct.Struct(">h")  # the number of a page in a row of sqlite_schema
FIRST = 100  # where the head of the first page begins, in which sqlite_schema has its root


def test_tables_without_end(log: Path, monkeypatch: pytest.MonkeyPatch) -> None:
    """What the file says of the index of a key stands there again and again: SQLite reads all of it when it opens
    the file.
    """
    with opened(log) as database:
        database.execute("PRAGMA page_size = %d" % SMALL)
        database.execute("VACUUM")
        ((*_, root, _),) = database.execute(SCHEMA_ROW, ("sqlite_autoindex_sent_1",)).fetchall()
    data = bytearray(log.read_bytes())
    assert data[FIRST] == INNER
    child = len(data) // SMALL + 1
    data += page_with(13, [row_of("index", "sqlite_autoindex_sent_1", "sent", root)])
    for _ in range(6):
        cells = [struct.pack(">I", child) + varint(10**6)] * MANY
        data += page_with(INNER, cells, child)
        child = len(data) // SMALL
    struct.pack_into(">I", data, FIRST + LAST, child)
    struct.pack_into(">I", data, 28, len(data) // SMALL)  # pages
    data[92:96] = data[24:28]  # since which change
    log.write_bytes(data)
    monkeypatch.setattr(sqlite_log, "OPENING_SECONDS", 0.1)
    with pytest.raises(Unreadable, match="day.db is no log of the gateway: interrupted"):
        SqliteSource(log).open()


def varint(number: int) -> bytes:
    """A number as SQLite writes it."""
    groups = [number & 127]
    while number := number >> 7:
        groups.append(number & 127 | 128)
    return bytes(reversed(groups))


def row_of(*values: str | int) -> bytes:
    """A row of sqlite_schema without a definition, behind its length and its number."""
    texts = [value.encode() if isinstance(value, str) else ROW.pack(value) for value in values]
    kinds = [13 + 2 * len(text) if text[:1].isalpha() else 2 for text in texts]
    head = b"".join(map(varint, [*kinds, 0]))
    row = varint(len(head) + 1) + head + b"".join(texts)
    return varint(len(row)) + varint(99) + row


def page_with(kind: int, cells: list[bytes], last: int | None = None) -> bytes:
    """A page of a table with these cells, each behind the one before it."""
    size, begin = 8 if last is None else HEAD, SMALL - sum(map(len, cells))
    ends = [SMALL - sum(map(len, cells[at:])) for at in range(len(cells))]
    page = struct.pack(">BHHHB", kind, 0, len(cells), begin, 0)
    page += b"" if last is None else struct.pack(">I", last)
    assert len(page) == size
    return (page + struct.pack(">%dH" % len(ends), *ends)).ljust(begin, b"\0") + b"".join(cells)
