"""Keeps the acts of a day on disk, by their requests, so that no day is held in memory."""

import marshal
import sqlite3
from pathlib import Path
from typing import Any, NamedTuple

from .prices import Price
from .reading import Shape, Words
from .requests import Act, Note

TABLES = """
CREATE TABLE act (request INTEGER NOT NULL, place INTEGER NOT NULL, act BLOB NOT NULL);
CREATE TABLE fault (number INTEGER PRIMARY KEY, fault BLOB NOT NULL);
"""
ROWS_AT_ONCE = 1000


class Fault(NamedTuple):
    """A message of a firm that was refused, rejected, or dropped without an answer."""

    place: int
    moment: str
    firm: str
    said: str
    why: str
    detail: str
    request: int | None  # the key of the request that it is about


def packed_fault(fault: Fault) -> bytes:
    row: Any = tuple(fault)
    return marshal.dumps(row)


def packed_words(words: Words) -> tuple[object, ...]:
    price = None if words.price is None else words.price.text
    return words.shape.value, words.text, price, *words[3:]


def words_of(row: tuple[Any, ...]) -> Words:
    shape, text, price, *rest = row
    return Words(Shape(shape), text, None if price is None else Price(price), *rest)


def packed(act: Act) -> bytes:
    """An act as bytes, which this program alone reads again."""
    told = [(one.firm, one.number, one.kind, packed_words(one.words)) for one in act.told]
    said = packed_words(act.said)
    row: Any = (act.place, act.moment, act.actor, act.number, said, told, act.came_on)
    return marshal.dumps(row)


def act_of(data: bytes) -> Act:
    place, moment, actor, number, said, told, came_on = marshal.loads(data)
    notes = tuple(Note(firm, count, kind, words_of(words)) for firm, count, kind, words in told)
    return Act(place, moment, actor, number, words_of(said), notes, came_on)


class Book:
    """A file of this program alone, written once and then read."""

    def __init__(self, path: Path, write: bool = False) -> None:
        self._connection = sqlite3.connect(path, isolation_level=None)
        if write:
            self._connection.execute("PRAGMA journal_mode = OFF")
            self._connection.execute("PRAGMA synchronous = OFF")
            self._connection.executescript(TABLES)
            self._connection.execute("BEGIN")
        self._acts: list[tuple[int, int, bytes]] = []
        self._faults: list[tuple[bytes]] = []

    def put(self, request: int, act: Act) -> None:
        self._acts.append((request, act.place, packed(act)))
        if len(self._acts) >= ROWS_AT_ONCE:
            self._write()

    def put_fault(self, fault: Fault) -> None:
        self._faults.append((packed_fault(fault),))
        if len(self._faults) >= ROWS_AT_ONCE:
            self._write()

    def _write(self) -> None:
        self._connection.executemany("INSERT INTO act VALUES (?, ?, ?)", self._acts)
        self._connection.executemany("INSERT INTO fault (fault) VALUES (?)", self._faults)
        self._acts, self._faults = [], []

    def finish(self) -> None:
        """The end of the writing."""
        self._write()
        self._connection.execute("CREATE INDEX act_request ON act (request, place)")
        self._connection.execute("CREATE INDEX act_place ON act (place)")
        self._connection.execute("COMMIT")

    def acts(self, request: int) -> list[Act]:
        query = "SELECT act FROM act WHERE request = ? ORDER BY place"
        return [act_of(data) for data, in self._connection.execute(query, (request,))]

    def requests_at(self, first: int, end: int) -> dict[int, tuple[int, ...]]:
        """Of the entries from one place to before another, the requests that each is about."""
        query = "SELECT place, request FROM act WHERE place >= ? AND place < ? ORDER BY request"
        found: dict[int, tuple[int, ...]] = {}
        for place, request in self._connection.execute(query, (first, end)):
            found[place] = (*found.get(place, ()), request)
        return found

    def requests_since(self, place: int) -> set[int]:
        """The requests that entries behind a place are about."""
        query = "SELECT DISTINCT request FROM act WHERE place > ?"
        return {request for request, in self._connection.execute(query, (place,))}

    def faults(self, first: int, count: int) -> list[Fault]:
        """So many from one on, the first having the number 0, by the entries."""
        query = "SELECT fault FROM fault WHERE number > ? ORDER BY number LIMIT ?"
        rows = self._connection.execute(query, (first, count))
        return [Fault(*marshal.loads(data)) for data, in rows]

    def close(self) -> None:
        self._connection.close()
