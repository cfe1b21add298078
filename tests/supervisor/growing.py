"""Grows a log as a gateway writes it: an existing one, entry by entry."""

import sqlite3
from contextlib import closing
from dataclasses import dataclass
from pathlib import Path


@dataclass(frozen=True)
class GrowingLog:
    """Copies one log into another, up to an entry at a time."""

    whole: Path
    path: Path

    def begin(self) -> None:
        """The tables."""
        with closing(sqlite3.connect(self.whole)) as log:
            query = (
                "SELECT sql FROM sqlite_master WHERE sql IS NOT NULL AND name NOT LIKE 'sqlite_%'"
            )
            tables = [sql for sql, in log.execute(query)]
        with self.open_log() as log:
            log.execute("PRAGMA journal_mode = WAL")
            for sql in tables:
                log.execute(sql)
            log.execute("INSERT INTO form SELECT * FROM whole.form")

    def last(self) -> int:
        with closing(sqlite3.connect(self.whole)) as log:
            ((place,),) = log.execute("SELECT max(place) FROM entry")
            return int(place)

    def grow_to(self, place: int) -> int:
        """All up to the last seal that is not behind an entry, in one transaction, as a gateway
        writes a batch. Answers the last entry.
        """
        with self.open_log() as log:
            query = "SELECT place, event FROM whole.seal WHERE place <= ? ORDER BY number"
            place, event = log.execute(query, (place,)).fetchall()[-1]
            log.execute("BEGIN")
            for table, of, last in (
                ("entry", "place", place),
                ("sent", "place", place),
                ("connection", "place", event),
                ("seal", "place", place),
                ("checkpoint", "place", place),
            ):
                key = "firm || ' ' || number" if table == "sent" else "rowid"
                query = "INSERT INTO %s SELECT * FROM whole.%s WHERE %s <= ? AND %s NOT IN"
                query += " (SELECT %s FROM %s)"
                log.execute(query % (table, table, of, key, key, table), (last,))
            log.execute("COMMIT")
        return int(place)

    def finish(self) -> None:
        """What is left: the ends of the sessions, and what seals them."""
        with self.open_log() as log:
            for table, key in (
                ("connection", "place"),
                ("seal", "number"),
                ("checkpoint", "number"),
            ):
                query = "INSERT INTO %s SELECT * FROM whole.%s WHERE %s NOT IN (SELECT %s FROM %s)"
                log.execute(query % (table, table, key, key, table))

    def open_log(self) -> "closing[sqlite3.Connection]":
        log = sqlite3.connect(self.path, isolation_level=None)
        log.execute("ATTACH ? AS whole", (str(self.whole),))
        return closing(log)
