"""The same logs in PostgreSQL, one of the present form and one of an old form. The server is this test's
alone, in a folder of its own.
"""

import os
import shutil
import signal
import sqlite3
import subprocess
import unittest
from contextlib import closing
from pathlib import Path
from typing import Any

import psycopg2
from mireseason_audit.faults import Unreadable
from mireseason_audit.postgres_log import PostgresSource
from mireseason_audit.sqlite_log import SqliteSource

from tests.audit.common import DAY, ROOT, Folder, audit, folder, venue_words
from tests.audit.ledger import OLD_SENT, OLD_SESSIONS
from tests.audit.ledger import public_key
from tests.audit.tamper import ENTRIES, hash_of
from tests.audit.test_until import ASKED
from tests.gateway.wait import LONG, until

SERVERS = sorted(Path("/usr/lib/postgresql").glob("*/bin/initdb"))
SCHEMA, OLD_SCHEMA = "day_20261125", "day_of_form_2"
# Those of any form: the two that say what sessions kept are gone since form 6.
TABLES = ("entry", "connection", "sent", "outgoing", "session", "seal", "checkpoint")
# What the tables of form 2 lacked: the stored day is of form 1, which has the same columns.
TO_FORM_2 = (
    """DROP TABLE connection; DROP TABLE seal; DROP TABLE checkpoint; ALTER TABLE entry DROP COLUMN received, DROP COLUMN connection;
    UPDATE form SET number = 2; """
    + OLD_SENT
    + OLD_SESSIONS
)
# What somebody may put into a schema, and how the audit names it.
BEYOND: list[tuple[str, list[str]]] = [
    ("", []),
    ("CREATE TABLE more (x INTEGER)", ["table more"]),
    ("CREATE UNLOGGED TABLE more (x INTEGER)", ["table more", "unlogged table more"]),
    ("ALTER TABLE sent ADD COLUMN more TEXT", ["column more of sent"]),
    ("ALTER TABLE sent SET UNLOGGED", ["unlogged table sent"]),
    ("CREATE VIEW v AS SELECT * FROM entry", ["view v"]),
    ("CREATE MATERIALIZED VIEW m AS SELECT * FROM entry", ["materialized view m"]),
    ("CREATE SEQUENCE s", ["sequence s"]),
    ("CREATE INDEX i ON sent (place)", ["index i of sent"]),
    ("CREATE RULE r AS ON INSERT TO sent DO INSTEAD NOTHING", ["rule r of sent"]),
    ("ALTER TABLE entry ENABLE ROW LEVEL SECURITY", ["row security of entry"]),
    (
        "CREATE POLICY p ON entry USING (place < 5); ALTER TABLE entry ENABLE ROW LEVEL SECURITY",
        ["policy p of entry", "row security of entry"],
    ),
    (
        "CREATE TABLE more () INHERITS (entry)",
        ["table more", "child more of entry", "parent entry of more"],
    ),
    ("CREATE TABLE parts (x INTEGER) PARTITION BY LIST (x)", ["partitioned table parts"]),
    (
        "CREATE FOREIGN DATA WRAPPER w; CREATE SERVER s FOREIGN DATA WRAPPER w;"
        "CREATE FOREIGN TABLE f (x INTEGER) SERVER s",
        ["foreign table f"],
    ),
    ("CREATE TYPE word AS ENUM ('a')", ["type word"]),
    ("CREATE DOMAIN word AS TEXT", ["type word"]),
    ("CREATE TYPE pair AS (a TEXT, b TEXT)", ["relation pair"]),
    (
        "CREATE OPERATOR === (LEFTARG = TEXT, RIGHTARG = TEXT, FUNCTION = texteq)",
        ["operator ==="],
    ),
    ("ALTER TABLE sent ADD CHECK (place < 100)", ["constraint sent_place_check of sent"]),
    ("ALTER TABLE sent ALTER place SET DEFAULT 5", ["default place of sent"]),
    (
        "CREATE FUNCTION f() RETURNS TRIGGER LANGUAGE plpgsql AS 'BEGIN RETURN NULL; END';"
        "CREATE TRIGGER t BEFORE INSERT ON sent FOR EACH ROW EXECUTE FUNCTION f()",
        ["function f", "trigger t of sent"],
    ),
    (  # the gateway's own name for it, on a table on which it makes none
        "CREATE TRIGGER one_term AFTER INSERT ON sent REFERENCING NEW TABLE AS added"
        " FOR EACH STATEMENT EXECUTE FUNCTION refuse_other_terms()",
        ["trigger one_term of sent"],
    ),
    ("ALTER TABLE entry DISABLE TRIGGER one_term", ["trigger one_term of entry"]),
    (  # the gateway's own function, which does nothing now: a gateway whose term is over may write
        "CREATE OR REPLACE FUNCTION speak(mine INTEGER) RETURNS VOID LANGUAGE plpgsql"
        " AS 'BEGIN RETURN; END'",
        ["function speak"],
    ),
    ("ALTER FUNCTION speak(INTEGER) SECURITY DEFINER", ["function speak"]),
    ("CREATE FUNCTION speak(mine TEXT) RETURNS VOID LANGUAGE SQL AS ''", ["function speak"]),
]
# What a server would carry out, with the auditor's rights, for who reads a table of the log; and which table that is.
RAISES = """CREATE FUNCTION raises(%s) RETURNS %s IMMUTABLE LANGUAGE plpgsql AS 'BEGIN
    IF current_setting(''transaction_read_only'') = ''on'' THEN RAISE EXCEPTION ''carried out''; END IF;
    RETURN %s; END'; """
CARRIED_OUT = {
    "form": RAISES % ("", "INTEGER", "6")
    + "DROP TABLE form; CREATE VIEW form AS SELECT raises() AS number",
    "entry": RAISES % ("", "BOOLEAN", "true")
    + "CREATE TABLE more () INHERITS (entry); CREATE INDEX i ON more (term) WHERE raises()",
    "connection": RAISES % ("", "BOOLEAN", "true")
    + "CREATE INDEX i ON connection (term) WHERE raises()",
    "sent": RAISES % ("x INTEGER", "INTEGER", "x") + "CREATE INDEX i ON sent ((place + raises(1)))",
    "seal": RAISES % ("x INTEGER", "INTEGER", "x")
    + "CREATE STATISTICS s ON (place + raises(1)), term FROM seal",
}
# What fits better, in a query of the audit, than what the server has of that name.
BETTER = {
    "function convert_to": RAISES.replace("raises(", "convert_to(")
    % ("x TEXT, y TEXT", "BYTEA", "x::bytea"),
    "operator <>": RAISES % ("x NAME, y TEXT", "BOOLEAN", "true")
    + "CREATE OPERATOR <> (LEFTARG = NAME, RIGHTARG = TEXT, FUNCTION = raises)",
    "the type of place of sent": "CREATE TYPE pair AS (x INTEGER, y INTEGER);"
    + RAISES % ("x pair", "INTEGER", "1")
    + "CREATE CAST (pair AS INTEGER) WITH FUNCTION raises(pair) AS IMPLICIT;"
    "ALTER TABLE sent ALTER place TYPE pair USING NULL",
}
# A server ends with the test that started it, however that ends.
AS_USER = "setpriv --reuid=postgres --regid=postgres --clear-groups --pdeathsig=QUIT --".split()


def as_user(*words: object) -> list[str]:
    """A server does not run as root, and nobody else may become another."""
    listed = [str(word) for word in words]
    return [*AS_USER, *listed] if is_root() else listed


def is_root() -> bool:
    return os.geteuid() == 0


@unittest.skipUnless(SERVERS, "there is no PostgreSQL")
class Postgres(unittest.TestCase):
    kept: Folder
    place: Path
    day: Path
    connection: str

    @classmethod
    def setUpClass(cls) -> None:
        cls.kept = folder()
        cls.addClassCleanup(cls.kept.cleanup)
        cls.place = Path(cls.kept.name)
        if is_root():
            shutil.chown(cls.place, "postgres")
        programs, data = SERVERS[-1].parent, cls.place / "data"
        words = ["-D", data, "-A", "trust", "-U", "postgres", "--no-sync"]
        run(as_user(programs / "initdb", *words))
        words = ["-D", data, "-k", cls.place, "-c", "listen_addresses=", "-c", "fsync=off"]
        with open(cls.place / "log", "wb") as log:
            server = subprocess.Popen(
                as_user(programs / "postgres", *words), stdout=log, stderr=log, cwd="/"
            )
        cls.addClassCleanup(end, server)
        cls.connection = "host=%s user=postgres dbname=postgres" % cls.place
        until("PostgreSQL answers", LONG, lambda: has_ended(server) or answers(cls.connection))
        cls.day = cls.place / "day.db"
        draw = ["/usr/bin/python3", "-m", "tests.audit.draw_day", str(cls.day), "--requests", "7"]
        run([*draw, "--seed", "3", "--", *venue_words()])
        make_tables(cls.connection, SCHEMA)
        fill(cls.connection, SCHEMA, cls.day)
        make_tables(cls.connection, OLD_SCHEMA, TO_FORM_2)
        fill(cls.connection, OLD_SCHEMA, DAY)

    def check(self, schema: str = SCHEMA) -> tuple[int, str]:
        ran = audit("check", "postgres:" + self.connection, "--schema", schema)
        return ran.status, ran.text

    def change(self, query: str) -> None:
        execute(self.connection, "SET search_path TO %s; %s" % (SCHEMA, query))

    def test_it_says_what_it_says_of_the_file(self) -> None:
        for schema, day in ((SCHEMA, self.day), (OLD_SCHEMA, DAY)):
            status, text = self.check(schema)
            self.assertEqual((status, text), (0, audit("check", day).text))

    def test_a_log_that_was_read_holds_no_session(self) -> None:
        """A day that is followed is looked at every few seconds."""
        count = "SELECT count(*) FROM pg_stat_activity WHERE state LIKE 'idle in transaction%'"
        with PostgresSource(self.connection, SCHEMA).current() as log:
            self.assertGreater(log.last_place(), 0)
            self.assertEqual(rows(self.connection, count), [(1,)])
        until("its session ends", LONG, lambda: rows(self.connection, count) == [(0,)])
        self.assertIsNotNone(log)

    def test_a_log_is_taken_once(self) -> None:
        """Each question is answered as of the file with the same rows, and by the rows that were taken, whatever
        the server says afterwards.
        """
        schema = "taken"
        make_tables(self.connection, schema)
        fill(self.connection, schema, self.day)
        with SqliteSource(self.day).open() as log:
            before = {asked: ask(log) for asked, ask in ASKED.items()}
        source = PostgresSource(self.connection, schema).taken(self.place)
        for change in ("DELETE FROM %s.entry WHERE place > 5", "DROP SCHEMA %s CASCADE"):
            with source.open() as log:
                self.assertEqual({asked: ask(log) for asked, ask in ASKED.items()}, before)
            execute(self.connection, change % schema)
        with self.assertRaises(Unreadable):
            source.current()

    def test_a_value_that_no_log_has(self) -> None:
        """Of a type for which SQLite has none: nothing is made of it."""
        schema = "typed"
        make_tables(self.connection, schema, "ALTER TABLE sent ALTER number TYPE NUMERIC(40)")
        execute(self.connection, "INSERT INTO %s.sent VALUES ('ALPHA', 1, 0, '', NULL)" % schema)
        with self.assertRaisesRegex(Unreadable, "^typed: "):
            PostgresSource(self.connection, schema).open()

    def test_a_change_and_its_place(self) -> None:
        self.change("UPDATE sent SET place = place + 1 WHERE firm = 'ALPHA' AND number = 1")
        status, text = self.check()
        self.change("UPDATE sent SET place = place - 1 WHERE firm = 'ALPHA' AND number = 1")
        self.assertEqual(status, 1)
        self.assertRegex(text, r"ALPHA: entry \d+, number 1: it is given for entry")

    def test_a_change_of_who_it_was(self) -> None:
        where = "WHERE place = 2"
        ((address,),) = rows(
            self.connection, "SELECT address FROM %s.connection %s" % (SCHEMA, where)
        )
        self.change("UPDATE connection SET address = '203.0.113.9:1' " + where)
        status, text = self.check()
        self.change("UPDATE connection SET address = '%s' %s" % (address, where))
        self.assertEqual(status, 1)
        self.assertIn("\ndoor: row 2: it was changed", text)

    def test_what_cannot_be_read(self) -> None:
        here = "postgres:" + self.connection
        for words in (["postgres:host=/nowhere"], [here, "--schema", "none"]):
            ran = audit("check", *words)
            self.assertEqual(ran.status, 2, ran.text)
            self.assertEqual(len(ran.err.splitlines()), 1)

    def test_what_the_form_does_not_have(self) -> None:
        """Each in a schema of its own, with the gateway's tables."""
        for number, (script, told) in enumerate(BEYOND):
            with self.subTest(script):
                schema = "beyond_%d" % number
                make_tables(self.connection, schema, script)
                with PostgresSource(self.connection, schema).open() as log:
                    self.assertEqual(list(log.beyond_form()), told)

    def test_nothing_is_carried_out(self) -> None:
        """Whoever owns the schema may have left a program there, for who reads it with other rights."""
        for number, (table, script) in enumerate(CARRIED_OUT.items()):
            with self.subTest(table):
                schema = "carried_out_%d" % number
                make_tables(self.connection, schema, script)
                told = "^%s: no log can be read: %s is no table, or has a function" % (
                    schema,
                    table,
                )
                with self.assertRaisesRegex(Unreadable, told):
                    PostgresSource(self.connection, schema).open()
                with self.assertRaisesRegex(Unreadable, told):
                    PostgresSource(self.connection, schema).current()

    def test_nothing_takes_the_place_of_the_servers_own(self) -> None:
        for number, (what, script) in enumerate(BETTER.items()):
            with self.subTest(what):
                schema = "better_%d" % number
                make_tables(self.connection, schema, script)
                told = "^%s: no log can be read: %s may be carried out" % (schema, what)
                with self.assertRaisesRegex(Unreadable, told):
                    PostgresSource(self.connection, schema).open()

    def test_what_the_form_does_not_have_is_a_finding(self) -> None:
        self.change("CREATE RULE r AS ON DELETE TO sent DO INSTEAD NOTHING")
        status, text = self.check()
        self.change("DROP RULE r ON sent")
        self.assertEqual(status, 1)
        self.assertIn("\ntables: no gateway makes this: rule r of sent", text)

    def test_tables_of_another_form(self) -> None:
        self.change("UPDATE form SET number = 1")
        status, text = self.check()
        self.change("UPDATE form SET number = 6")
        self.assertEqual(status, 2)
        self.assertIn("the form of its tables is none of 2, 3, 4, 5 and 6", text)

    def test_signatures(self) -> None:
        """Each is right; an entry that is put in with number and hash right has none."""
        key = self.place / "gateway.pub"
        key.write_bytes(public_key())
        words = ["postgres:" + self.connection, "--schema", SCHEMA, "--gateway-key", str(key)]
        ran = audit("check", *words)
        self.assertEqual(ran.status, 0, ran.text)
        self.assertRegex(
            ran.out, r"signatures: \d+ checkpoints, each by a gateway; no entry follows"
        )
        with closing(sqlite3.connect(self.day)) as stored:
            last = stored.execute(ENTRIES).fetchall()[-1]
        made: Any = (last[0] + 1, *last[1:])
        before = last[7]
        place, term, moment, firm, number, line, _, _, received, connection = made
        values = place, term, moment, received, firm, number, connection, line, before
        row = [(*values, hash_of(made, before))]
        marks = ", ".join(["%s"] * 10)
        into = "SET search_path TO %s; INSERT INTO entry VALUES (%s)" % (SCHEMA, marks)
        execute(self.connection, into, row)
        ran = audit("check", *words)
        self.change("DELETE FROM entry WHERE place = %d" % place)
        self.assertEqual(ran.status, 1, ran.text)
        self.assertIn("entry %d: 1 entry follows the last checkpoint" % place, ran.out)
        self.assertIn("entry %d: it is not sealed" % place, ran.out)

    def test_a_cut_day(self) -> None:
        """Each table ends at the first checkpoint, and all that is left is right: only the day's end is missing."""
        schema = "cut"
        make_tables(self.connection, schema)
        fill(self.connection, schema, self.day)
        last = "SELECT number, place, event FROM %s.checkpoint ORDER BY number LIMIT 1" % schema
        ((number, place, event),) = rows(self.connection, last)
        for statement in (
            "checkpoint WHERE number > %d" % number,
            "seal WHERE place > %d" % place,
            "entry WHERE place > %d" % place,
            "connection WHERE place > %d" % event,
            "sent WHERE place > %d" % place,
        ):
            words = (schema, statement)
            execute(self.connection, "SET search_path TO %s; DELETE FROM %s" % words)
        key = self.place / "gateway.pub"
        key.write_bytes(public_key())
        here = "postgres:" + self.connection
        ran = audit("check", here, "--schema", schema, "--gateway-key", str(key))
        self.assertEqual(ran.status, 1, ran.text)
        self.assertIn("its end may have been cut off", ran.out)


def run(words: list[str]) -> None:
    subprocess.run(words, check=True, stdout=subprocess.DEVNULL, cwd="/")


def has_ended(server: "subprocess.Popen[bytes]") -> bool:
    return server.poll() is not None


def end(server: "subprocess.Popen[bytes]") -> None:
    server.send_signal(signal.SIGQUIT)  # at once, and without a word to its clients
    server.wait(LONG)


def answers(connection: str) -> bool:
    try:
        execute(connection, "SELECT 1")
    except psycopg2.OperationalError:
        return False
    return True


def execute(connection: str, query: str, rows: list[Any] | None = None) -> None:
    with closing(psycopg2.connect(connection)) as opened, opened.cursor() as cursor:
        if rows is None:
            cursor.execute(query)
        else:
            cursor.executemany(query, rows)
        opened.commit()


def rows(connection: str, query: str) -> list[Any]:
    with closing(psycopg2.connect(connection)) as opened, opened.cursor() as cursor:
        cursor.execute(query)
        return list(cursor.fetchall())


def make_tables(connection: str, schema: str, more: str = "") -> None:
    """The gateway's tables."""
    files = [ROOT / "gateway" / name for name in ("schema.sql", "terms.sql")]
    tables = "".join(file.read_text() for file in files)
    words = (schema, schema, tables, more)
    execute(connection, "CREATE SCHEMA %s; SET search_path TO %s; %s; %s" % words)


def fill(connection: str, schema: str, day: Path) -> None:
    """The rows of a day in a file."""
    with closing(sqlite3.connect(day)) as stored:
        there = {name for name, in stored.execute("SELECT name FROM sqlite_schema")}
        for table in TABLES:
            if table in there:
                found = stored.execute("SELECT * FROM " + table).fetchall()
                marks = ", ".join(["%s"] * len(found[0]))
                words = "SET search_path TO %s; INSERT INTO %s VALUES (%s)"
                execute(connection, words % (schema, table, marks), found)


if __name__ == "__main__":
    unittest.main()
