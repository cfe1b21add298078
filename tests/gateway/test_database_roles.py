"""What each role may do in PostgreSQL if the logs have an owner (install/hosts/config/database.sql): the gateway's role, a
reader, and what neither can do to a day that is written or to the next one.
"""

import subprocess
from collections.abc import Iterator
from dataclasses import dataclass
from pathlib import Path

import pytest
from parts.site import Folders, Site

from tests.gateway.door import Door, today
from tests.gateway.ledger import PostgresLog
from tests.gateway.noted import noted
from tests.gateway.stage import DEALER, INVESTOR, OTHER
from tests.gateway.wait import LONG
from tests.gateway.wire import Fields, Wire
from tests.harness import postgres
from tests.harness.fixtures import MakeGateway

SITE = Site(
    "10.0.0.0/24",
    {"db1": "10.0.0.1", "db2": "10.0.0.2", "db3": "10.0.0.3"},
    {"gw1": "10.0.0.4"},
    {word: "x" for word in ("GATEWAY", "READER", "REPLICATION", "REWIND", "REST")},
    ("rfq_venue",),
    "",
)


def said(connection: str, *statements: str) -> subprocess.CompletedProcess[str]:
    """What psql says of statements, in one session."""
    words = ["psql", "-X", "-A", "-t", "-q", "-v", "ON_ERROR_STOP=1", "-d", connection]
    for statement in statements:
        words += ["-c", statement]
    return subprocess.run(words, capture_output=True, text=True, check=False, timeout=LONG)


@dataclass(frozen=True)
class Owned:
    """A database whose logs have an owner."""

    superuser: str
    schema: str

    def of(self, role: str) -> str:
        return self.superuser.replace("user=" + postgres.USER, "user=" + role)


@pytest.fixture
def owned(postgres_database: str, place: Path) -> Owned:
    """As install/hosts makes it, twice: a new version of it goes over the old one."""
    for role in ("gateway", "reader"):
        said(postgres_database, "CREATE ROLE %s LOGIN" % role)
    text = SITE.files("db1", Folders("/etc", "/var", "/run"))["database.sql"]
    (place / "database.sql").write_text(text)
    for _ in range(2):
        words = [
            "psql",
            "-X",
            "-q",
            "-v",
            "ON_ERROR_STOP=1",
            "-d",
            postgres_database,
            "-f",
            str(place / "database.sql"),
        ]
        done = subprocess.run(words, capture_output=True, text=True, check=False)
        assert done.returncode == 0, done.stderr
    return Owned(postgres_database, "day_" + today())


@pytest.fixture
def written(owned: Owned, make_gateway: MakeGateway) -> Iterator[Owned]:
    """The same with a day that a gateway has begun and ended."""
    door = make_gateway(
        [DEALER, OTHER], [INVESTOR], log=PostgresLog(owned.of("gateway"), owned.schema)
    )
    door.write()
    door.start()
    door.wait_open()
    assert door.stop() == 0, door.last_words()
    yield owned


def test_a_day_is_written(written: Owned) -> None:
    """The tables belong to the owner, which nobody can connect as."""
    owners = said(
        written.superuser,
        "SELECT DISTINCT tableowner FROM pg_tables WHERE schemaname = '%s'" % written.schema,
    )
    assert owners.stdout.split() == ["log_owner"]
    assert (
        said(
            written.superuser, "SELECT rolcanlogin FROM pg_roles WHERE rolname = 'log_owner'"
        ).stdout.strip()
        == "f"
    )
    first = "SELECT count(*) FROM %s.entry WHERE place = 0" % written.schema
    count = said(written.of("reader"), first)
    assert count.stdout.strip() == "1", count.stderr


def logged_on(door: Door, more: Fields) -> Wire:
    """A session of the dealer that begins with 34=1, and has answered the TestRequest after its Logon."""
    wire = Wire(door.port)
    assert wire.logon(DEALER.name.encode(), DEALER.password.encode(), more=more)
    wire.got(b"A")
    wire.got(b"1")
    wire.ask()
    return wire


def test_what_sessions_put_into_a_day(owned: Owned, make_gateway: MakeGateway) -> None:
    """A session keeps a Reject, its firm begins again with 141=Y, and an operator resets it: the gateway's role may put each of
    these into the log, and goes on."""
    door = make_gateway(
        [DEALER, OTHER], [INVESTOR], log=PostgresLog(owned.of("gateway"), owned.schema)
    )
    door.operators = ""
    door.write()
    door.start()
    door.wait_open()
    with logged_on(door, []) as wire:
        assert wire.raw(wire.message(b"1", wire.name, []))  # without 112
        assert wire.got(b"3").value(371) == b"112"
    with logged_on(door, [(141, b"Y")]):
        pass
    assert list(noted(door.ledger().notes)[DEALER.name].rejects.values()) == [False]
    program = door.programs.gateway.parent / "mireseason-admin"
    words = [str(program), "--socket", str(door.folder / "admin.sock"), "reset-session"]
    subprocess.run([*words, DEALER.name], check=True, timeout=LONG)
    with logged_on(door, []):
        pass
    assert door.stop() == 0, door.last_words()


GATEWAY_MAY_NOT = [
    "UPDATE entry SET moment = moment",
    "DELETE FROM entry",
    "TRUNCATE entry",
    "DROP TABLE entry",
    "ALTER TABLE entry ADD COLUMN x INT",
    "DELETE FROM seal",
    "UPDATE seal SET mac = mac",
    "UPDATE checkpoint SET signature = signature",
    "UPDATE sent SET bytes = bytes",
    "UPDATE sent SET told = NULL",
    "DELETE FROM sent",
    "UPDATE connection SET why = why",
    "DELETE FROM speaker",
    "UPDATE form SET number = 3",
    "INSERT INTO form VALUES (3)",
    "DROP TRIGGER one_term ON entry",
    "CREATE SCHEMA other",
    "CREATE FUNCTION speak(other BIGINT) RETURNS VOID LANGUAGE sql AS ''",
    "SET ROLE log_owner",
    "CREATE TABLE other (x INT)",
    "CREATE TEMP TABLE other (x INT)",
    "SELECT mireseason.make_log('pg_evil')",
    "SELECT rolpassword FROM pg_authid",
    "CREATE TABLE public.other (x INT)",
]
READER_MAY_NOT = [
    "INSERT INTO entry SELECT * FROM entry",
    "UPDATE speaker SET term = 99",
    "SELECT * FROM entry FOR UPDATE",
    "SELECT * FROM speaker FOR SHARE",
    "BEGIN; LOCK TABLE entry IN ACCESS EXCLUSIVE MODE",
    "SELECT rolpassword FROM pg_authid",
    "SELECT lo_create(0)",
    "SELECT lo_from_bytea(0, '')",
    "SELECT lo_import('/etc/passwd')",
    "SELECT pg_logical_emit_message(false, 'x', 'x')",
    "SELECT pg_logical_emit_message(true, 'x', 'x'::bytea)",
    "SELECT pg_advisory_lock(1)",
    "SELECT pg_advisory_lock(1, 1)",
    "SELECT pg_try_advisory_xact_lock_shared(1)",
    "SELECT pg_read_file('/etc/passwd')",
    "SELECT mireseason.make_log('day_20990101')",
    "CREATE SCHEMA other",
    "CREATE TEMP TABLE other (x INT)",
    "SELECT * FROM take_over('reader')",
    "COPY entry TO PROGRAM 'true'",
    "SELECT pg_current_xact_id()",
    "SELECT txid_current()",
    "SELECT pg_notify('x', 'y')",
    "SET temp_file_limit = -1",
    "SET temp_file_limit = '1TB'",
    "SELECT pg_create_physical_replication_slot('x', true)",
]


def refused(connection: str, *statements: str) -> None:
    """The last of some statements is refused, by who may do it or by its name."""
    found = said(connection, *statements)
    because = any(
        words in found.stderr for words in ("permission denied", "must be", "no log is called")
    )
    assert found.returncode != 0 and because, (statements[-1], found.stdout, found.stderr)


def test_what_the_gateways_role_may_not(written: Owned) -> None:
    for statement in GATEWAY_MAY_NOT:
        refused(written.of("gateway"), "SET search_path TO " + written.schema, statement)


def test_what_a_reader_may_not(written: Owned) -> None:
    """Also where it takes away what it is told to begin with: that it only reads."""
    writes = "SET default_transaction_read_only = off"
    for statement in READER_MAY_NOT:
        refused(written.of("reader"), writes, "SET search_path TO " + written.schema, statement)


def test_limits_of_a_reader(written: Owned) -> None:
    shown = said(
        written.of("reader"),
        "SHOW statement_timeout",
        "SHOW lock_timeout",
        "SHOW idle_in_transaction_session_timeout",
        "SHOW default_transaction_read_only",
        "SHOW temp_file_limit",
    )
    assert shown.stdout.split() == ["10min", "5s", "10min", "on", "100MB"]
    limit = said(written.superuser, "SELECT rolconnlimit FROM pg_roles WHERE rolname = 'reader'")
    assert limit.stdout.strip() == "5"


def test_a_function_of_anothers(written: Owned, make_gateway: MakeGateway) -> None:
    """Whoever may has replaced the function by which one gateway writes at a time: none starts."""
    speak = "CREATE OR REPLACE FUNCTION %s.speak(mine INTEGER) RETURNS VOID LANGUAGE sql AS ''"
    assert said(written.superuser, speak % written.schema).returncode == 0
    door = make_gateway(
        [DEALER, OTHER], [INVESTOR], log=PostgresLog(written.of("gateway"), written.schema)
    )
    door.write()
    door.start()
    assert door.wait_end() == 1
    told = "%s is not as gateways make it: function speak(mine integer) is another" % written.schema
    assert told in door.last_words(), door.last_words()


def test_a_lock_that_is_held_keeps_no_day(owned: Owned, make_gateway: MakeGateway) -> None:
    """The lock that gateways once took, held by the superuser himself: the day begins all the same."""
    words = ["psql", "-X", "-q", "-A", "-t", "-d", owned.superuser]
    with subprocess.Popen(
        words, stdin=subprocess.PIPE, stdout=subprocess.PIPE, text=True
    ) as holder:
        assert holder.stdin is not None and holder.stdout is not None
        holder.stdin.write(
            "SELECT pg_advisory_lock(hashtext('mireseason %s'));\n\\echo held\n" % owned.schema
        )
        holder.stdin.flush()
        while holder.stdout.readline().strip() != "held":
            pass
        door = make_gateway(
            [DEALER, OTHER], [INVESTOR], log=PostgresLog(owned.of("gateway"), owned.schema)
        )
        door.write()
        door.start()
        door.wait_open()
        assert door.stop() == 0, door.last_words()
        holder.stdin.close()
