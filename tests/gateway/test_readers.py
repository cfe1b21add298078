"""Supervisors read the logs in PostgreSQL: how the server for readers lets them in, and how much one of them can use up. The
servers are real: a primary that waits for a synchronous standby, and a standby for readers that no commit waits for."""

import os
import re
import signal
import subprocess
import tempfile
from collections.abc import Iterator
from contextlib import ExitStack, contextmanager
from dataclasses import dataclass, field, replace
from datetime import timedelta
from pathlib import Path

import pytest
from mireseason_keeper.database import Database
from parts.certificates import make_certificates, make_reader
from parts.site import Folders

from tests.admin.test_orders import quoted
from tests.gateway.door import Door, Port, today
from tests.gateway.firm import Identity
from tests.gateway.ledger import PostgresLog
from tests.gateway.stage import DEALER, INVESTOR
from tests.gateway.test_second_attack import asked, hit
from tests.gateway.wait import LONG, until
from tests.gateway.wire import Wire
from tests.harness import postgres
from tests.harness.fixtures import MakeGateway
from tests.operating.owned_logs import SITE, OwnedLogs, said

READER = "read1"
PARTS = replace(SITE, network="127.0.0.0/8", readers={READER: "127.0.0.1"})
FOLDERS = Folders("/etc", "/var", "/run", "/tls", "/tls")
ROLES = "%s,gateway,keeper" % postgres.USER  # who is let in by a server's own socket
LOCAL = "local all %s trust\nlocal replication all trust\n" % ROLES
FAST = ["-c", "fsync=off", "-c", "listen_addresses="]
LIMIT = 5  # connections of the role


def patroni(host: str) -> str:
    """The configuration of a server, as configure.py writes it."""
    return PARTS.files(host, FOLDERS)["patroni.yml"]


def doors_of(text: str) -> list[str]:
    """The lines of pg_hba.conf that stand there."""
    return re.findall("^    - (.*)$", text.split("\n  pg_hba:\n")[1], re.M)


@dataclass
class Servers:
    """A primary, its synchronous standby, and a standby for readers with what configure.py writes for one."""

    place: Path
    programs: Path
    port: int
    started: dict[str, "subprocess.Popen[bytes]"] = field(default_factory=dict)

    def at(self, name: str, role: str, more: str = "") -> str:
        """A connection string by the server's own socket."""
        port = self.port if name == READER else 5432
        place = self.place / name
        return "host=%s port=%d user=%s dbname=mireseason %s" % (place, port, role, more)

    def by_tls(self, certificate: str = "") -> str:
        """One of a reader from elsewhere, with a certificate or without."""
        folder = self.place / "certificates"
        text = "host=localhost hostaddr=127.0.0.1 port=%d user=reader dbname=mireseason" % self.port
        text += " sslmode=verify-full sslrootcert=%s" % (folder / "authority.pem")
        if certificate:
            text += " sslcert=%s.pem sslkey=%s.key" % ((folder / certificate,) * 2)
        return text

    def run(self, *words: str | Path) -> None:
        command = postgres.as_postgres([str(word) for word in words])
        done = subprocess.run(command, cwd="/", capture_output=True, timeout=LONG, check=False)
        assert done.returncode == 0, (words, done.stderr.decode())

    def start(self, name: str, *words: str) -> None:
        folder = self.place / name
        command = [self.programs / "postgres", "-D", folder / "data", "-k", folder, *FAST, *words]
        with (folder / "log").open("ab") as log:
            self.started[name] = subprocess.Popen(
                postgres.as_postgres([str(word) for word in command]),
                cwd="/",
                stdin=subprocess.DEVNULL,
                stdout=log,
                stderr=log,
            )
        until("%s answers" % name, LONG, lambda: self.answers(name))

    def answers(self, name: str) -> bool:
        assert self.started[name].poll() is None, (self.place / name / "log").read_text()[-2000:]
        base = self.at(name, postgres.USER).replace("dbname=mireseason", "dbname=postgres")
        return said(base, "SELECT 1").returncode == 0

    def make_folder(self, name: str) -> Path:
        folder = self.place / name
        folder.mkdir()
        folder.chmod(0o755)
        if os.geteuid() == 0:
            subprocess.run(["chown", "postgres", folder], check=True)
        return folder

    def make_primary(self) -> None:
        folder = self.make_folder("primary")
        self.run(
            self.programs / "initdb",
            "-D",
            folder / "data",
            "-A",
            "trust",
            "-U",
            postgres.USER,
            "-N",
        )
        (folder / "data" / "pg_hba.conf").write_text(LOCAL)
        self.start("primary", "-c", "max_connections=60")
        base = self.at("primary", postgres.USER).replace("dbname=mireseason", "dbname=postgres")
        assert said(base, "CREATE DATABASE mireseason").returncode == 0

    def make_standby(self, name: str, *words: str) -> None:
        folder = self.make_folder(name)
        source = self.at("primary", postgres.USER, "application_name=" + name)
        source = source.replace("dbname=mireseason ", "")
        self.run(
            self.programs / "pg_basebackup",
            *("-D", folder / "data", "-d", source, "-R", "-c", "fast", "-N"),
        )
        self.start(name, "-c", "max_connections=60", *words)

    def make_reader(self) -> None:
        """Its doors, and its settings, are those of patroni.yml for such a host."""
        text = patroni(READER)
        folder = self.place / "certificates"
        make_certificates(PARTS.hosts, folder)
        make_reader(folder)
        both = (folder / "authority.pem").read_text() + (folder / "readers.pem").read_text()
        (folder / "authorities.pem").write_text(both)
        own = self.place / "tls"
        own.mkdir()
        for name, target in ((READER + ".pem", "host.pem"), (READER + ".key", "host.key")):
            (own / target).write_bytes((folder / name).read_bytes())
            (own / target).chmod(0o600)
        (own / "authorities.pem").write_text(both)
        if os.geteuid() == 0:
            subprocess.run(["chown", "-R", "postgres", own], check=True)
        settings = dict(
            re.findall('^    (\\w+): "(.*)"$', text.rsplit("\n  parameters:\n")[1], re.M)
        )
        settings.pop("unix_socket_directories")
        words = ["-c", "listen_addresses=127.0.0.1", "-p", str(self.port)]
        for key, value in settings.items():
            words += ["-c", "%s=%s" % (key, value.replace("/tls/", "%s/" % own))]
        self.make_standby(READER, *words)
        doors = LOCAL + "\n".join(doors_of(text)[1:]) + "\n"
        file = self.place / READER / "data" / "pg_hba.conf"
        file.write_text(doors)
        self.started[READER].send_signal(signal.SIGHUP)

    def close(self) -> None:
        for process in self.started.values():
            process.send_signal(signal.SIGCONT)
            process.send_signal(signal.SIGQUIT)
            process.wait(LONG)


@pytest.fixture(scope="module")
def servers() -> Iterator[Servers]:
    """All three, with the roles and rights that database.sql makes."""
    programs = postgres.programs()
    assert programs is not None, "there is no PostgreSQL server"
    with tempfile.TemporaryDirectory(prefix="mrt") as folder:
        place = Path(folder)
        place.chmod(0o755)
        port = Port()  # until the servers are ended: they are ended and started
        made = Servers(place, programs, port.number)
        try:
            made.make_primary()
            OwnedLogs(made.at("primary", postgres.USER), place).make()
            made.make_standby("second")
            made.make_reader()
            on_primary(made, "ALTER SYSTEM SET synchronous_standby_names = 'second'")
            on_primary(made, "SELECT pg_reload_conf()")
            yield made
        finally:
            made.close()
            port.close()


def on_primary(servers: Servers, *statements: str) -> str:
    done = said(servers.at("primary", postgres.USER), *statements)
    assert done.returncode == 0, done.stderr
    return done.stdout.strip()


def replayed(servers: Servers) -> None:
    """The server for readers has all that the primary has."""
    place = on_primary(servers, "SELECT pg_current_wal_lsn()")
    ask = "SELECT pg_last_wal_replay_lsn() >= '%s'" % place
    at = servers.at(READER, postgres.USER)
    until("it has all", LONG, lambda: said(at, ask).stdout.strip() == "t")


def test_how_a_reader_is_let_in(servers: Servers) -> None:
    """By a certificate of the readers' authority, and by nothing else: no password, no host's certificate, and not at the primary."""
    on_primary(servers, "ALTER ROLE reader PASSWORD 'guessed'")
    replayed(servers)
    found = said(servers.by_tls("reader"), "SELECT current_user")
    assert found.stdout.strip() == "reader", found.stderr
    for certificate in ("", "db1"):
        found = said(servers.by_tls(certificate) + " password=guessed", "SELECT 1")
        assert found.returncode != 0 and "SELECT" not in found.stdout, certificate
    assert "no pg_hba.conf entry" in said(servers.at("primary", "reader"), "SELECT 1").stderr
    for host in SITE.databases:
        doors = doors_of(patroni(host))
        assert len(doors) == 5 and not any(" reader " in door for door in doors), doors
    assert "\ntags: {nofailover: true, nosync: true," in patroni(READER)


SORT = "SELECT count(*) FROM (SELECT repeat(n::text, 100) AS t FROM generate_series(1, 400000) AS n ORDER BY t) AS s"
# What a reader tries to use up, and what the server for readers says of it.
USES_UP = {
    "the disk, by temporary files": (SORT, "temporary file size exceeds temp_file_limit"),
    "the same without a limit": ("SET temp_file_limit = -1", "permission denied"),
    "the disk, by temporary tables": ("CREATE TEMP TABLE x (n INT)", "in a read-only transaction"),
    "the disk, by large objects": ("SELECT lo_create(0)", "permission denied"),
    "numbers of transactions": ("SELECT pg_current_xact_id()", "permission denied"),
    "the same by its old name": ("SELECT txid_current()", "permission denied"),
    "the queue of notices": ("SELECT pg_notify('x', 'y')", "permission denied"),
    "the same by a command": ("NOTIFY x", "cannot execute NOTIFY during recovery"),
    "who reads that queue": ("LISTEN x", "cannot execute LISTEN during recovery"),
    "locks by a number": ("SELECT pg_advisory_lock(1)", "permission denied"),
    "locks of rows": ("SELECT * FROM LOG.speaker FOR SHARE", "cannot execute SELECT FOR SHARE"),
    "locks of tables": ("BEGIN; LOCK LOG.entry IN SHARE MODE", "during recovery"),
    "slots of WAL": ("SELECT pg_create_physical_replication_slot('x', true)", "must be superuser"),
    "the same, decoded": (
        "SELECT pg_create_logical_replication_slot('x', 'test_decoding')",
        "must be superuser",
    ),
    "its own password": ("ALTER ROLE reader PASSWORD 'x'", "cannot execute ALTER ROLE"),
    "its own defaults": ("ALTER ROLE reader SET work_mem = '1GB'", "cannot execute ALTER ROLE"),
    "two-phase transactions": ("BEGIN; PREPARE TRANSACTION 'x'", "during recovery"),
}


@pytest.fixture(scope="module")
def log(servers: Servers) -> str:
    """A day's tables."""
    name = "day_20990101"
    said(servers.at("primary", "keeper"), "SELECT mireseason.make_log('%s')" % name)
    replayed(servers)
    return name


@pytest.mark.parametrize("what", USES_UP)
def test_what_a_reader_may_not_use_up(servers: Servers, log: str, what: str) -> None:
    """Also where it takes away what it is told to begin with: that it only reads."""
    statement, because = USES_UP[what]
    own = "SET default_transaction_read_only = off"
    found = said(servers.by_tls("reader"), own, statement.replace("LOG", log))
    assert found.returncode != 0 and because in found.stderr, (found.stdout, found.stderr)


@contextmanager
def session(connection: str, *statements: str) -> Iterator["subprocess.Popen[str]"]:
    """One that has said these, and is still there."""
    words = ["psql", "-X", "-q", "-A", "-t", "-v", "ON_ERROR_STOP=1", "-d", connection]
    pipes = {"stdin": subprocess.PIPE, "stdout": subprocess.PIPE, "stderr": subprocess.STDOUT}
    with subprocess.Popen(words, text=True, **pipes) as held:  # type: ignore[call-overload]
        assert held.stdin is not None and held.stdout is not None
        held.stdin.write("".join(each + ";\n" for each in statements) + "\\echo held\n")
        held.stdin.flush()
        for line in held.stdout:
            if line.strip() == "held":
                break
        yield held
        held.stdin.close()


def test_connections(servers: Servers) -> None:
    """Readers have five between them, and the keeper is let in all the same."""
    with ExitStack() as stack:
        for _ in range(LIMIT):
            stack.enter_context(session(servers.by_tls("reader"), "SELECT 1"))
        found = said(servers.by_tls("reader"), "SELECT 1")
        assert "too many connections for role" in found.stderr, found
        assert said(servers.at(READER, "keeper"), "SELECT 1").returncode == 0


@pytest.mark.parametrize("last", ["SELECT pg_sleep(3600)", "BEGIN; SELECT count(*) FROM LOG.entry"])
def test_a_reader_that_stays(servers: Servers, log: str, last: str) -> None:
    """It takes its own limits of time away; the keeper ends it, whether it computes or waits in a transaction, and no other."""
    free = "SET statement_timeout = 0", "SET idle_in_transaction_session_timeout = 0"
    reader, keeper = servers.by_tls("reader"), Database(servers.at(READER, "keeper"))
    with session(reader, "SELECT 1") as idle, session(reader, *free) as held:
        assert held.stdin is not None and idle.stdin is not None and idle.stdout is not None
        held.stdin.write(last.replace("LOG", log) + ";\n")
        held.stdin.flush()
        assert keeper.end_long("reader", timedelta(minutes=10)) == 0
        ended = 0

        def is_ended() -> bool:
            nonlocal ended
            ended += keeper.end_long("reader", timedelta(milliseconds=500))
            return ended > 0

        until("it is ended", LONG, is_ended)
        assert ended == 1
        idle.stdin.write("SELECT 'there';\n")
        idle.stdin.flush()
        assert idle.stdout.readline().strip() == "there"


def logged_on(door: Door, who: Identity) -> Wire:
    """A session that has answered the TestRequest after its Logon."""
    wire = Wire(door.port)
    assert wire.logon(who.name.encode(), who.password.encode())
    wire.got(b"A")
    wire.got(b"1")
    wire.ask()
    return wire


def trade(dealer: Wire, investor: Wire, nth: bytes) -> None:
    """A request, a quote and a hit, each of which has to be committed."""
    asked(dealer, investor, b"A" + nth)
    quoted(dealer, b"q" + nth, b"R" + nth)
    quote = investor.got(b"S").given(117)
    assert hit(investor, b"h" + nth, quote).value(297) == b"0"


@contextmanager
def stopped(servers: Servers, name: str) -> Iterator[None]:
    """All processes of a server stand still."""
    number = servers.started[name].pid
    children = Path("/proc/%d/task/%d/children" % (number, number)).read_text().split()
    for each in (number, *map(int, children)):
        os.kill(each, signal.SIGSTOP)
    try:
        yield
    finally:
        for each in (number, *map(int, children)):
            try:
                os.kill(each, signal.SIGCONT)
            except ProcessLookupError:
                pass


def test_no_commit_waits_for_a_reader(servers: Servers, make_gateway: MakeGateway) -> None:
    """Firms trade while a reader holds a table of the day, a lock that the server for readers can't go on behind, and while all of
    that server stands still. While the synchronous standby does, they don't."""
    schema = "day_" + today()
    log = PostgresLog(servers.at("primary", "gateway"), schema)
    door = make_gateway([DEALER], [INVESTOR], log=log)
    door.write()
    door.start()
    door.wait_open()
    replayed(servers)
    hold = "BEGIN", "SELECT count(*) FROM %s.entry" % schema
    with logged_on(door, DEALER) as dealer, logged_on(door, INVESTOR) as investor:
        trade(dealer, investor, b"1")
        with session(servers.by_tls("reader"), *hold):
            on_primary(servers, "CREATE INDEX held ON %s.entry (moment)" % schema)
            trade(dealer, investor, b"2")
        with stopped(servers, READER):
            trade(dealer, investor, b"3")
        with stopped(servers, "second"):
            assert investor.raw(investor.message(b"1", investor.name, [(112, b"waits")]))
            assert investor.read_kind(b"0", limit=1.0) is None, "an answer leaves without a standby"
        assert investor.read_kind(b"0") is not None
    on_primary(servers, "DROP INDEX %s.held" % schema)
    assert door.stop() == 0, door.last_words()
