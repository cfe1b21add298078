"""What operators' acts change: a firm's limits, the clock, credentials. Each holds after a restart, and on another gateway."""

import re
import subprocess
import time
from collections.abc import Iterator
from concurrent.futures import ThreadPoolExecutor
from contextlib import contextmanager

import pytest

from tests.admin.operator import acts, admin, audit, did, firm_row, rows
from tests.admin.test_orders import quoted, request_fields
from tests.gateway.ledger import PostgresLog
from tests.gateway.market import BOND, moment_in
from tests.gateway.stage import DEALER, INVESTOR, Stage
from tests.gateway.test_second_attack import asked
from tests.gateway.wait import LONG, until
from tests.gateway.wire import Fields, Wire
from tests.harness.clock import Clock
from tests.limits.flood import cancel, logged_on, not_taken

USED_UP = b"0", b"this firm has sent all the bytes that it may send in a day"
CLOCK_SET = b"4", b"the clock of the venue was set"
MOST = 65536


def quote(name: bytes) -> Fields:
    return [(50, b"T1"), (117, name), (131, b"R1"), (48, BOND), (22, b"4"), (133, b"99.5")]


def refused(stage: Stage, number: int, name: bytes, why: tuple[bytes, bytes]) -> int:
    """A quote that is not taken, for this reason (380) in these words; the session's next number."""
    with logged_on(stage, DEALER, number=number) as wire:
        not_taken(wire, b"S", quote(name), *why)
        return wire.number


def taken(stage: Stage, number: int, name: bytes) -> int:
    """A quote that is accepted; the session's next number."""
    with logged_on(stage, DEALER, number=number) as wire:
        assert wire.raw(wire.message(b"S", wire.name, quote(name)))
        answer = wire.read_until(lambda message: message.value(117) == name)
        assert answer is not None and answer.value(297) == b"0", "a quote is answered %r" % answer
        return wire.number


def use_up(wire: Wire) -> None:
    """Sends cancels until the bytes of the firm's day are used up."""
    last = MOST // 200 - 1
    for at in range(last + 1):
        assert wire.raw(cancel(wire, wire.number, b"c%d" % at))
        wire.number += 1
    assert wire.read_until(lambda message: message.value(117) == b"c%d" % last) is not None


def started_again(stage: Stage) -> None:
    stage.door.kill()
    stage.door.start()
    stage.door.wait_open()


def test_a_limit_that_is_raised(stage_of_log: Stage) -> None:
    """A firm at the limit of its day quotes again once an operator has raised it, also after its gateway was killed and after the
    credentials were read again; and no more when that is taken back."""
    stage = stage_of_log
    stage.door.operators = ""
    stage.door.limits |= {"day_bytes": MOST}
    stage.open(stage.other, stage.investor)
    with logged_on(stage, DEALER) as wire:
        stage.ask_of([stage.dealer, stage.other])
        use_up(wire)
        number = wire.number
    number = refused(stage, number, b"q1", USED_UP)
    did(stage, "limit", "DLR1", "day_bytes=100000000", "--because", "agreed by phone")
    assert acts(stage)[-1].endswith(b' limit DLR1 day_bytes=100000000 because="agreed by phone"')
    number = taken(stage, number, b"q2")
    started_again(stage)
    assert firm_row(stage, "DLR1")["day_bytes_limit"] == 100_000_000
    did(stage, "reload")
    number = taken(stage, number, b"q3")
    assert {row["limit"]: row["value"] for row in rows(stage, "limit", "DLR1") if row["set"]} == {
        "day_bytes": 100_000_000
    }
    did(stage, "limit", "DLR1", "day_bytes=configured")
    refused(stage, number, b"q4", USED_UP)
    assert len(acts(stage)) == 3
    assert audit(stage, "check").status == 0, audit(stage, "check").text


def test_a_rate_that_is_changed(stage: Stage) -> None:
    """A rate that an operator has lowered is the firm's at once, and after a restart."""
    stage.door.operators = ""
    stage.open(stage.other)
    with logged_on(stage, DEALER) as wire:
        for key in ("messages_per_second=500", "messages_burst=500"):
            did(stage, "limit", "DLR1", key)
        began = time.monotonic()
        assert wire.raw(b"".join(cancel(wire, wire.number + at) for at in range(4000)))
        until("some are in the log", LONG, lambda: stage.entries_of(stage.dealer) > 0)
        seen = stage.entries_of(stage.dealer)
        allowed = (
            500 + 500 * (time.monotonic() - began) + 1000
        )  # what is read at once before anything is counted
        assert seen <= allowed, "%d entries, and %d are allowed" % (seen, allowed)
    started_again(stage)
    assert {row["limit"]: row["value"] for row in rows(stage, "limit", "DLR1") if row["set"]} == {
        "messages_per_second": 500,
        "messages_burst": 500,
    }
    assert not any(row["set"] for row in rows(stage, "limit", "DLR2"))


def limit_of(stage: Stage) -> int:
    """The dealer's, of the bytes of a day."""
    return int(firm_row(stage, "DLR1")["day_bytes_limit"])


class EntriesLock:
    """Whoever has it keeps anybody else from putting an entry into the log. They get it in the order in which they ask, and so do
    those who put entries."""

    def __init__(self, log: PostgresLog) -> None:
        words = ["psql", "-X", "-q", "-A", "-t", "-d", log.connection]
        self._psql = subprocess.Popen(
            words, stdin=subprocess.PIPE, stdout=subprocess.PIPE, text=True
        )
        self._say("BEGIN; LOCK TABLE %s.entry IN EXCLUSIVE MODE;\n\\echo held\n" % log.schema)

    def _say(self, text: str) -> None:
        assert self._psql.stdin is not None
        self._psql.stdin.write(text)
        self._psql.stdin.flush()

    def wait(self) -> None:
        assert self._psql.stdout is not None
        assert self._psql.stdout.readline().strip() == "held"

    def give_back(self) -> None:
        self._psql.communicate()


@contextmanager
def entries_locked(log: PostgresLog) -> Iterator[EntriesLock]:
    """Nobody puts an entry into the log meanwhile."""
    lock = EntriesLock(log)
    try:
        lock.wait()
        yield lock
    finally:
        lock.give_back()


def waiting_for_entries(log: PostgresLog) -> int:
    """How many sessions of the database wait for that lock, or wait to put an entry."""
    words = "SELECT count(*) FROM pg_locks WHERE NOT granted AND relation = '%s.entry'::regclass"
    command = ["psql", "-X", "-q", "-A", "-t", "-d", log.connection, "-c", words % log.schema]
    return int(subprocess.run(command, capture_output=True, text=True, check=True).stdout)


def begun(stage: Stage, count: int) -> None:
    """Waits until so many acts have begun."""
    until(
        "the act is begun",
        LONG,
        lambda: stage.door.told.read_bytes().count(b'operator act="') == count,
    )


def frames_behind(stage: Stage, act: bytes) -> list[bytes]:
    """What firms said that stands behind the last act with these words."""
    entries = stage.door.ledger().entries
    at = max(place for place, entry in enumerate(entries) if act in entry.line)
    return [entry.message for entry in entries[at:] if entry.number is not None]


@pytest.mark.parametrize("log_place", ["postgres"], indirect=True)
def test_an_act_that_is_not_committed(stage_of_log: Stage) -> None:
    """The log takes no entry: after five seconds the operator is told that the act is not committed. Until it is, nothing is set."""
    stage = stage_of_log
    stage.door.operators = ""
    stage.open()
    assert stage.postgres is not None
    with entries_locked(stage.postgres):
        said = admin(stage, "limit", "DLR1", "day_bytes=700000")
        assert said.status == 1 and "has not committed this act within 5 s" in said.err, said
        assert limit_of(stage) == 1 << 30
        assert acts(stage) == []
    until("it is set", LONG, lambda: limit_of(stage) == 700_000)
    assert len(acts(stage)) == 1


@pytest.mark.parametrize("log_place", ["postgres"], indirect=True)
@pytest.mark.parametrize("words", [("halt",), ("suspend", "DLR1")], ids=["halt", "suspend"])
def test_what_an_act_forbids_while_the_log_stalls(
    stage_of_log: Stage, words: tuple[str, ...]
) -> None:
    """An act that is not committed yet forbids already: what comes behind it in the log's order is no trade."""
    stage = stage_of_log
    stage.door.operators = ""
    stage.open()
    assert stage.postgres is not None
    with logged_on(stage, DEALER) as dealer, logged_on(stage, INVESTOR) as investor:
        asked(dealer, investor)
        quoted(dealer, b"q1")
        shown = investor.got(b"S").given(117)
        with entries_locked(stage.postgres), ThreadPoolExecutor() as pool:
            said = pool.submit(admin, stage, *words, "--because", "they asked")
            begun(stage, 1)
            if words[0] == "halt":
                fields: Fields = [(50, b"V1"), (693, b"h1"), (694, b"1"), (117, shown)]
                assert investor.raw(investor.message(b"AJ", investor.name, fields))
            else:
                assert dealer.raw(dealer.message(b"S", dealer.name, quote(b"q2")))
            assert "is not known" in said.result().err
        until("the act is committed", LONG, lambda: len(acts(stage)) == 1)
        if words[0] == "halt":
            answer = investor.got_until(lambda message: message.value(379) == b"h1")
            assert answer.kind == b"j", answer.raw
    entries = stage.door.ledger().entries
    at = next(place for place, entry in enumerate(entries) if entry.line.startswith(b"# act"))
    behind = [entry for entry in entries[at:] if entry.number is not None]
    assert not any(b"q2" in entry.message or b"h1" in entry.message for entry in behind), behind


@pytest.mark.parametrize("log_place", ["postgres"], indirect=True)
@pytest.mark.parametrize("words", [(), ("--bond", BOND.decode())], ids=["venue", "bond"])
def test_a_halt_behind_a_resume_while_the_log_stalls(
    stage_of_log: Stage, words: tuple[str, ...]
) -> None:
    """The venue is halted, and resumed; and halted again while the resume is not committed yet. Once that is, the second halt has
    its place in the log's order, and waits for its own commit: nothing that it forbids is taken."""
    stage = stage_of_log
    stage.door.operators = ""
    stage.open()
    assert stage.postgres is not None
    with logged_on(stage, DEALER) as dealer, logged_on(stage, INVESTOR) as investor:
        asked(dealer, investor)
        did(stage, "halt", *words, "--because", "rumours")
        with ThreadPoolExecutor() as pool, entries_locked(stage.postgres) as first:
            log = stage.postgres
            resumed = pool.submit(admin, stage, "resume", *words)
            until("the resume is put there", LONG, lambda: waiting_for_entries(log) == 1)
            second = EntriesLock(stage.postgres)
            try:
                until("the next one asks", LONG, lambda: waiting_for_entries(log) == 2)
                halted = pool.submit(admin, stage, "halt", *words, "--because", "more of them")
                begun(stage, 3)
                first.give_back()
                second.wait()
                resumed.result()
                assert dealer.raw(dealer.message(b"S", dealer.name, quote(b"q1")))
                answer = dealer.read_until(lambda message: message.value(379) == b"q1", limit=3)
                halted.result()  # done, or not known: that is of another test
            finally:
                second.give_back()
        until("it is committed", LONG, lambda: len(acts(stage)) == 3)
        assert not any(b"q1" in frame for frame in frames_behind(stage, b" halt "))
        answer = answer or dealer.got_until(lambda message: message.value(379) == b"q1")
        assert answer.kind == b"j", answer.raw
        did(stage, "resume", *words)
        assert dealer.raw(dealer.message(b"S", dealer.name, quote(b"q2")))
        assert dealer.got_until(lambda message: message.value(117) == b"q2").value(297) == b"0"


@pytest.mark.parametrize("log_place", ["postgres"], indirect=True)
def test_a_suspension_behind_a_resume_while_the_log_stalls(stage_of_log: Stage) -> None:
    """The same of a firm: where its suspension has its place behind the end of another, it may log on, and nothing that it begins
    is taken."""
    stage = stage_of_log
    stage.door.operators = ""
    stage.open()
    assert stage.postgres is not None
    with logged_on(stage, DEALER) as dealer, logged_on(stage, INVESTOR) as investor:
        asked(dealer, investor)
        number = dealer.number
        did(stage, "suspend", "DLR1", "--because", "they called")
        assert dealer.got(b"5")
        with ThreadPoolExecutor() as pool, entries_locked(stage.postgres) as first:
            log = stage.postgres
            resumed = pool.submit(admin, stage, "resume", "DLR1")
            until("the resume is put there", LONG, lambda: waiting_for_entries(log) == 1)
            second = EntriesLock(stage.postgres)
            try:
                until("the next one asks", LONG, lambda: waiting_for_entries(log) == 2)
                again = pool.submit(admin, stage, "suspend", "DLR1", "--because", "once more")
                begun(stage, 3)
                first.give_back()
                second.wait()
                resumed.result()
                with Wire(stage.door.port) as wire:
                    wire.number = number
                    wire.logon(b"DLR1", DEALER.password.encode())
                    wire.raw(wire.message(b"S", b"DLR1", quote(b"q1")))
                    again.result()
            finally:
                second.give_back()
        until("it is committed", LONG, lambda: len(acts(stage)) == 3)
        assert not any(b"q1" in frame for frame in frames_behind(stage, b" suspend "))
        assert firm_row(stage, "DLR1")["set"] == "suspended"


@pytest.mark.parametrize("log_place", ["postgres"], indirect=True)
def test_an_end_of_the_day_while_the_log_stalls(stage_of_log: Stage) -> None:
    """No new request stands behind the order in the log, though it is not committed yet; the day goes on until it is."""
    stage = stage_of_log
    stage.door.operators = ""
    stage.open()
    assert stage.postgres is not None
    with logged_on(stage, DEALER) as dealer, logged_on(stage, INVESTOR) as investor:
        asked(dealer, investor)
        with entries_locked(stage.postgres), ThreadPoolExecutor() as pool:
            said = pool.submit(admin, stage, "end-day", "--because", "a holiday")
            begun(stage, 1)
            fields = request_fields(b"A2", moment_in(600))
            assert investor.raw(investor.message(b"R", investor.name, fields))
            said.result()
        until("it is committed", LONG, lambda: len(acts(stage)) == 1)
        answer = investor.got_until(lambda message: message.value(379) == b"A2")
        assert answer.kind == b"j", answer.raw
        assert not any(b"A2" in frame for frame in frames_behind(stage, b" end-day "))


def test_a_clock_that_is_accepted(stage: Stage, clock: Clock) -> None:
    """After a step of the clock no quote is taken until an operator says so: a restart is no such word. After it quotes are taken,
    also after a restart. The log says that the clock was set."""
    stage.door.operators = ""
    stage.open(stage.other, stage.investor)
    with logged_on(stage, DEALER) as wire:
        stage.ask_of([stage.dealer, stage.other])
        assert wire.read_kind(b"R") is not None
        number = wire.number
    clock.set(-40)
    until("it is told", LONG, lambda: "clock was set by=-" in stage.door.told.read_text())
    number = refused(stage, number, b"q1", CLOCK_SET)
    assert rows(stage, "status")[0]["takes_business"] is False
    started_again(stage)
    assert rows(stage, "status")[0]["takes_business"] is False
    number = refused(stage, number, b"q2", CLOCK_SET)
    did(stage, "clock", "accept", "--because", "ntpd was wrong, and is right")
    assert rows(stage, "status")[0]["takes_business"] is True
    number = taken(stage, number, b"q3")
    started_again(stage)
    taken(stage, number, b"q4")
    assert admin(stage, "clock", "accept").status == 1
    steps = [
        entry.line
        for entry in stage.door.ledger().entries[1:]
        if entry.line.startswith(b"# clock ") and b" set -" in entry.line
    ]
    assert len(steps) == 1, steps
    microseconds = int(steps[0].rsplit(b" ", 1)[1])
    assert -40_100_000 < microseconds < -39_000_000, steps


def test_small_steps_of_the_clock_add_up(stage: Stage, clock: Clock) -> None:
    """Three steps of a second each: after the third no quote is taken, and after a restart neither. An operator's word counts for all
    of them, and the next step is one of a second."""
    stage.door.operators = ""
    stage.open(stage.other)

    def takes_business() -> bool:
        return bool(rows(stage, "status")[0]["takes_business"])

    for seconds in (1, 2, 3):
        assert takes_business()
        clock.set(seconds)
        until(
            "the step is told",
            LONG,
            lambda: stage.door.told.read_text().count("clock was set by=") == seconds,
        )
    until("no quote is taken", LONG, lambda: not takes_business())
    started_again(stage)
    assert not takes_business()
    did(stage, "clock", "accept", "--because", "ntpd was wrong, and is right")
    clock.set(4)
    until("it is told", LONG, lambda: stage.door.told.read_text().count("clock was set by=") == 4)
    assert takes_business()


@pytest.mark.parametrize("log_place", ["postgres"], indirect=True)
def test_steps_of_the_clock_while_the_log_stalls(stage_of_log: Stage, clock: Clock) -> None:
    """Three steps of a second each that the log has not taken yet: after the third no quote is taken, and none once it has taken
    them. An operator's word counts for all of them, and the next step is one of a second."""
    stage = stage_of_log
    stage.door.environment.update(clock.environment)
    stage.door.operators = ""
    stage.open(stage.other)
    assert stage.postgres is not None

    def takes_business() -> bool:
        return bool(rows(stage, "status")[0]["takes_business"])

    def told_of(seconds: int) -> None:
        clock.set(seconds)
        until(
            "the step is told",
            LONG,
            lambda: stage.door.told.read_text().count("clock was set by=") == seconds,
        )

    def steps() -> int:
        lines = [entry.line for entry in stage.door.ledger().entries]
        return sum(line.startswith(b"# clock ") and b" set " in line for line in lines)

    with entries_locked(stage.postgres):
        for seconds in (1, 2, 3):
            assert takes_business()
            told_of(seconds)
        until("no quote is taken", LONG, lambda: not takes_business())
        assert steps() == 0
    until("the log has them", LONG, lambda: steps() == 3)
    assert not takes_business()
    did(stage, "clock", "accept", "--because", "ntpd was wrong, and is right")
    assert takes_business()
    told_of(4)
    assert takes_business()


def test_samples_of_the_clock(stage: Stage) -> None:
    """Each start puts one before any session logs on; the record of orders has them."""
    stage.door.operators = ""
    stage.open(*stage.firms)
    stage.auction()
    stage.log_off(*stage.firms)
    started_again(stage)
    lines = [
        entry.line
        for entry in stage.door.ledger().entries[1:]
        if entry.line.startswith(b"# clock ")
    ]
    assert len(lines) >= 2 and all(
        line.split(b" ")[3] in (b"synchronised", b"unsynchronised") for line in lines
    ), lines
    assert stage.door.ledger().entries[1].line == lines[0]
    (stage.folder / "parties.toml").write_text("")
    out = stage.folder / "record"
    done = audit(
        stage, "record", str(out), "--rts24", "--parties", str(stage.folder / "parties.toml")
    )
    assert "clock: %d samples" % len(lines) in done.out, done.text
    assert len((out / "clock.csv").read_text().splitlines()) == 1 + len(lines)


def test_files_that_are_read_again(stage: Stage) -> None:
    """`reload` says whether that was done, or what is at fault; the act stands in the log either way."""
    stage.door.operators = ""
    stage.open(*stage.firms)
    did(stage, "reload", "--because", "as every Friday")
    file = stage.door.folder / "credentials.toml"
    right = file.read_text()
    file.write_text(right.replace("username", "usrname"))
    said = admin(stage, "reload")
    assert (
        said.status == 1 and "stay as they were" in said.err and "username is missing" in said.err
    ), said.text
    words = [act.split(b" ", 4)[4] for act in acts(stage)]
    assert words == [b'reload because="as every Friday"', b"reload", b"reload refused"]
    file.write_text(right.split("[DLR2]")[0] + "[INV1]" + right.split("[INV1]")[1])
    did(stage, "reload")
    until(
        "the other dealer is logged off",
        LONG,
        lambda: bool(firm_row(stage, "DLR2")["logged_on"] == ""),
    )
    assert firm_row(stage, "DLR1")["logged_on"]
    assert len(acts(stage)) == 4


def test_credentials_of_a_firm_of_tomorrow(stage: Stage) -> None:
    """A reload reads them too: a misspelled key is refused with its line, and what is right is told to count for nothing today."""
    stage.door.operators = ""
    stage.open(*stage.firms)
    file = stage.door.folder / "credentials.toml"
    right = file.read_text()
    hashed = re.findall('password = ("[^"]*")', right)[0]
    part = '[DLR9]\nusername = "DLR9"\n%s = ' + hashed + "\n"
    line = right.count("\n") + 3
    file.write_text(right + part % "pasword")
    said = admin(stage, "reload")
    assert said.status == 1 and "[DLR9] password is missing" in said.err, said.text
    file.write_text(right + part % "password" + 'adresses = ["192.0.2.7"]\n')
    said = admin(stage, "reload")
    assert said.status == 1, said.text
    assert (
        "credentials.toml: line %d: [DLR9] adresses is no key" % (line + 1) in said.err
    ), said.text
    file.write_text(right + part % "password")
    assert "DLR9 is no firm of today" in did(stage, "reload")
    assert all(firm.logged_on() for firm in stage.firms)


def test_acts_and_another_gateway(stage_of_log: Stage) -> None:
    """In PostgreSQL a second gateway follows. It takes no act; when it takes over, what was set is as it was."""
    stage = stage_of_log
    if stage.postgres is None:
        return  # a file of SQLite has one gateway
    stage.door.operators = ""
    stage.open(stage.other)
    second = stage.folder / "second.toml"
    text = (stage.folder / "gateway.toml").read_text()
    text = text.replace("admin.sock", "second.sock").replace(
        "port = %d\n" % stage.door.metrics, "port = 0\n"
    )
    second.write_text(text.replace('checkpoints = "checkpoints"', 'checkpoints = "checkpoints2"'))
    told = stage.folder / "second.told"
    with told.open("wb") as file:
        follows = subprocess.Popen([stage.door.programs.gateway, second], stdout=file, stderr=file)
    try:
        until("it stands by", LONG, lambda: "stands by" in told.read_text())
        # Without one it would not know whether the log was cut off.
        until(
            "it has a checkpoint of the other",
            LONG,
            lambda: any((stage.folder / "checkpoints2").glob("*.checkpoint")),
        )
        did(stage, "limit", "DLR1", "day_bytes=100000000")
        at = stage.folder / "second.sock"
        said = admin(stage, "limit", "DLR1", "day_bytes=200000000", at=at)
        assert said.status == 1 and "does not speak" in said.err, said.text
        stage.door.kill()
        until("it speaks", LONG, lambda: " ready " in told.read_text())
        row = next(row for row in rows(stage, "firms", at=at) if row["firm"] == "DLR1")
        assert row["set"] == "day_bytes=100000000", row
        assert len(acts(stage)) == 1
    finally:
        follows.kill()
        follows.wait()
