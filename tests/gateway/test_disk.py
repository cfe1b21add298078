"""The disk under the log: full at a commit, and cut back to what was synced."""

import random
import shutil
import sqlite3
from collections.abc import Callable
from dataclasses import dataclass
from pathlib import Path

import pytest

from tests.gateway.firm import Received
from tests.gateway.ledger import NOTES, Ledger, marks, read_ledger, rows
from tests.gateway.market import Act, Market
from tests.gateway.noted import Noted, noted
from tests.gateway.settle import settled, wait_all_on
from tests.gateway.stage import DEALER, Stage, check
from tests.gateway.wait import LONG, until, within
from tests.gateway.wire import Wire

MESSAGES = 60  # of a short day
FULL_AT = [1, 2, 3, 4, 5, 6, 7, 8, 9, 10, 12, 14, 17, 20, 25, 30, 40, 50]
QUICK_FULL_AT = [2, 6, 14, 30]  # those of the short form
CUTS = 12  # of power, in a day of three times as many messages
ANSWERED = 2.0  # seconds in which a message is answered as a rule: so most commits are of one alone
SLOW = "4"  # milliseconds that a sync takes longer: a message that did not wait for it comes before its end


def shim(stage: Stage, **values: str) -> dict[str, str]:
    return {"LD_PRELOAD": str(stage.tools.shim), **values}


def traded(stage: Stage, seed: int, goes_on: Callable[[], bool]) -> None:
    """Firms send what the market draws; each waits a little for an answer."""
    market = Market(seed, [stage.dealer, stage.other], [stage.investor])
    for count in range(MESSAGES):
        if not goes_on():
            return
        market.look()
        send(market.next(), "t%d" % count)


def send(act: Act, name: str, wait: float = ANSWERED) -> None:
    before = len(act.firm.received)
    act.firm.send(name, act.kind, act.fields)
    act.firm.wait_sent(name)
    within(wait, lambda: len(act.firm.looked()) > before)


# ---------------------------------------------------------------- full


@pytest.mark.parametrize(
    "at",
    [pytest.param(at, marks=() if at in QUICK_FULL_AT else pytest.mark.long) for at in FULL_AT],
)
def test_full_disk_at_commit(stage: Stage, at: int) -> None:
    """From the commit `at` on nothing can be written: the gateway ends and says so, and with room again nothing was lost."""
    stage.door.write()
    stage.door.environment = shim(stage, DISK_FULL=str(at))
    stage.door.start()
    for firm in stage.firms:
        firm.start()
    traded(stage, at, lambda: not stage.door.has_ended())
    check(
        stage.door.wait_end() == 1,
        "the gateway ended with status %s" % stage.door.running.returncode,
    )
    check(
        "full" in stage.door.last_words() or "disk" in stage.door.last_words(),
        "it does not say why: %s" % stage.door.last_words(),
    )
    stage.door.environment = {}
    stage.door.start()
    faults = settled(stage.door, stage.firms)
    check(not faults, "; ".join(faults[:3]))


def wait_for_checkpoint(stage: Stage) -> None:
    """For some seconds from then on nothing is committed that no firm sends."""

    def count() -> object:
        return rows(stage.door.database, "SELECT count(*) FROM checkpoint")

    before = count()
    until("a checkpoint is committed", LONG, lambda: count() != before)


def test_answers_of_a_commit_that_fails(stage: Stage) -> None:
    """The venue answers a quote while it is committed, and the commit fails after a second: nobody has heard of it then."""
    broken = stage.folder / "broken"
    stage.door.write()
    stage.door.environment = shim(stage, DISK_SLOW_IN=str(broken), DISK_BROKEN=str(broken))
    stage.door.start()
    for firm in stage.firms:
        firm.start()
    wait_all_on(stage.door, stage.firms)
    request, name = stage.ask(dealers=[stage.dealer]), stage.name("q")
    wait_for_checkpoint(stage)
    broken.write_text("1000")  # milliseconds, in which the venue has answered
    stage.say(stage.dealer, "S", stage.quote_fields(request, name))
    status = stage.door.wait_end()
    check(status == 1, "the gateway ended with status %s" % status)
    for firm in stage.firms:
        until("%s has all that was sent" % firm.name, LONG, lambda: not firm.logged_on())
        told = [each.raw for each in firm.looked() if each.kind == b"S" or each.value(117) == name]
        check(not told, "%s was told of a quote that is not in the log: %r" % (firm.name, told))
    broken.unlink()
    stage.door.start()
    faults = settled(stage.door, stage.firms)
    check(not faults, "; ".join(faults[:3]))
    check(
        any(each.value(117) == name for each in stage.dealer.looked()),
        "the quote is never answered",
    )


# ---------------------------------------------------------------- cut back


@dataclass(frozen=True)
class Sync:
    number: int
    kind: str
    ended: int


def syncs_of(folder: Path) -> list[Sync]:
    found, file = [], folder / "syncs"
    for line in file.read_text().splitlines() if file.exists() else []:
        number, kind, _, ended = line.split()
        found.append(Sync(int(number), kind, int(ended)))
    return sorted(found, key=lambda sync: sync.number)


def test_cut_back(stage: Stage) -> None:
    """At every commit: each message that a firm had is in the answers of the log that a cut of power leaves."""
    copies = stage.folder / "copies"
    copies.mkdir()
    stage.door.environment = shim(stage, DISK_COPIES=str(copies), DISK_SLOW=SLOW)
    stage.open(*stage.firms)
    traded(stage, 7, lambda: True)
    faults = settled(stage.door, stage.firms)
    check(not faults, "; ".join(faults[:3]))
    tried = cuts(stage, copies)
    check(tried > MESSAGES / 2, "%d cuts alone were tried" % tried)


def cuts(stage: Stage, copies: Path) -> int:
    """Tries each cut; how many there were."""
    final, all_syncs, state, tried = stage.door.ledger(), syncs_of(copies), {}, 0
    counts = [mark.given for mark in marks(list(stage.door.programs.venue), final.day())]
    ends = [sync.ended for sync in all_syncs[1:]] + [2**63]
    for sync, end in zip(all_syncs, ends):
        state[sync.kind] = copies / ("%d.%s" % (sync.number, sync.kind))
        known = {
            firm.name: [message for message in firm.received if message.moment < end]
            for firm in stage.firms
        }
        database = left(stage.folder / "left", state)
        if database is None:
            check(not any(known.values()), "a firm was sent something before there was a log")
            continue
        tried += 1
        cut(sync, database, final, counts, known)
    return tried


def left(folder: Path, state: dict[str, Path]) -> Path | None:
    """The database as it is left by a cut, if it has its tables. A file that was never synced is empty."""
    shutil.rmtree(folder, ignore_errors=True)
    folder.mkdir()
    for kind, name in (("db", "day.db"), ("wal", "day.db-wal")):
        (folder / name).write_bytes(state[kind].read_bytes() if kind in state else b"")
    connection = sqlite3.connect(folder / "day.db")
    tables = connection.execute(
        "SELECT count(*) FROM sqlite_master WHERE name IN ('entry', 'sent', 'seal')"
    ).fetchone()[0]
    check(
        connection.execute("PRAGMA integrity_check").fetchone()[0] == "ok",
        "the database that is left is broken",
    )
    connection.close()
    return folder / "day.db" if tables == 3 else None


def cut(
    sync: Sync,
    database: Path,
    final: Ledger,
    counts: list[dict[str, int]],
    known: dict[str, list[Received]],
) -> None:
    ledger = read_ledger(database)
    places = len(ledger.entries)
    check(
        ledger.entries == final.entries[:places],
        "sync %d: the log that is left is no beginning of the log" % sync.number,
    )
    numbers = {name: Numbers(database, name) for name in known}
    for name, messages in known.items():
        for message in messages:
            given = counts[places - 1].get(name, 0) if places else 0
            check(
                message.venue_number <= given,
                "sync %d: %s had %d, and the log that is left gives %d"
                % (sync.number, name, message.venue_number, given),
            )
            number = numbers[name].of(message.venue_number)
            check(
                number == message.session_number,
                "sync %d: %s had %d under the session's %d, and would get it under %d"
                % (sync.number, name, message.venue_number, message.session_number, number),
            )


class Numbers:
    """Under which number of a session the store that is left sends each message of the venue: those that it lacks come
    after all that it has, in their order, since nothing of the session itself is sent before it is synced.
    """

    def __init__(self, database: Path, firm: str) -> None:
        session = noted(notes for notes, in rows(database, NOTES)).get(firm, Noted())
        self.known, self.next, self.given = session.numbers, session.next, session.given

    def of(self, venue_number: int) -> int:
        return self.known.get(venue_number, self.next + venue_number - self.given - 1)


def test_power_cuts(stage: Stage) -> None:
    """Power is cut again and again: the gateway is gone, its files are as they were synced, and the firms are where they are."""
    stage.door.write()
    started_on_copies(stage, 0)
    for firm in stage.firms:
        firm.start()
    wait_all_on(stage.door, stage.firms)
    draw = random.Random(3)
    places = set(draw.sample(range(MESSAGES * 3), CUTS))
    market = Market(11, [stage.dealer, stage.other], [stage.investor])
    for count in range(MESSAGES * 3):
        market.look()
        act, wait = market.next(), draw.random() < 0.5
        send(act, "t%d" % count, 0.1 if wait else 0.0)
        if count in places:
            cut_power(stage, count)
    faults = settled(stage.door, stage.firms)
    check(not faults, "; ".join(faults[:3]))


def started_on_copies(stage: Stage, number: int) -> None:
    folder = stage.folder / ("copies%d" % number)
    folder.mkdir()
    stage.door.environment = shim(stage, DISK_COPIES=str(folder), DISK_SLOW="1")
    stage.door.start()


def cut_power(stage: Stage, number: int) -> None:
    """Ends the gateway, leaves what it had synced, and starts it on that."""
    copies = Path(stage.door.environment["DISK_COPIES"])
    stage.door.kill()
    state = {"db": stage.folder / "synced.db", "wal": stage.folder / "synced.wal"}
    for sync in syncs_of(copies):
        shutil.copy(copies / ("%d.%s" % (sync.number, sync.kind)), state[sync.kind])
    for kind, name in (("db", "day.db"), ("wal", "day.db-wal")):
        (stage.folder / name).write_bytes(state[kind].read_bytes() if state[kind].exists() else b"")
    (stage.folder / "day.db-shm").unlink(missing_ok=True)
    started_on_copies(stage, number + 1)
    wait_all_on(stage.door, stage.firms)


def test_slow_commits(stage: Stage) -> None:
    """Commits that take seconds: the operator is told of one while it is waited for, and that it came."""
    stage.door.write()
    stage.door.environment = shim(stage, DISK_SLOW="7000")
    stage.door.start()
    stage.door.wait_open()
    with Wire(stage.door.port) as wire:
        wire.logon(DEALER.name.encode(), DEALER.password.encode())
        until("it is told", LONG, lambda: b"log does not answer" in stage.door.told.read_bytes())
        until(
            "that it goes on is told",
            LONG,
            lambda: b"log answers again" in stage.door.told.read_bytes(),
        )
        check(wire.read_kind(b"A") is not None, "it is not logged on")
