"""Session notes of a log at rest: somebody who may write to its database, and has no key, moves, cuts or doubles them. No start
takes them, and once all is as it was, one does."""

import hashlib
from dataclasses import dataclass, replace

from tests.gateway.stage import Stage, check
from tests.gateway.test_copy import Day
from tests.gateway.test_seals import Intruder

NOT_ACCEPTED = 3  # a status: an operator has to decide


@dataclass(frozen=True)
class Seal:
    """A row of the table `seal`, in the order of its columns."""

    number: int
    term: int
    place: int
    event: int
    notes: bytes
    hash: bytes
    mac: bytes

    @property
    def lines(self) -> list[bytes]:
        """Its notes, each with its line feed."""
        return self.notes.splitlines(keepends=True)


def seals(intruder: Intruder) -> list[Seal]:
    """All that stand there."""
    columns = "number, term, place, event, HEX(notes), HEX(hash), HEX(mac)"
    rows = intruder.rows("SELECT %s FROM seal ORDER BY number" % columns)
    found = []
    for row in rows:
        number, term, place, event = map(int, row[:4])
        found.append(Seal(number, term, place, event, *map(bytes.fromhex, row[4:])))
    return found


def put(intruder: Intruder, rows: list[Seal]) -> None:
    """These in the place of all that stand there."""
    intruder.rows("DELETE FROM seal")
    for row in rows:
        numbers = "%d, %d, %d, %d" % (row.number, row.term, row.place, row.event)
        bytes_ = ", ".join(map(intruder.literal, (row.notes, row.hash, row.mac)))
        intruder.rows("INSERT INTO seal VALUES (%s, %s)" % (numbers, bytes_))


def hashed(rows: list[Seal]) -> list[Seal]:
    """With the running hash that their notes have: whoever has no key can make that right."""
    now, found = bytes(32), []
    for row in rows:
        for line in row.lines:
            now = hashlib.sha256(now.hex().encode() + b" " + line).digest()
        found.append(replace(row, hash=now))
    return found


def changes(rows: list[Seal]) -> dict[str, list[Seal]]:
    """What somebody does, each by itself."""

    def noted(notes: dict[int, bytes]) -> list[Seal]:
        return [replace(row, notes=notes.get(at, row.notes)) for at, row in enumerate(rows)]

    one, two = [at for at, row in enumerate(rows) if row.notes][-2:]
    first, second = rows[one], rows[two]
    line = second.lines[-1]
    whose, _, rest = line.partition(b" ")
    other = (b"INV1" if whose == b"DLR1" else b"DLR1") + b" " + rest
    without = rows[:one] + [replace(row, number=row.number - 1) for row in rows[two:]]
    exchanged = noted({one: second.notes, two: first.notes})
    return {
        "notes of two batches are exchanged": exchanged,
        "notes of two batches are exchanged, and hashed": hashed(exchanged),
        "notes stand a batch sooner": noted({one: first.notes + second.notes, two: b""}),
        "notes stand a batch later": noted({one: b"", two: first.notes + second.notes}),
        "a note is another firm's": hashed(noted({two: second.notes.replace(line, other)})),
        "a note is cut": hashed(noted({two: second.notes[: -len(line)]})),
        "a note is twice there": hashed(noted({two: second.notes + line})),
        "a line feed is cut": noted({two: second.notes[:-1]}),
        "a seal is twice there": [*rows, replace(rows[-1], number=rows[-1].number + 1)],
        "a seal is gone": hashed(without),
        "the last seal is gone": rows[:-1],
        "all seals are gone": [],
        "a seal is of another entry": [*rows[:-1], replace(rows[-1], place=rows[-1].place - 1)],
    }


def test_moved_notes(stage_of_log: Stage) -> None:
    """Each change ends the start."""
    stage = stage_of_log
    day = Day(stage)
    check(stage.door.stop() == 0, "the gateway does not end well")
    intruder = Intruder(stage.door)
    rows = seals(intruder)
    for what, others in changes(rows).items():
        check(others != rows, "%s: nothing is changed" % what)
        put(intruder, others)
        stage.door.start()
        status = stage.door.wait_end()
        check(status in (1, NOT_ACCEPTED), "%s: a start ends with %d" % (what, status))
        put(intruder, rows)
    stage.door.start()
    stage.door.wait_open()
    day.check("once all is undone")
