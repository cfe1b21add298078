"""Reads the day's log from PostgreSQL, in the form of the gateway's own tests."""

from tests.gateway.ledger import Entry, Ledger
from tests.lab.database import DatabaseHost
from tests.lab.machine import Machine
from tests.lab.run import found_in

# Seconds in which hosts are as they were. On a machine that is busy a fail-over takes minutes,
# also one that nobody asked for.
PATIENCE = 420.0


def rows(machine: Machine, query: str) -> list[list[str]]:
    """What the primary answers, which may be another one in the middle of a question."""

    def look() -> str | None:
        database = machine.cluster.primary()
        return database.asked(query, limit=60) if database else None

    text = found_in("a primary answers: %s" % query, PATIENCE, look)
    return [line.split("|") for line in text.splitlines()]


def primary(machine: Machine) -> DatabaseHost:
    """The primary, which may still have to come."""
    return found_in("there is a primary", PATIENCE, machine.cluster.primary)


def read_ledger(machine: Machine, schema: str) -> Ledger:
    entries = tuple(
        Entry(int(place), firm or None, int(number) if number else None, bytes.fromhex(line))
        for place, firm, number, line in rows(
            machine,
            "SELECT place, firm, number, encode(line, 'hex') FROM %s.entry ORDER BY place" % schema,
        )
    )
    sent: dict[str, list[tuple[int, bytes]]] = {}
    for firm, number, data in rows(
        machine,
        "SELECT firm, number, encode(bytes, 'hex') " "FROM %s.sent ORDER BY firm, number" % schema,
    ):
        sent.setdefault(firm, []).append((int(number), bytes.fromhex(data)))
    return Ledger(entries, sent, ())


def last_place(machine: Machine, schema: str) -> int:
    return int(rows(machine, "SELECT max(place) FROM %s.entry" % schema)[0][0])


def terms(machine: Machine, schema: str) -> int:
    return int(rows(machine, "SELECT term FROM %s.speaker" % schema)[0][0])
