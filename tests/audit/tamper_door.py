"""Changes by hand who it was: the connections of messages, their receipts, and what happened to
connections.
"""

import hashlib

from tests.audit.tamper import ENTRIES, Change, Kind, Tamperer

EVENTS = (
    "SELECT place, term, moment, event, entry, number, firm, address, certificate, why, left_out"
    " FROM connection ORDER BY place"
)
Event = tuple[int, int, str, str, int, int | None, str | None, str, str | None, str | None, int]

# What the report has to have.
CHANGED_ROW = r"door: row %d: it was changed"
NOT_SEALED = r"door: its rows are not those that were sealed"


def event_hash(row: Event, before: bytes) -> bytes:
    """The hash of a row of `connection` as gateway/schema.sql has it."""
    place, term, moment, event, entry, number, firm, address, certificate, why, left_out = row
    texts = [event, address, certificate, why]
    parts = [before.hex(), place, term, moment, entry, number or "-", firm or "-", left_out]
    parts += ["-" if text is None else len(text.encode()) for text in texts]
    text = "".join(one or "" for one in texts)
    return hashlib.sha256((" ".join(map(str, parts)) + "\n" + text).encode()).digest()


def anew_connection(log: Tamperer) -> Change:
    """A message that came on another connection, on none, or on one that there is none of, and
    the chain made anew.
    """
    rows = [row for row in log.rows(ENTRIES) if row[4] is not None]
    row = log.draw.choice(rows)
    numbers = [number for number, in log.rows("SELECT DISTINCT number FROM connection")]
    others = [number for number in (*numbers, 999) if number != row[9]]
    other = log.draw.choice(others)
    log.do("UPDATE entry SET connection = ? WHERE place = ?", other, row[0])
    log.chain_anew(row[0])
    words = "no connection" if other is None else "connection %d" % other
    pattern = r"entries: entry %d: number %d of %s's session came on %s"
    what = "%s in entry %d, and the chain made anew" % (words, row[0])
    return Change(what, pattern % (row[0], row[4], row[3], words))


def anew_received(log: Tamperer) -> Change:
    """When an entry was received, and the chain made anew."""
    row = log.some_entry()
    text = log.draw.choice(["23:59:59.999999", "now", row[2]])
    log.do("UPDATE entry SET received = ? WHERE place = ?", text, row[0])
    log.chain_anew(row[0])
    pattern = r"entries: entry %d: it was received at %s, which is no time" % (row[0], text)
    if len(text) == 15:
        text = r"entries: entry %d: it was (?:received|made) at 23:59:59.999999, (?:after|and) its"
        pattern = text % row[0]
    return Change("when entry %d was received, and the chain made anew" % row[0], pattern)


def anew_earlier(log: Tamperer) -> Change:
    """A message that is said to be received before what came before it on its connection."""
    last: dict[int, str] = {}
    later = []
    for row in log.rows(ENTRIES):
        if row[9] in last and last[row[9]] > "08:00:00.000000":
            later.append(row)
        if row[9] is not None:
            last[row[9]] = row[8]
    row = log.draw.choice(later)
    log.do("UPDATE entry SET received = '08:00:00.000000' WHERE place = ?", row[0])
    log.chain_anew(row[0])
    pattern = r"entries: entry %d: it was received at 08:00:00.000000, and what came before"
    return Change("a receipt of entry %d that falls" % row[0], pattern % row[0])


def some_event(log: Tamperer, *events: str) -> Event:
    rows: list[Event] = log.rows(EVENTS)
    return log.draw.choice([row for row in rows if not events or row[3] in events])


def event_column(log: Tamperer) -> Change:
    row = some_event(log)
    column, value = log.draw.choice(
        [
            ("term", row[1] + 1),
            ("moment", "23:59:59.999999"),
            ("event", "refused" if row[3] != "refused" else "stranger"),
            ("entry", row[4] + 1),
            ("number", (row[5] or 0) + 1),
            ("firm", "NOBODY"),
            ("address", "203.0.113.9:1"),
            ("certificate", "NOBODY"),
            ("why", "nothing"),
            ("left_out", row[10] + 1),
        ]
    )
    log.do("UPDATE connection SET %s = ? WHERE place = ?" % column, value, row[0])
    return Change("%s of row %d of the door" % (column, row[0]), CHANGED_ROW % row[0])


def event_out(log: Tamperer) -> Change:
    row = some_event(log)
    log.do("DELETE FROM connection WHERE place = ?", row[0])
    ((last,),) = log.rows("SELECT max(place) FROM connection")
    what = "row %d of the door taken out" % row[0]
    if row[0] > last:
        return Change(what, NOT_SEALED, needs_seal=True)
    return Change(what, r"door: row %d is missing" % row[0])


def events_anew(log: Tamperer) -> None:
    """Makes all hashes of the door as they should be."""
    before = bytes(32)
    for row in log.rows(EVENTS):
        digest = event_hash(row, before)
        query = "UPDATE connection SET before = ?, hash = ? WHERE place = ?"
        log.do(query, before, digest, row[0])
        before = digest


def anew_event(log: Tamperer) -> Change:
    """Who was refused, and the rows' chain made anew."""
    row = some_event(log, "refused", "stranger")
    log.do("UPDATE connection SET address = '203.0.113.9:1' WHERE place = ?", row[0])
    events_anew(log)
    what = "the address in row %d of the door, and its chain made anew" % row[0]
    return Change(what, NOT_SEALED, needs_seal=True)


def anew_peer(log: Tamperer) -> Change:
    """Who had a connection at its Logon, and not at its end, and the rows' chain made anew."""
    row = some_event(log, "logon", "end")
    log.do("UPDATE connection SET address = '203.0.113.9:1' WHERE place = ?", row[0])
    events_anew(log)
    what = "the address in row %d of the door, and its chain made anew" % row[0]
    return Change(what, r"door: row \d+: connection %d ends as that of" % (row[5] or 0))


def anew_logon_out(log: Tamperer) -> Change:
    """A Logon taken out with its end, the rows counted and their chain made anew: what came on
    that connection came on none.
    """
    used = {number for number, in log.rows("SELECT DISTINCT connection FROM entry")}
    row = some_event(log, "logon")
    while row[5] not in used:
        row = some_event(log, "logon")
    log.do("DELETE FROM connection WHERE number = ?", row[5])
    for place, old in enumerate(log.rows(EVENTS), 1):
        log.do("UPDATE connection SET place = ? WHERE place = ?", place, old[0])
    events_anew(log)
    pattern = r"entries: entry \d+: number \d+ of %s's session came on connection %d, and no Logon"
    return Change("connection %d taken out" % (row[5] or 0), pattern % (row[6], row[5] or 0))


def anew_ended(log: Tamperer) -> Change:
    """An end that is said to be before the last message on its connection."""
    last = dict(log.rows("SELECT connection, max(place) FROM entry GROUP BY connection"))
    ends = [row for row in log.rows(EVENTS) if row[3] == "end" and row[5] in last]
    row = log.draw.choice(ends)
    number = row[5]
    log.do("UPDATE connection SET entry = ? WHERE place = ?", last[number] - 1, row[0])
    events_anew(log)
    pattern = r"entries: entry %d: number \d+ of %s's session came on connection %d, which had"
    what = "an earlier end of connection %d" % number
    if any(one[4] > last[number] - 1 for one in log.rows(EVENTS) if one[0] < row[0]):
        return Change(what, r"door: row %d: it stands after entry" % row[0])
    return Change(what, pattern % (last[number], row[6], number))


DOOR_KINDS: list[Kind] = [
    anew_connection,
    anew_received,
    anew_earlier,
    event_column,
    event_out,
    anew_event,
    anew_peer,
    anew_logon_out,
    anew_ended,
]
