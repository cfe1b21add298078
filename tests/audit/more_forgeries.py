"""Forgeries by somebody who did not write the audit, as cases: what is done to the log, which evidence
finds it, and in which words. After each, all chains are made anew.

`reworded(line, old, new)` changes a message that came, with the sum at its end; `renoted(notes, field, new)` a field of the first
of some session notes.
"""

from tests.audit.ledger import SESSIONS

BARE, KEYS, SEAL, NOTHING = "the log alone", "a gateway's key", "a seal", "nothing here"
MADE_ANEW = "ALTER TABLE sent RENAME TO old; CREATE TABLE sent (%s); INSERT INTO sent SELECT * FROM old; DROP TABLE old"
ENTRY_0 = (
    "UPDATE entry SET line = CAST(replace(CAST(line AS TEXT), '%s', '%s') AS BLOB) WHERE place = 0"
)
REWORDED = "UPDATE entry SET line = reworded(line, '%s', '%s') WHERE place = (SELECT min(place) FROM entry WHERE firm = '%s')"
LAST_OF_ALPHA = "(SELECT max(place) FROM entry WHERE firm = 'ALPHA')"
OLDER = (  # the tables of form 5
    "ALTER TABLE checkpoint DROP COLUMN is_end; ALTER TABLE checkpoint DROP COLUMN seal;"
    "ALTER TABLE seal DROP COLUMN notes; ALTER TABLE seal DROP COLUMN hash;"
    "ALTER TABLE sent DROP COLUMN told;" + SESSIONS + "UPDATE form SET number = 5"
)
FIRST = "checkpoint 1 is signed by none"
SECOND = "checkpoint 2 is signed by none"
DEFINED = "no gateway makes this: another definition of table sent"
# A field of the first session note, or a line before it, that no gateway writes.
RENOTED = "UPDATE seal SET notes = %s WHERE number = (SELECT min(number) FROM seal WHERE length(notes) > 0)"
DIGITS = "'" + "9" * 5000 + "'"
BESIDE = "CAST('ALPHA 0 R 0 1 1 0 ' || hex(zeroblob(32)) || ' 08:00:00.000 ' || %s || ' 1' || char(10) AS BLOB) || notes"
NOT_OF_GATEWAYS = {
    "an epoch that is too long": "renoted(notes, 1, %s)" % DIGITS,
    "a number that is too long": "renoted(notes, 3, %s)" % DIGITS,
    "an expected number that is too long": "renoted(notes, 4, %s)" % DIGITS,
    "more messages than there can be": "renoted(notes, 6, '99999999999999999999')",
    "a moment that is no text": "renoted(notes, 8, x'FF')",
    "a reset behind a place that is too long": BESIDE % DIGITS,
    "a reset behind a place that no column has": BESIDE % "'99999999999999999999'",
}

MORE = {
    # Who it was, and when.
    "another trader of the firm": (REWORDED % ("50=AL", "50=XL", "ALPHA"), KEYS, SECOND),
    "when the firm sent it": (
        REWORDED % ("52=20261125-08", "52=20261125-07", "ALPHA"),
        KEYS,
        SECOND,
    ),
    "a connection's address, wherever it stands": (
        "UPDATE connection SET address = '203.0.113.9:1' WHERE number = 1",
        KEYS,
        SECOND,
    ),
    "a connection's certificate, wherever it stands": (
        "UPDATE connection SET certificate = 'ALPHA' WHERE number ="
        " (SELECT max(number) FROM connection WHERE certificate IS NULL)",
        KEYS,
        SECOND,
    ),
    "why connections ended": (
        "UPDATE connection SET why = 'the firm has closed it' WHERE event = 'end'",
        KEYS,
        SECOND,
    ),
    "in whose name somebody tried": (
        "UPDATE connection SET firm = 'BRAVO' WHERE event = 'refused'",
        KEYS,
        SECOND,
    ),
    "a refused Logon as a stranger's": (
        "UPDATE connection SET event = 'stranger', firm = NULL WHERE event = 'refused'",
        KEYS,
        SECOND,
    ),
    "a stranger's entry": (
        "UPDATE connection SET entry = entry + 1 WHERE event = 'stranger'",
        BARE,
        "that of entry",
    ),
    "a message on another connection": (
        "UPDATE entry SET connection = 1 WHERE place = (SELECT max(place) FROM entry WHERE firm ="
        " (SELECT firm FROM connection WHERE number = 1))",
        BARE,
        "came on connection 1, which had ended",
    ),
    "a message as the gateway's own": (
        "UPDATE entry SET number = NULL, connection = NULL, received = '' WHERE place = "
        + LAST_OF_ALPHA,
        BARE,
        "which is no time",
    ),
    "a message's number": (
        "UPDATE entry SET number = number + 1 WHERE place = " + LAST_OF_ALPHA,
        KEYS,
        SECOND,
    ),
    "all terms": ("UPDATE entry SET term = 1", KEYS, FIRST),
    "a take-over that never was": (
        "UPDATE entry SET term = 1 WHERE place > 50; UPDATE connection SET term = 1 WHERE entry > 50",
        KEYS,
        SECOND,
    ),
    # What day it is of, and by which rules.
    "the venue": (ENTRY_0 % ("venue -", "venue north"), KEYS, FIRST),
    "the words of a reason": (
        ENTRY_0 % ("the request has ended", "the request is over"),
        BARE,
        "carries another text",
    ),
    "an older form, without an end of day": (
        OLDER,
        KEYS,
        FIRST,
    ),
    "an older form, and the end cut off": (
        "DELETE FROM checkpoint WHERE is_end = 1;" + OLDER,
        KEYS,
        FIRST,
    ),
    # What operators did.
    "an act behind the end": (
        "INSERT INTO entry SELECT max(place) + 1, term, '17:00:00.000', '17:00:00.000000', NULL, NULL, NULL,"
        " CAST('# act 17:00:00.000 mallory(0) bust 20261125-FJORD-ALPHA-1 because=\"agreed\"' AS BLOB),"
        " hash, hash FROM entry;"
        "INSERT INTO seal SELECT max(number) + 1, term, (SELECT max(place) FROM entry),"
        " (SELECT max(place) FROM connection), x'', hash, mac FROM seal",
        KEYS,
        "1 entry follows the last checkpoint",
    ),
    "a sweep as a note that the clock was set": (
        "UPDATE entry SET line = CAST('# clock ' || moment || ' set 5' AS BLOB) WHERE place ="
        " (SELECT max(place) FROM entry WHERE CAST(line AS TEXT) LIKE 'clock %')",
        KEYS,
        SECOND,
    ),
    # What gateways signed.
    "a checkpoint's term": ("UPDATE checkpoint SET term = 1 WHERE number = 2", KEYS, SECOND),
    "a checkpoint's entry": (
        "UPDATE checkpoint SET place = place + 1 WHERE number = 2",
        KEYS,
        SECOND,
    ),
    "a checkpoint's row of the door": (
        "UPDATE checkpoint SET event = event - 1 WHERE number = 2",
        KEYS,
        SECOND,
    ),
    "a checkpoint behind the end": (
        "INSERT INTO checkpoint SELECT number + 1, term, place, event, seal, is_end, signature FROM checkpoint WHERE is_end = 1",
        KEYS,
        "checkpoint 4 is signed by none",
    ),
    "signatures of nobody": ("UPDATE checkpoint SET signature = randomblob(64)", KEYS, FIRST),
    "a seal's entry and term": (
        "UPDATE seal SET place = place - 1, term = 9 WHERE number = 2",
        NOTHING,
        "",
    ),
    # What sessions keep.
    **{
        "a note with " + what: (RENOTED % notes, BARE, "the session notes of seal")
        for what, notes in NOT_OF_GATEWAYS.items()
    },
    "a message to nobody": (
        "INSERT INTO sent SELECT 'ZULU', number, place, bytes, told FROM sent WHERE firm = 'ALPHA' AND number = 1",
        BARE,
        "the configuration has no such firm",
    ),
    "a firm with a byte behind its name": (
        "UPDATE sent SET firm = 'ALPHA' || char(0) WHERE firm = 'ALPHA' AND number = 3",
        BARE,
        "ALPHA\\x00: the configuration has no such firm",
    ),
    # How tables are made: each changes what a gateway writes that goes on with the log.
    "a row that is there already is left out": (
        MADE_ANEW
        % "firm TEXT NOT NULL, number INTEGER NOT NULL, place INTEGER NOT NULL, bytes BYTEA NOT NULL,"
        " told TEXT, PRIMARY KEY (firm, number) ON CONFLICT IGNORE",
        BARE,
        DEFINED,
    ),
    "a constraint": (
        MADE_ANEW
        % "firm TEXT NOT NULL, number INTEGER NOT NULL, place INTEGER NOT NULL CHECK (place < 1000),"
        " bytes BYTEA NOT NULL, told TEXT, PRIMARY KEY (firm, number)",
        BARE,
        DEFINED,
    ),
    "a collation": (
        MADE_ANEW
        % "firm TEXT COLLATE NOCASE, number INTEGER NOT NULL, place INTEGER NOT NULL, bytes BYTEA NOT NULL,"
        " told TEXT, PRIMARY KEY (firm, number)",
        BARE,
        DEFINED,
    ),
    "a default": (
        MADE_ANEW
        % "firm TEXT NOT NULL, number INTEGER NOT NULL, place INTEGER DEFAULT 7, bytes BYTEA NOT NULL,"
        " told TEXT, PRIMARY KEY (firm, number)",
        BARE,
        DEFINED,
    ),
    "a key that is none": (
        MADE_ANEW % "firm TEXT, number INTEGER, place INTEGER, bytes BYTEA, told TEXT"
        + "; INSERT INTO sent SELECT firm, number, place, x'00', NULL FROM sent WHERE number = 2 AND firm = 'ALPHA'",
        BARE,
        "it does not begin as a frame of FIXT.1.1",
    ),
    "who speaks, in a file": (
        "CREATE TABLE speaker (one INTEGER, term INTEGER, gateway TEXT, backend INTEGER, began TEXT, seen TEXT)",
        BARE,
        "table speaker",
    ),
    "statistics of the planner": ("ANALYZE", BARE, "table sqlite_stat1"),
}
