"""Checks that a log has the tables of its form, and nothing beside them.

A gateway makes its tables and nothing else. What somebody has put beside them may change what the
gateway writes (a trigger, a rule) or what is read (a view, a child table, row security).
"""

import re
from collections.abc import Iterator, Mapping, Sequence

OLD = {
    "form": "number",
    "entry": "place term moment firm number line before hash",
    "sent": "firm number place bytes",
    "outgoing": "firm number sent bytes",
    "session": "firm target logged_on",
}
WITH_DOOR = OLD | {
    "entry": "place term moment received firm number connection line before hash",
    "connection": "place term moment event entry number firm address certificate why left_out"
    " before hash",
}
WITH_SEALS = WITH_DOOR | {
    "seal": "number term place event mac",
    "checkpoint": "number term place event signature",
}
WITH_EPOCHS = WITH_SEALS | {
    "outgoing": "firm epoch number sent copy dropped type moment bytes",
    "session": "firm epoch entries_from logged_on expected next had first_given last_given"
    " last_kept is_one_free was_taken is_reset reset_at is_locked last_logon is_suspended",
}
# What each session keeps, and its numbers, follow from its notes.
WITH_ENDS = {name: WITH_EPOCHS[name] for name in ("form", "entry", "connection")} | {
    "sent": "firm number place bytes told",
    "seal": "number term place event notes hash mac",
    "checkpoint": "number term place event seal is_end signature",
}
FORMS: Mapping[int, Mapping[str, str]] = {
    1: OLD,
    2: OLD,
    3: WITH_DOOR,
    4: WITH_SEALS,
    5: WITH_EPOCHS,
    6: WITH_ENDS,
}
# What each row of a table is found by.
KEYS: Mapping[str, str] = {
    "entry": "place",
    "connection": "place",
    "seal": "number",
    "checkpoint": "number",
    "sent": "firm number",
    "outgoing": "firm epoch number",
    "session": "firm",
}
# In PostgreSQL alone (terms.sql): who speaks.
TERMS = {"speaker": "one term gateway backend began seen"}
# Its functions, and the SHA-256 of each one's body.
FUNCTIONS: Mapping[str, str] = {
    "take_over": "0945f7e51096021288c88df22af0352b6ec5c208c43d66c2a1e8f137b4f2f30b",
    "speak": "3676a1f85a5b44f9c923c857abd5832b1942297d5dc600d53f4aa537b502d118",
    "speak_and_be_seen": "d62dbdd0b9aa81bd833af328f25d988f6c36565273915d7271c599199d5d8cc0",
    "refuse_other_terms": "73d6afbcd7d9ae0e24bea55a2520366f60e1a8ee30a48520484e4c96a4a8b6e0",
}
# The last since form 6.
TRIGGER, TRIGGERED = "one_term", ("entry", "connection", "seal")

Tables = Mapping[str, Sequence[str]]  # of each, its columns
LONGEST_NAME = 60
LONGEST_DEFINITION = 1 << 14  # bytes: the gateway's have comments
# How SQLite keeps a table: columns, of which one may be the key, or a key of several.
COMMENT = re.compile(r"--[^\n]*")
DEFINITION = re.compile(r'CREATE TABLE "?\w+"? ?\((.*)\)')
PART = re.compile(r",(?![^()]*\))")
PLAIN_PARTS = re.compile(
    r"\w+( (INTEGER|BIGINT|TEXT|BYTEA|BLOB))?( NOT NULL| PRIMARY KEY)?|PRIMARY KEY \([\w, ]+\)"
)


def strange_tables(form: int, tables: Tables, has_terms: bool) -> Iterator[str]:
    """The tables and the columns that a log of this form does not have."""
    own = dict(FORMS[form]) | (TERMS if has_terms else {})
    for name, columns in sorted(tables.items()):
        if name not in own:
            yield "table %s" % short(name)
            continue
        known = own[name].split()
        for column in columns:
            if column not in known:
                yield "column %s of %s" % (short(column), name)


def key_of(form: int, table: str) -> list[str]:
    """The columns of a table's key, in their order."""
    columns = FORMS[form][table].split()
    return [column for column in KEYS.get(table, "").split() if column in columns]


def is_plain(definition: str) -> bool:
    """Whether a table of SQLite has columns and a key, and nothing that changes what is written to
    it or how it is read: no default, no constraint, no way to resolve a conflict, no collation.
    """
    if len(definition) > LONGEST_DEFINITION:
        return False
    found = DEFINITION.fullmatch(" ".join(COMMENT.sub("", definition).split()))
    parts = PART.split(found[1]) if found else [""]
    return all(PLAIN_PARTS.fullmatch(part.strip()) for part in parts)


def short(name: str) -> str:
    """A name that may be anything, at a length that can be printed."""
    return name if len(name) <= LONGEST_NAME else name[:LONGEST_NAME] + ".."
