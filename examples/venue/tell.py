"""Tells in a sentence how each auction of a running venue ends: tell.py LOG ENTRY

It reads the gateway's log, a file of SQLite, as an operator may: what the venue sent whom, and on which
entry. It tells one sentence for each entry after ENTRY that ends a request; an earlier start of the venue
has told of those before. Without ENTRY it prints the last entry that led to anything, and ends.
"""

import sqlite3
import sys
import time
from collections import defaultdict
from dataclasses import dataclass, field

LOOK = 0.5  # seconds between two looks

Message = dict[int, str]


def fields_of(raw: bytes) -> Message:
    """The first field of each tag."""
    message: Message = {}
    for part in raw.decode("latin-1").split("\x01"):
        tag, _, value = part.partition("=")
        if tag.isdigit():
            message.setdefault(int(tag), value)
    return message


@dataclass
class Teller:
    """What it has to know of the day: who asked a dealer for what."""

    shown: dict[tuple[str, str], Message] = field(default_factory=dict)  # by dealer and 131

    def sentences(self, sent: list[tuple[str, Message]]) -> list[str]:
        """Of all messages that one entry led to."""
        for firm, message in sent:
            if message.get(35) == "R":
                self.shown[firm, message[131]] = message
        ends: dict[tuple[str, str, str, str], dict[str, list[tuple[str, Message]]]] = defaultdict(
            lambda: defaultdict(list)
        )
        for firm, message in sent:
            if message.get(35) == "AJ":
                request = self.shown[firm, message[131]]
                key = (request[448], message[48], message[54], message[38])
                ends[key][message[694]].append((firm, message))
        return [self.sentence(key, notices) for key, notices in ends.items()]

    @staticmethod
    def sentence(
        key: tuple[str, str, str, str], notices: dict[str, list[tuple[str, Message]]]
    ) -> str:
        investor, bond, side, quantity = key
        what = f"{int(quantity):,} of {bond}"
        if "1" not in notices:
            request = f"request to {'buy' if side == '1' else 'sell'} {what}"
            if "6" in notices:
                return f"{investor} passed on its {request}"
            return f"{investor}'s {request} expired"
        dealer, notice = notices["1"][0]
        cover = (
            f"; {notices['4'][0][0]} was the cover" if "4" in notices else "; there was no cover"
        )
        words = (
            ("bought", "from", notice.get(133)) if side == "1" else ("sold", "to", notice.get(132))
        )
        return f"{investor} {words[0]} {what} {words[1]} {dealer} at {words[2]}{cover}"


def last_of(database: sqlite3.Connection) -> int:
    """The last entry that led to anything, or 0."""
    found = database.execute("SELECT coalesce(max(place), 0) FROM sent").fetchone()
    return int(found[0])


def follow(database: sqlite3.Connection, since: int) -> None:
    teller, told = Teller(), -1
    while True:
        # What an entry leads to is committed with a later one: the last is left for the next look.
        last = last_of(database)
        rows = database.execute(
            "SELECT place, firm, bytes FROM sent WHERE place > ? AND place <= ? ORDER BY place, rowid",
            (told, last),
        )
        by_place: dict[int, list[tuple[str, Message]]] = defaultdict(list)
        for place, firm, raw in rows:
            by_place[place].append((firm, fields_of(bytes(raw))))
        time.sleep(LOOK)
        fresh = database.execute(
            "SELECT count(*) FROM sent WHERE place > ? AND place <= ?", (told, last)
        ).fetchone()[0]
        if fresh != sum(map(len, by_place.values())):
            continue  # more came for these entries meanwhile
        for place in sorted(by_place):
            sentences = teller.sentences(by_place[place])
            for sentence in sentences if place > since else []:
                print(f"  {time.strftime('%H:%M:%S', time.gmtime())} UTC  {sentence}", flush=True)
        told = last


def main() -> None:
    database = sqlite3.connect(f"file:{sys.argv[1]}?mode=ro", uri=True, timeout=30)
    if len(sys.argv) == 2:
        print(last_of(database))
    else:
        follow(database, int(sys.argv[2]))


if __name__ == "__main__":
    try:
        main()
    except KeyboardInterrupt:
        pass
