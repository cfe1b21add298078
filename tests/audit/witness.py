"""Reads a log's messages independently, to say what the audit's pages must say. It shares nothing with
the audit.
"""

import re
import sqlite3
from collections import Counter, defaultdict
from contextlib import closing
from dataclasses import dataclass, field
from fractions import Fraction
from pathlib import Path

Message = dict[str, str]
ENTRIES = "SELECT place, moment, firm, line FROM entry ORDER BY place"
SENT = "SELECT firm, number, place, bytes FROM sent ORDER BY place, firm, number"


def message_of(data: bytes) -> Message:
    """The first value of each tag."""
    found: Message = {}
    for part in data.decode("latin-1").split("\x01"):
        tag, equals, value = part.partition("=")
        if equals:
            found.setdefault(tag, value)
    return found


def thirty_seconds(text: str) -> str:
    """A decimal price in 32nds, and eighths of a 32nd; a plus sign for four of them."""
    eighths = Fraction(text) * 256
    if eighths.denominator != 1:
        return ""
    points, rest = divmod(int(eighths), 256)
    last = "" if rest % 8 == 0 else "+" if rest % 8 == 4 else str(rest % 8)
    return "%d-%02d%s" % (points, rest // 8, last)


@dataclass
class Came:
    place: int
    moment: str
    firm: str
    message: Message


@dataclass
class Sent:
    firm: str
    number: int
    place: int
    message: Message


@dataclass
class Asked:
    """A request that was accepted."""

    place: int
    moment: str
    investor: str
    message: Message
    dealers: list[str]
    shown: dict[str, str] = field(default_factory=dict)
    notices: dict[str, Message] = field(default_factory=dict)
    quotes: list[Came] = field(default_factory=list)

    def dealer_told(self, kind: str) -> str:
        return next((firm for firm, told in self.notices.items() if told["694"] == kind), "")

    @property
    def end(self) -> str:
        kinds = {told["694"] for told in self.notices.values()}
        if kinds & {"1", "4", "5"}:
            return "awarded"
        return {"3": "expired", "6": "passed"}[kinds.pop()] if kinds else "open"


class Witness:
    """All that the tests ask of a log."""

    def __init__(self, path: Path) -> None:
        with closing(sqlite3.connect(path)) as connection:
            entries = connection.execute(ENTRIES).fetchall()
            sent = connection.execute(SENT).fetchall()
        self.configuration = entries[0][3].decode()
        self.dealers = re.findall(r'\[\[dealer\]\]\nname = "(\w+)"', self.configuration)
        self.investors = re.findall(r'\[\[investor\]\]\nname = "(\w+)"', self.configuration)
        self.entries = len(entries)
        self.moments = {place: moment for place, moment, _, _ in entries}
        self.sweeps = sum(line.startswith(b"clock ") for _, _, _, line in entries)
        self.came = [
            Came(place, moment, firm, message_of(bytes.fromhex(line.split()[3].decode())))
            for place, moment, firm, line in entries[1:]
            if firm is not None
        ]
        self.raw = {
            place: bytes.fromhex(line.split()[3].decode())
            for place, _, firm, line in entries[1:]
            if firm
        }
        self.sent = [
            Sent(firm, number, place, message_of(data)) for firm, number, place, data in sent
        ]
        self.at: dict[int, list[Sent]] = defaultdict(list)
        for row in self.sent:
            self.at[row.place].append(row)
        self.requests = self._requests()

    def answers(self, came: Came) -> list[Message]:
        return [row.message for row in self.at[came.place] if row.firm == came.firm]

    def is_refused(self, came: Came) -> bool:
        answers = self.answers(came)
        return not answers or any(
            told["35"] in ("3", "AG") or told.get("297") in ("5", "9") for told in answers
        )

    def refused(self) -> Counter[str]:
        return Counter(came.firm for came in self.came if self.is_refused(came))

    def _requests(self) -> list[Asked]:
        found: list[Asked] = []
        names: dict[tuple[str, str], Asked] = {}
        for came in self.came:
            rows = self.at[came.place]
            if came.message["35"] == "R" and not self.is_refused(came):
                dealers = re.findall(rb"\x01448=(\w+)", self.raw[came.place])
                asked = Asked(
                    came.place,
                    came.moment,
                    came.firm,
                    came.message,
                    [dealer.decode() for dealer in dealers],
                )
                found.append(asked)
                for row in rows:
                    if row.message["35"] == "R":
                        asked.shown[row.firm] = row.message["131"]
                        names[row.firm, row.message["131"]] = asked
            if came.message["35"] == "S" and not self.is_refused(came):
                names[came.firm, came.message["131"]].quotes.append(came)
        for row in self.sent:
            if row.message["35"] == "AJ":
                names[row.firm, row.message["131"]].notices[row.firm] = row.message
        return found
