"""Makes the sheet of a day from its messages; it shares nothing with the audit.

A person read the stored day by hand. For a drawn day, this makes the sheet by the same words: what
a dealer answered, when a quote ended and how, what a trade was beside the others' quotes.
"""

import sqlite3
from collections import Counter
from contextlib import closing
from dataclasses import dataclass, field
from fractions import Fraction
from pathlib import Path

from tests.audit.witness import Asked as Opened
from tests.audit.witness import Came, Message, Sent, Witness, message_of
from tests.supervisor.figures import Figures, Tally
from tests.supervisor.second_way import differing
from tests.supervisor.sheet import NOTICES, Asked, Fade, Quote, Request, Sheet, Trade, milliseconds

KINDS = {"R": "request", "S": "quote", "Z": "cancel", "AG": "decline"}
ENDS = {"7": "expired", "11": "passed", "0": "awarded"}


@dataclass
class Stand:
    """A quote from its acceptance on."""

    came: Came
    opened: Opened
    shown: str  # the investor's name of it
    end: str = ""
    end_place: int = 1 << 30
    fate: str = "standing"

    @property
    def name(self) -> str:
        return self.came.message["117"]

    @property
    def price(self) -> Fraction:
        message = self.came.message
        return Fraction(message.get("132") or message["133"])

    @property
    def until(self) -> str:
        return self.came.message.get("62", "").partition("-")[2]

    def can_be_hit(self, place: int, moment: str) -> bool:
        """Just before an entry."""
        stands = self.came.place < place <= self.end_place
        return stands and (not self.until or self.until > moment)


@dataclass
class DaySheet:
    """Reads one log."""

    witness: Witness
    told: dict[tuple[str, int], Message]  # beside a message, by firm and number of `sent`
    date: str
    sheet: Sheet = field(default_factory=Sheet)
    stands: list[Stand] = field(default_factory=list)
    request_of: dict[int, Request] = field(default_factory=dict)  # by the entry of its request

    def read(self) -> Sheet:
        for opened in self.witness.requests:
            self._open(opened)
        self.stands.sort(key=lambda one: one.came.place)
        for stand in self.stands:
            self._end(stand)
        for opened in self.witness.requests:
            self._tell(opened)
        for stand in self.stands:
            self._write(stand)
        self._read_trades()
        return self.sheet

    def rows(self, place: int, kind: str) -> list[Sent]:
        return [row for row in self.witness.at[place] if row.message["35"] == kind]

    # ------------------------------------------------------------ requests and quotes

    def _open(self, opened: Opened) -> None:
        message = opened.message
        request = Request(
            len(self.sheet.requests) + 1,
            opened.place,
            opened.moment,
            opened.investor,
            message["48"],
            "buy" if message["54"] == "1" else "sell",
            int(message["38"]),
            opened.end,
        )
        self.sheet.requests.append(request)
        self.request_of[opened.place] = request
        for came in opened.quotes:
            shown = [one for one in self.rows(came.place, "S") if one.firm == opened.investor]
            self.stands.append(Stand(came, opened, shown[0].message["117"] if shown else ""))

    def _end(self, stand: Stand) -> None:
        """The first of: the dealer's next quote, its withdrawal, the end of the request."""
        came, opened = stand.came, stand.opened
        ends: list[tuple[int, str]] = []
        for other in opened.quotes:
            if other.firm == came.firm and other.place > came.place:
                ends.append((other.place, "replaced"))
        for row in self.witness.sent:
            message = row.message
            if row.firm != came.firm or row.place <= came.place:
                continue
            own = message.get("117") == stand.name
            if message["35"] == "AI" and message.get("297") == "17" and own:
                ends.append((row.place, "withdrawn"))
            if message["35"] == "AJ" and message["131"] == opened.shown[came.firm]:
                ends.append((row.place, NOTICES[message["694"]]))
        if ends:
            stand.end_place, stand.fate = min(ends)
            stand.end = self.witness.moments[stand.end_place]

    def _tell(self, opened: Opened) -> None:
        """What each dealer answered, and what it was told."""
        for dealer in opened.dealers:
            quotes = [one for one in opened.quotes if one.firm == dealer]
            answer, time = "silent", None
            if quotes:
                answer = "answered"
                time = milliseconds(quotes[0].moment) - milliseconds(opened.moment)
            elif self._has_declined(opened, dealer):
                answer = "declined"
            notice = opened.notices.get(dealer, {"694": ""})["694"]
            told = Asked(dealer, answer, time, NOTICES.get(notice, ""))
            self.request_of[opened.place].asked.append(told)

    def _has_declined(self, opened: Opened, dealer: str) -> bool:
        own = [row.message for row in self.witness.sent if row.firm == dealer]
        return any(
            message["35"] == "AI"
            and message.get("297") == "11"
            and message.get("131") == opened.shown[dealer]
            for message in own
        )

    def _write(self, stand: Stand) -> None:
        came = stand.came
        end = stand.end or "23:59:59.999"
        quote = Quote(came.place, came.firm, stand.name, came.moment, end, stand.until, stand.fate)
        self.sheet.quotes.append(quote)
        self.sheet.by_entry[came.place] = self.request_of[stand.opened.place]
        if stand.fate == "withdrawn" and not quote.is_lapsed and self._is_hit_later(stand):
            self.sheet.fades.append(Fade(stand.end_place, came.firm, stand.name))

    def _is_hit_later(self, stand: Stand) -> bool:
        """Whether a hit of the same request came behind the withdrawal."""
        for came in self.witness.came:
            if came.place > stand.end_place and self._hit_request(came) is stand.opened:
                return True
        return False

    def _hit_request(self, came: Came) -> Opened | None:
        """The request of the quote that a hit names, where the investor was shown one of that name."""
        message = came.message
        if message["35"] != "AJ" or message.get("694") != "1":
            return None
        stand = self._shown(came)
        return None if stand is None else stand.opened

    def _shown(self, came: Came) -> Stand | None:
        for stand in self.stands:
            is_named = stand.shown and stand.shown == came.message.get("117")
            if is_named and stand.opened.investor == came.firm and stand.came.place < came.place:
                return stand
        return None

    # ------------------------------------------------------------ trades

    def _read_trades(self) -> None:
        counts: Counter[tuple[str, str]] = Counter()
        for came in self.witness.came:
            opened = self._hit_request(came)
            stand = self._shown(came)
            answers = self.witness.answers(came)
            if opened is None or stand is None or answers[0].get("297") != "0":
                continue
            pair = came.firm, stand.came.firm
            counts[pair] += 1
            name = "-".join((self.date, *pair, "%d" % counts[pair]))
            self.sheet.trades.append(self._trade(came, opened, stand, name))

    def _trade(self, came: Came, opened: Opened, stand: Stand, name: str) -> Trade:
        mine = [one for one in self.stands if one.opened is opened]
        could = [one.price for one in mine if one.can_be_hit(came.place, came.moment)]
        request = self.request_of[opened.place]
        best = min(could) if request.side == "buy" else max(could)
        cover = opened.dealer_told("4")
        covers = [one for one in mine if one.came.firm == cover and one.fate == "cover"]
        lapsed = bool(covers) and not covers[0].can_be_hit(came.place, came.moment)
        price = covers[0].price if covers else None
        return Trade(came.place, name, stand.name, stand.price, cover, lapsed, price, best, request)

    # ------------------------------------------------------------ refusals

    def refusals(self) -> Counter[tuple[str, str, str, str, str]]:
        found: Counter[tuple[str, str, str, str, str]] = Counter()
        bonds = {request.bond for request in self.sheet.requests}
        for came in self.witness.came:
            if not self.witness.is_refused(came):
                continue
            words = self._refusal(came)
            group = "dealer" if came.firm in self.witness.dealers else "investor"
            found[("day", self.date, *words)] += 1
            found[(group, came.firm, *words)] += 1
            found[("hour", came.moment[:2], *words)] += 1
            bond = self._bond(came)
            if bond in bonds:
                found[("bond", bond, *words)] += 1
        return found

    def _bond(self, came: Came) -> str:
        """Its own 48, or that of the request that it names, or of whose quote."""
        opened = self._hit_request(came)
        for stand in self.stands if came.message["35"] == "Z" else []:
            if (stand.came.firm, stand.name) == (came.firm, came.message.get("117")):
                opened = stand.opened
        name = came.message.get("131")
        for each in self.witness.requests:
            own = each.investor == came.firm and each.message["131"] == name
            if name and (own or each.shown.get(came.firm) == name):
                opened = each
        return opened.message["48"] if opened is not None else came.message.get("48", "")

    def _refusal(self, came: Came) -> tuple[str, str, str]:
        """What was refused, its code and its words."""
        kind = came.message["35"]
        if kind == "AJ":
            what = "hit" if came.message.get("694") == "1" else "pass"
        else:
            what = KINDS.get(kind, "message")
        rows = [row for row in self.witness.at[came.place] if row.firm == came.firm]
        refusing = [row for row in rows if is_refusing(row.message)]
        if not refusing:
            return what, "none", ""
        message = refusing[0].message
        on_wire = self.told.get((came.firm, refusing[0].number), {})
        return what, code_in(message), message.get("58", "") or on_wire.get("58", "")

    def amounts(self) -> dict[tuple[str, str, str], tuple[int, int, int]]:
        """Face value asked for and traded, and trades, by bond: the days have no currencies."""
        found: dict[tuple[str, str, str], list[int]] = {}

        def add(request: Request, dealers: list[str], values: tuple[int, int, int]) -> None:
            keys = [("day", self.date), ("investor", request.investor)]
            keys += [("bond", request.bond), ("hour", request.hour)]
            for group, key in [*keys, *(("dealer", dealer) for dealer in dealers)]:
                sums = found.setdefault((group, key, request.bond), [0, 0, 0])
                sums[:] = [one + more for one, more in zip(sums, values)]

        for request in self.sheet.requests:
            add(request, [one.dealer for one in request.asked], (request.quantity, 0, 0))
        for trade in self.sheet.trades:
            add(trade.request, [trade.dealer], (0, trade.request.quantity, 1))
        return {key: (sums[0], sums[1], sums[2]) for key, sums in found.items()}


def is_refusing(message: Message) -> bool:
    return message["35"] in ("3", "AG") or (
        message["35"] == "AI" and message.get("297") in ("5", "9")
    )


def code_in(message: Message) -> str:
    if message["35"] == "3":
        return "373=%s 371=%s" % (message.get("373", ""), message.get("371", ""))
    if message["35"] == "AG":
        return "658=" + message.get("658", "")
    return "297=9" if message.get("297") == "9" else "300=" + message.get("300", "")


def read_day(path: Path, date: str) -> DaySheet:
    with closing(sqlite3.connect(path)) as log:
        columns = [name for _, name, *_ in log.execute("PRAGMA table_info(sent)")]
        # In the first form nothing was told.
        query = "SELECT firm, number, told FROM sent WHERE told IS NOT NULL"
        rows = log.execute(query).fetchall() if "told" in columns else []
        told = {(firm, at): message_of(field.encode()) for firm, at, field in rows}
    day = DaySheet(Witness(path), told, date)
    day.read()
    return day


def differences(day: DaySheet, figures: Figures) -> list[str]:
    """Where the figures of the audit are others, in words."""
    tally = Tally(day.sheet, day.date)
    expected = {key: tally.figures(key) for key in tally.keys()}
    found = differing(figures.figures, expected)
    for key in figures.figures.keys() - expected.keys():
        more = {name: value for name, value in figures.figures[key].items() if value}
        found += ["%s %s has %s" % (*key, more)] if more else []
    if figures.amounts != day.amounts():
        found.append("amounts: %s, %s" % (figures.amounts, day.amounts()))
    refusals = dict(day.refusals())
    for one in refusals.keys() | figures.refusals.keys():
        if refusals.get(one) != figures.refusals.get(one):
            found.append("%s: %s, %s" % (one, figures.refusals.get(one), refusals.get(one)))
    return found
