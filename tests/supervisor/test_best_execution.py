"""The page of an investor's awards: each figure follows from what that investor was told."""

import re
from collections.abc import Iterator
from dataclasses import dataclass, field
from decimal import Decimal
from fractions import Fraction
from pathlib import Path

from tests.audit.pages import read_page, rows_of
from tests.audit.witness import Came, Message, Witness
from tests.supervisor.conftest import Audit


@dataclass
class Shown:
    """A request as its investor alone knows it."""

    name: str
    buys: bool
    asked: int
    dealers: set[str] = field(default_factory=set)  # that showed a quote
    standing: dict[str, Message] = field(default_factory=dict)  # by Q

    def take(self, told: Message) -> None:
        """What the investor was sent."""
        name = told.get("117", "")
        if told["35"] == "S":
            self.dealers.add(told["448"])
            others = [one for one, quote in self.standing.items() if quote["448"] == told["448"]]
            for one in others:
                del self.standing[one]
            self.standing[name] = told
        elif told.get("297") == "17":
            self.standing.pop(name, None)

    def award(self, came: Came) -> list[str]:
        """A row of the page, by the quotes that stood when it was hit."""
        won = self.standing.pop(came.message["117"])
        sign = 1 if self.buys else -1
        others = [
            sign * (price_of(quote) - price_of(won))
            for quote in self.standing.values()
            if "62" not in quote or quote["62"].partition("-")[2] > came.moment
        ]
        better = decimal_of(min(others)) if others else "no other quote"
        counts = ["%d" % self.asked, "%d" % len(self.dealers)]
        return [came.moment, self.name, *counts, won["448"], decimal_of(price_of(won)), better]


def price_of(quote: Message) -> Fraction:
    return Fraction(quote.get("132") or quote["133"])


def decimal_of(value: Fraction) -> str:
    return "%s" % (Decimal(value.numerator) / Decimal(value.denominator))


def awards_by(witness: Witness, firm: str) -> Iterator[list[str]]:
    """The awards of an investor, by what it sent and was sent and by nothing else."""
    requests: dict[str, Shown] = {}
    of_quote: dict[str, Shown] = {}
    for place in sorted(witness.at.keys() | {came.place for came in witness.came}):
        told = [row.message for row in witness.at[place] if row.firm == firm]
        (came,) = [one for one in witness.came if (one.place, one.firm) == (place, firm)] or (None,)
        if came is not None and came.message["35"] == "R":
            asked = len(re.findall(rb"\x01448=", witness.raw[place]))
            name = came.message["131"]
            requests[name] = Shown(name, came.message["54"] == "1", asked)
        if came is not None and came.message["35"] == "AJ" and told[0].get("297") == "0":
            yield of_quote[came.message["117"]].award(came)
        for one in told:
            if one["35"] == "S":
                of_quote[one["117"]] = requests[one["131"]]
            if one.get("117") in of_quote:
                of_quote[one["117"]].take(one)


def test_the_page_of_best_execution(run: Audit, short_log: Path, tmp_path: Path) -> None:
    """A row for each award, which follows from what its investor was told."""
    assert run("export", short_log, tmp_path / "own", "--csv", "--for", "FJORD").status == 0
    page = tmp_path / "own" / "best-execution.html"
    rows = [[cell.text for cell in row] for row in rows_of(read_page(page).all("table")[0])]
    shown = [[row[0], row[1], *row[6:11]] for row in rows]
    expected = list(awards_by(Witness(short_log), "FJORD"))
    assert shown == expected and len(expected) > 5
    assert {row[-1] == "no other quote" for row in expected} == {True, False}
    text = page.read_text()
    assert "GROVE" not in text and "http" not in text
