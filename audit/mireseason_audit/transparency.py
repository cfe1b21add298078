"""Writes the reports of trades that a venue publishes: post-trade transparency of bonds, as
Commission Delegated Regulation (EU) 2017/583 requires it, with the fields of `transparency.toml`.
"""

from collections.abc import Callable, Iterable, Iterator, Mapping
from dataclasses import dataclass
from datetime import datetime, timedelta

from .facts import TradeFact
from .faults import Unreadable
from .notes import Act
from .parties import Parties
from .regulation import Field, Regulation, read_regulation
from .tables import Column, Table, Value

MOMENT = "%Y%m%d %H:%M:%S.%f"


@dataclass(frozen=True)
class Deferral:
    """When the report of a trade in a class of bonds is published, and why not at once."""

    is_liquid: bool
    large: int  # face value
    days: int
    time: str

    def why(self, quantity: int) -> str:
        """The flag of a trade of this size; empty where its report is published at once."""
        if not self.is_liquid:
            return "illiquid"
        return "large" if quantity >= self.large else ""


@dataclass(frozen=True)
class Report:
    """A report: of a trade, or of one that was voided."""

    trade: TradeFact
    traded: str  # DATE TIME, as all moments of a report
    published: str
    flags: tuple[str, ...]


@dataclass(frozen=True)
class Publisher:
    """Makes reports, and says what stands in their fields."""

    regulation: Regulation
    parties: Parties
    date: str

    def reports(self, trades: Iterable[TradeFact], voided: Mapping[str, Act]) -> Iterator[Report]:
        """The reports of a day's trades, each followed by that of its end where it was voided."""
        for trade in trades:
            report = self._report(trade)
            yield report
            act = voided.get(trade.name)
            if act is not None:
                ended = max(moment_on(self.date, act.moment), report.published)
                flags = ("cancelled", *report.flags)
                yield Report(trade, report.traded, ended, flags)

    def _report(self, trade: TradeFact) -> Report:
        traded = moment_on(self.date, trade.moment)
        deferral = self._deferral(trade.request.bond)
        why = deferral.why(trade.request.quantity) if deferral else ""
        if deferral is None or not why:
            return Report(trade, traded, traded, ())
        return Report(trade, traded, later(traded, deferral), (why,))

    def _deferral(self, bond: str) -> Deferral | None:
        """That of the bond's class; None where the parties name none."""
        name = self.parties.bond_class(bond)
        if not name:
            return None
        classes = self.regulation.table["class"]
        row = classes.get(name) if isinstance(classes, Mapping) else None
        if row is None:
            text = "parties: bond.%s.class is %r, and transparency.toml has no such class"
            raise Unreadable(text % (bond, name))
        return Deferral(row["liquid"], row["large"], row["days"], row["time"])

    def value(self, field: Field, report: Report) -> Value:
        """By the name by which the data file asks for it."""
        return VALUES[field.value](self, report)

    def code(self, kind: str, name: str) -> str:
        return self.regulation.code(kind, name)


def flags_of(publisher: Publisher, report: Report) -> Value:
    return " ".join(publisher.code("flag", flag) for flag in report.flags)


VALUES: Mapping[str, Callable[[Publisher, Report], Value]] = {
    "traded": lambda p, report: in_utc(report.traded),
    "published": lambda p, report: in_utc(report.published),
    "code_type": lambda p, report: p.code("identifier", "isin"),
    "isin": lambda p, report: p.parties.isin(report.trade.request.bond),
    "price": lambda p, report: report.trade.quote.price,
    "price_notation": lambda p, report: p.code("notation", "percent"),
    "quantity": lambda p, report: report.trade.request.quantity,
    "currency": lambda p, report: p.parties.currency(report.trade.request.bond),
    "mic": lambda p, report: p.parties.mic(),
    "trade": lambda p, report: report.trade.name,
    "cleared": lambda p, report: p.parties.is_cleared(report.trade.request.bond),
    "flags": flags_of,
}


def transparency() -> Regulation:
    """The annex, as the data file has it."""
    return read_regulation("transparency.toml")


def moment_on(date: str, moment: str) -> str:
    """A time of a day, as it is compared with those of other days."""
    return "%s %s" % (date, moment)


def later(moment: str, deferral: Deferral) -> str:
    """So many days after a moment, at the time of the deferral."""
    day = datetime.strptime(moment, MOMENT) + timedelta(days=deferral.days)
    return moment_on(day.strftime("%Y%m%d"), deferral.time)


def in_utc(moment: str) -> str:
    """As a report has it."""
    date, _, time = moment.partition(" ")
    return "%s-%s-%sT%sZ" % (date[:4], date[4:6], date[6:], time)


def report_table(publisher: Publisher) -> Table[Report]:
    """The reports as a table."""

    def column(field: Field) -> Column[Report]:
        def value(report: Report) -> Value:
            return publisher.value(field, report) if field.value else None

        return Column(field.column, field.source_words, value)

    columns = tuple(column(field) for field in publisher.regulation.fields)
    return Table("transparency", "a report of a trade", columns)


def published_by(reports: Iterable[Report], moment: str) -> Iterator[Report]:
    """The reports whose time has come."""
    return (report for report in reports if report.published <= moment)
