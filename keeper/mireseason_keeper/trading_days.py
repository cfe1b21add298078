"""Computes the days on which the venue trades, from the keys that a gateway has in its part [day]."""

from collections.abc import Iterator
from dataclasses import dataclass, field
from datetime import date, datetime, timedelta, timezone
from zoneinfo import ZoneInfo

WEEKDAYS = ("Mon", "Tue", "Wed", "Thu", "Fri", "Sat", "Sun")
A_DAY = timedelta(days=1)
LONGEST_WAIT = 366  # days ahead in which a trading day is looked for


@dataclass(frozen=True)
class TradingDay:
    """One trading day, within one day of UTC, whose date its log bears (YYYYMMDD)."""

    date: str
    opens: datetime
    ends: datetime


@dataclass(frozen=True)
class TradingDays:
    """Hours are those of a named zone, since summer time moves them in UTC."""

    zone: ZoneInfo = ZoneInfo("UTC")
    opens: timedelta = timedelta(0)  # since the day's midnight in that zone
    ends: timedelta = A_DAY
    weekdays: frozenset[int] = frozenset(range(7))  # from Monday, 0
    holidays: frozenset[date] = field(default_factory=frozenset)

    def next_days(self, now: datetime, count: int) -> list[TradingDay]:
        """The first ones that have not ended at this moment: fewer where a year has fewer."""
        first = now.astimezone(self.zone).date() - A_DAY
        found = [day for day in self._days(first, LONGEST_WAIT) if day.ends > now]
        return found[:count]

    def last_day(self, now: datetime) -> TradingDay | None:
        """The last one that has ended by then; None where that is more than a month ago."""
        first = now.astimezone(self.zone).date() - timedelta(days=31)
        found = [day for day in self._days(first, 33) if day.ends <= now]
        return found[-1] if found else None

    def end_of(self, named: str) -> datetime:
        """When the day of a log ends. Of a date on which none trades (any more) it is midnight in UTC."""
        day = datetime.strptime(named, "%Y%m%d").replace(tzinfo=timezone.utc)
        for each in self._days(day.date() - A_DAY, 3):
            if each.date == named:
                return each.ends
        return day + A_DAY

    def _days(self, first: date, count: int) -> Iterator[TradingDay]:
        for day in (first + timedelta(days=number) for number in range(count)):
            if day.weekday() in self.weekdays and day not in self.holidays:
                opens, ends = self._moment(day, self.opens), self._moment(day, self.ends)
                yield TradingDay(opens.strftime("%Y%m%d"), opens, ends)

    def _moment(self, day: date, time: timedelta) -> datetime:
        """In UTC. A time that summer time repeats is the first of the two."""
        local = datetime.combine(day, datetime.min.time()) + time
        return local.replace(tzinfo=self.zone).astimezone(timezone.utc)
