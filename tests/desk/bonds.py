"""Computes plainly what a bond's price means: without a library, and without any of the desk's own code.

A whole period of coupons is 1/frequency of a year. A broken one is the part of it that its days are.
"""

import calendar
import math
from dataclasses import dataclass
from datetime import date, timedelta
from functools import cache

ACTUAL_ICMA, THIRTY, THIRTY_E, ACTUAL_365, ACTUAL_360 = (
    "actual/actual ICMA",
    "30/360",
    "30E/360",
    "actual/365",
    "actual/360",
)
STREET, YEARLY, COUPON = "US street", "yearly", "at coupon frequency"


def last_day(year: int, month: int) -> int:
    return calendar.monthrange(year, month)[1]


def is_month_end(day: date) -> bool:
    return day.day == last_day(day.year, day.month)


def months_from(day: date, months: int, keeps_end: bool) -> date:
    """So many months later, on the same day, or on the last one of a month that is shorter."""
    year, month = divmod(day.year * 12 + day.month - 1 + months, 12)
    month += 1
    last = last_day(year, month)
    return date(year, month, last if keeps_end else min(day.day, last))


@cache
def easter(year: int) -> date:
    """Of the Gregorian calendar, by Meeus, Jones and Butcher."""
    a, b, c = year % 19, year // 100, year % 100
    d, e = divmod(b, 4)
    g = (8 * b + 13) // 25
    h = (19 * a + b - d - g + 15) % 30
    i, k = divmod(c, 4)
    j = (32 + 2 * e + 2 * i - h - k) % 7
    m = (a + 11 * h + 22 * j) // 451
    month, day = divmod(h + j - 7 * m + 114, 31)
    return date(year, month, day + 1)


def is_business_day(day: date, days: str) -> bool:
    if day.weekday() > 4:
        return False
    return days == "weekdays" or not is_target_holiday(day)


def is_target_holiday(day: date) -> bool:
    """Of the euro's payment system, whose days were fewer before the year 2000."""
    name = (day.month, day.day)
    if name in {(1, 1), (12, 25)} or (name == (12, 31) and day.year in (1998, 1999, 2001)):
        return True
    moved = {easter(day.year) + timedelta(days=-2), easter(day.year) + timedelta(days=1)}
    return day.year >= 2000 and (day in moved or name in {(5, 1), (12, 26)})


def business_days_from(day: date, count: int, days: str) -> date:
    """The next business day, where the count is 0."""
    step = timedelta(days=-1 if count < 0 else 1)
    while count == 0 and not is_business_day(day, days):
        day += step
    for _ in range(abs(count)):
        day += step
        while not is_business_day(day, days):
            day += step
    return day


@dataclass(frozen=True)
class Bond:
    coupon: float  # percent a year
    frequency: int
    dated: date
    first_coupon: date | None
    maturity: date
    end_of_month: bool
    day_count: str
    days: str
    ex_dividend_days: int
    settlement_days: int
    convention: str

    @property
    def keeps_end(self) -> bool:
        return self.end_of_month and is_month_end(self.maturity)

    def back(self, count: int) -> date:
        """The day that lies so many periods before the maturity."""
        return months_from(self.maturity, -count * (12 // self.frequency), self.keeps_end)

    @property
    def dates(self) -> list[date]:
        """The days of coupons, the maturity last."""
        first = self.first_coupon or self.dated + timedelta(days=1)
        count, found = 0, []
        while (day := self.back(count)) >= first:
            found.append(day)
            count += 1
        return found[::-1]

    def quasi(self, end: date) -> date:
        """Where a whole period would have begun that ends there."""
        count = 0
        while self.back(count) > end:
            count += 1
        assert self.back(count) == end
        return self.back(count + 1)

    def days_between(self, begin: date, end: date) -> int:
        if self.day_count in (ACTUAL_ICMA, ACTUAL_365, ACTUAL_360):
            return (end - begin).days
        first, second = begin.day, end.day
        if self.day_count == THIRTY_E:
            first, second = min(first, 30), min(second, 30)
        else:
            ends = [day.month == 2 and is_month_end(day) for day in (begin, end)]
            second = 30 if all(ends) or (second == 31 and first >= 30) else second
            first = 30 if ends[0] or first == 31 else first
        return 360 * (end.year - begin.year) + 30 * (end.month - begin.month) + second - first

    def year_part(self, begin: date, end: date, period_begin: date, period_end: date) -> float:
        """By the day count; behind the whole period that is given there may be others before it."""
        if self.day_count != ACTUAL_ICMA:
            return self.days_between(begin, end) / (365 if self.day_count == ACTUAL_365 else 360)
        part = 0.0
        while begin < end:
            last, first = min(end, period_end), max(begin, period_begin)
            if first < last:
                part += (last - first).days / (period_end - period_begin).days / self.frequency
            end = min(end, period_begin)
            if begin < end:
                period_begin, period_end = self.quasi(period_begin), period_begin
        return part

    def periods(self) -> list[tuple[date, date, date]]:
        """Of each coupon: from when it accrues, when it is due, and from when a whole one would."""
        begins = [self.dated, *self.dates[:-1]]
        return [(begin, end, self.quasi(end)) for begin, end in zip(begins, self.dates)]

    def paid(self, begin: date, end: date, quasi: date) -> float:
        if begin == quasi and self.day_count != ACTUAL_360:
            return self.coupon / self.frequency
        return self.coupon * self.year_part(begin, end, quasi, end)

    def settles(self, traded: date) -> date:
        return business_days_from(traded, self.settlement_days, self.days)

    def is_without(self, due: date, settles: date) -> bool:
        """Whether who settles then does not get the coupon."""
        if self.ex_dividend_days == 0:
            return False
        return settles > business_days_from(due, -self.ex_dividend_days, self.days)

    def accrued(self, settles: date) -> float:
        begin, due, quasi = next(one for one in self.periods() if one[1] > settles)
        part = self.year_part(begin, settles, quasi, due)
        if self.is_without(due, settles):
            return -self.coupon * self.year_part(settles, due, quasi, due)
        return self.coupon * part

    def payments(self, settles: date) -> list[tuple[float, float]]:
        """Years from the settlement, and what is paid of 100."""
        found, time = [], 0.0
        for begin, due, quasi in self.periods():
            if due <= settles:
                continue
            whole = self.year_part(quasi, due, quasi, due) * self.frequency
            before = self.year_part(begin, max(begin, settles), quasi, due)
            time += (self.year_part(begin, due, quasi, due) - before) / whole
            amount = 0.0 if self.is_without(due, settles) else self.paid(begin, due, quasi)
            found.append((time, amount + (100 if due == self.maturity else 0)))
        return found

    def price(self, rate: float, settles: date) -> float:
        """Without what has accrued; the rate is in percent a year."""
        payments = self.payments(settles)
        often = 1 if self.convention == YEARLY else self.frequency
        if self.convention == STREET and len(payments) == 1:
            (time, amount), rate = payments[0], rate / 100
            return amount / (1 + rate * time) - self.accrued(settles)
        growth = 1 + rate / 100 / often
        worth = (amount * math.pow(growth, -time * often) for time, amount in payments)
        return sum(worth) - self.accrued(settles)
