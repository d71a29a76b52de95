"""The third Friday of each month, the last Friday, and others: days that count one weekday within a month."""

import calendar
import datetime
import re
from typing import NamedTuple

from opcplan.rules.definitions import LAST_DAY, WEEKDAYS, Entry, weekday_of
from opcplan.rules.moments import EPOCH, day_text

FORM = re.compile(f"(-?[1-5])({'|'.join(WEEKDAYS)})")


class Month(NamedTuple):
    """A month of a year; months are in order."""

    year: int
    month: int

    @property
    def following(self) -> "Month":
        """The month after it."""
        return Month(self.year + 1, 1) if self.month == 12 else Month(self.year, self.month + 1)


class Nth(NamedTuple):
    """A weekday, 0 for Monday, and which one of a month it is: the first is 1, the last -1."""

    number: int
    weekday: int

    @property
    def text(self) -> str:
        """`3FRI`."""
        return f"{self.number}{WEEKDAYS[self.weekday]}"

    def day_in(self, month: Month) -> int | None:
        """The day of a month, or None where the month has not so many of the weekday."""
        first, days = calendar.monthrange(*month)
        if self.number > 0:
            date = 1 + (self.weekday - first) % 7 + 7 * (self.number - 1)
        else:
            last = (first + days - 1) % 7
            date = days - (last - self.weekday) % 7 + 7 * (self.number + 1)
        if not 1 <= date <= days:
            return None
        return (datetime.date(*month, date) - EPOCH.date()).days

    def after(self, day: int) -> int:
        """The first such day after a day."""
        month = month_of(day)
        while (found := self.day_in(month)) is None or found <= day:
            month = month.following
        return found


def of_text(text: str) -> Nth | None:
    """The weekday that `3FRI` or `-1FRI` spells, or None."""
    found = FORM.fullmatch(text.upper())
    return Nth(int(found[1]), WEEKDAYS.index(found[2])) if found else None


def month_of(day: int) -> Month:
    """The month of a day."""
    year, month, _ = map(int, day_text(day).split("-"))
    return Month(year, month)


def entries(nth: Nth, first: Month, last: Month) -> list[Entry]:
    """An interval for each such day from one month to another: it goes to the day before the next such day."""
    found = []
    month = first
    while month <= last:
        day = nth.day_in(month)
        if day is not None and day <= LAST_DAY:
            found.append(Entry(day, min(nth.after(day) - 1, LAST_DAY)))
        month = month.following
    return found


def of_origins(days: list[int]) -> Nth | None:
    """Which weekday of their months some days are, one after the other without a gap; or None."""
    if len(days) < 2:
        return None
    weekday = weekday_of(days[0])
    for number in (1, 2, 3, 4, 5, -1, -2, -3, -4, -5):
        nth = Nth(number, weekday)
        if nth.day_in(month_of(days[0])) == days[0] and [nth.after(day) for day in days[:-1]] == days[1:]:
            return nth
    return None
