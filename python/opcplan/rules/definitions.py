"""The definitions of a plan as values: calendars, periods, applications, run cycles, predecessor lists, options.

Days are numbers since 1970-01-01, minutes those since 00.00, as in the tables (docs/rules/TABLES.md).
"""

import bisect
import dataclasses
from typing import NamedTuple

FIRST_DAY, LAST_DAY = 730, 37254  # 1972-01-01 and 2071-12-31
LAST_PLANNING_DAY = 35063  # 2065-12-31
WEEKDAYS = ("MON", "TUE", "WED", "THU", "FRI", "SAT", "SUN")


class Interval(NamedTuple):
    """The first day of an interval of a period and its last one; an open one has the last day None."""

    first: int
    last: int | None


class Entry(NamedTuple):
    """A record of a period of type N: the origin of an interval, and its end or None."""

    origin: int
    end: int | None


class Due(NamedTuple):
    """A deadline: days after the input arrival, and the minute of the day."""

    days: int
    minute: int


def weekday_of(day: int) -> int:
    """The weekday of a day, 0 for Monday."""
    return (day + 3) % 7


@dataclasses.dataclass
class Calendar:
    """What a calendar lists: weekdays (0 for Monday) and dates, each with True for a work day."""

    weekdays: dict[int, bool] = dataclasses.field(default_factory=dict)
    dates: dict[int, bool] = dataclasses.field(default_factory=dict)

    def is_work(self, day: int) -> bool:
        """Whether a day is a work day: its date counts, else its weekday; what isn't listed is a work day."""
        return self.dates.get(day, self.weekdays.get(weekday_of(day), True))


@dataclasses.dataclass
class Period:
    """A period of type A or W with its origin and interval, or of type N with its entries (first day, end or None)."""

    kind: str
    origin: int = 0
    interval: int = 0
    entries: list[Entry] = dataclasses.field(default_factory=list)

    def intervals_of(self, day: int) -> list[Interval]:
        """The intervals of type A or N that a day lies in, as first and last day; an open one has the last day None."""
        if self.kind == "A":
            first = day - (day - self.origin) % self.interval
            whole = self.origin <= day and first + self.interval - 1 <= LAST_DAY
            return [Interval(first, first + self.interval - 1)] if whole else []
        return [span for span in self.listed() if span.first <= day and (span.last is None or day <= span.last)]

    def listed(self) -> list[Interval]:
        """The intervals of type N: one without an end goes to the day before the next; the last one is open."""
        nexts: list[int | None] = [*(entry.origin for entry in self.entries[1:]), None]
        pairs = zip(self.entries, nexts)
        return [
            Interval(first, after - 1 if end is None and after is not None else end) for (first, end), after in pairs
        ]


@dataclasses.dataclass
class RunCycle:
    """A run cycle; `due` is its deadline as days and minute, or None where an excluding one has none."""

    name: str
    kind: str
    period: str
    rule: str
    offsets: list[int]
    in_effect: int
    out_effect: int | None
    time: int
    due: Due | None

    @property
    def excludes(self) -> bool:
        """Whether it takes days away that others name."""
        return self.kind == "X"


@dataclasses.dataclass
class Application:
    """An application: active or pending, with the calendar that it names, or None for the default one."""

    is_active: bool
    calendar: str | None


class WorkDays:
    """The work days of a calendar (None: every day is one), counted once so that each question is quick."""

    def __init__(self, calendar: Calendar | None) -> None:
        is_work = (calendar or Calendar()).is_work
        self.days = [day for day in range(FIRST_DAY, LAST_DAY + 1) if is_work(day)]
        self.members = set(self.days)

    def is_work(self, day: int) -> bool:
        """Whether a day is a work day."""
        return day in self.members

    def count(self, first: int, last: int) -> int:
        """How many work days there are from one day to another, both included."""
        return max(0, bisect.bisect_right(self.days, last) - bisect.bisect_left(self.days, first))

    def after(self, day: int) -> int | None:
        """The first work day after a day, or None."""
        place = bisect.bisect_right(self.days, day)
        return self.days[place] if place < len(self.days) else None

    def before(self, day: int) -> int | None:
        """The last work day before a day, or None."""
        place = bisect.bisect_left(self.days, day)
        return self.days[place - 1] if place else None


@dataclasses.dataclass
class Definitions:
    """All definitions by name; run cycles by application and name; predecessors by application and name, each with
    the hours of its limit or None."""

    calendars: dict[str, Calendar] = dataclasses.field(default_factory=dict)
    periods: dict[str, Period] = dataclasses.field(default_factory=dict)
    applications: dict[str, Application] = dataclasses.field(default_factory=dict)
    run_cycles: dict[str, dict[str, RunCycle]] = dataclasses.field(default_factory=dict)
    predecessors: dict[str, dict[str, int | None]] = dataclasses.field(default_factory=dict)
    default_calendar: str = "DEFAULT"
    max_hours: int = 504
    indexes: dict[str, tuple[Calendar | None, WorkDays]] = dataclasses.field(
        default_factory=dict, repr=False, compare=False
    )

    def calendar_name(self, app: str) -> str:
        """The name of the calendar that an application goes by, also where it isn't defined."""
        return self.applications[app].calendar or self.default_calendar

    def lacks_calendar(self, app: str) -> bool:
        """Whether an application names a calendar that isn't defined and isn't the default one."""
        name = self.applications[app].calendar
        return name not in (None, self.default_calendar) and name not in self.calendars

    def lacking_periods(self, app: str) -> list[str]:
        """The periods that an application's run cycles name and that aren't defined, sorted."""
        cycles = self.run_cycles.get(app, {}).values()
        return sorted({cycle.period for cycle in cycles if cycle.period not in self.periods})

    def work_days(self, app: str) -> WorkDays:
        """The work days that an application goes by; every day is one where the default calendar isn't defined."""
        name = self.calendar_name(app)
        calendar = self.calendars.get(name)
        held, index = self.indexes.get(name, (None, None))
        if index is None or held is not calendar:
            index = WorkDays(calendar)
            self.indexes[name] = (calendar, index)
        return index
