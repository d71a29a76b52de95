"""How far definitions reach: the periods, calendars and run cycles that end before the long-term plan does."""

import bisect
import datetime
from collections import defaultdict
from collections.abc import Callable, Collection
from typing import NamedTuple

from opcplan.rules import naming, nth_weekday
from opcplan.rules.definitions import Calendar, Definitions, Period, RunCycle, WorkDays
from opcplan.rules.moments import EPOCH, day_text
from opcplan.rules.naming_words import few

KINDS = {
    "ends": "a period that ends before the plan does",
    "dates": "a calendar without any date in the days that are planned",
    "over": "a run cycle that goes out of effect in them and leaves its application without occurrences",
}
MONTH, HALF = 31, 183  # days in which a calendar may well list no date
YEAR = 366  # how long a calendar of one date lasts


class Shortfall(NamedTuple):
    """What ends before the plan does: its kind, what tells it from others, and what is to be said."""

    kind: str
    about: tuple[object, ...]
    text: str

    @property
    def ends(self) -> int:
        """The last day that it covers."""
        day = self.about[-2]
        assert isinstance(day, int), "the day before the plan's last one"
        return day

    @property
    def names(self) -> tuple[str, ...]:
        """What tells it from others, however far the plan goes."""
        return (self.kind, *map(str, self.about[:-2]), day_text(self.ends))


class Last(NamedTuple):
    """The last day on which a run cycle can name one, and whether its period decides that, or else its validity."""

    app: str
    cycle: RunCycle
    day: int
    is_by_period: bool


def shortfalls(defined: Definitions, first: int, last: int, only: Collection[str] | None = None) -> list[Shortfall]:
    """All that ends before the last day of a plan, whose days from `first` on are new or still to come; where `only`
    some applications have changed since that was asked last, what may be new."""
    apps = sorted(defined.applications if only is None else (app for app in only if app in defined.applications))
    lasts = [one for app in apps if naming.obstacle_of(defined, app) is None for one in lasts_of(defined, app, last)]
    by_app: dict[str, list[Last]] = defaultdict(list)
    for one in lasts:
        by_app[one.app].append(one)
    ends = {app: end_of(defined, app, ended) for app, ended in by_app.items()}
    for app in apps:
        if naming.obstacle_of(defined, app) is None:
            lasts += unexcluded(defined, app, last, ends.get(app))
    return [*of_periods(defined, lasts, ends, last), *of_calendars(defined, apps, first, last),
            *of_run_cycles(lasts, ends, first, last)]


def lasts_of(defined: Definitions, app: str, last: int) -> list[Last]:
    """The run cycles of an application that name nothing any more at the end of a plan."""
    found = []
    for _, cycle in sorted(defined.run_cycles.get(app, {}).items()):
        if cycle.excludes or cycle.out_effect is not None and cycle.out_effect <= cycle.in_effect:
            continue
        listed = last_listed(defined, app, cycle, last)
        until = None if cycle.out_effect is None else cycle.out_effect - 1
        day = min((one for one in (listed, until) if one is not None), default=None)
        if day is not None and day < last:
            found.append(Last(app, cycle, day, day == listed))
    return found


def unexcluded(defined: Definitions, app: str, last: int, end: int | None) -> list[Last]:
    """The excluding run cycles of an application that take no day away any more, though others of it still name some:
    where their period would have listed another interval before the plan ends, as far apart as the longest are."""
    cycles, found = defined.run_cycles.get(app, {}), []
    for _, cycle in sorted(cycles.items()):
        period = defined.periods[cycle.period]
        if not cycle.excludes or period.kind != "N" or all(other.excludes for other in cycles.values()):
            continue
        first, day = period.listed()[-1]
        origins = [entry.origin for entry in period.entries]
        longest = max((after - before for before, after in zip(origins, origins[1:])), default=YEAR)
        if day is None:
            day = last_counted(cycle, defined.work_days(app), first)
        is_meant = cycle.out_effect is not None and cycle.out_effect <= day + 1
        if first + longest <= last and not is_meant and (end is None or day < end):
            found.append(Last(app, cycle, day, True))
    return found


def last_listed(defined: Definitions, app: str, cycle: RunCycle, last: int) -> int | None:
    """The last day that a listed period gives a run cycle, also by its free-day rule; None where the period goes on. A
    last interval without an end goes on until the longest of the others would be over."""
    period = defined.periods[cycle.period]
    if period.kind != "N":
        return None
    first, end = period.listed()[-1]
    if end is not None and (end >= last or cycle.rule != "2"):
        return end
    work = defined.work_days(app)
    if end is None:
        origins = [entry.origin for entry in period.entries]
        longest = max((after - before for before, after in zip(origins, origins[1:])), default=None)
        if longest is None or last < first + longest:
            return None
        end = last_counted(cycle, work, first)
    if cycle.rule == "2" and not work.is_work(end):
        moved = work.after(end)
        if moved is not None and any(hit.raw <= end for hit in naming.by_raw_days(cycle, period, work, moved)[0]):
            return moved
    return end


def last_counted(cycle: RunCycle, work: WorkDays, first: int) -> int:
    """The last day that offsets give in an interval that has no end; the day before it where all count from the end."""
    count = max(cycle.offsets, default=0)
    if count < 1:
        return first - 1
    if cycle.rule != "E":
        return first + count - 1
    place = bisect.bisect_left(work.days, first) + count - 1
    return work.days[min(place, len(work.days) - 1)]


def end_of(defined: Definitions, app: str, lasts: list[Last]) -> int | None:
    """The last day on which an application can have an occurrence, whose run cycles end so; None where one goes on."""
    ended = {one.cycle.name: one.day for one in lasts}
    going = [cycle for name, cycle in defined.run_cycles[app].items() if not cycle.excludes and name not in ended
             and (cycle.out_effect is None or cycle.in_effect < cycle.out_effect)]
    return None if going else max(ended.values())


# What is said.


def of_periods(
    defined: Definitions, lasts: list[Last], ends: dict[str, int | None], last: int
) -> list[Shortfall]:
    """The periods that end before a plan, with what has no occurrence after them."""
    by_period: dict[str, list[Last]] = defaultdict(list)
    for one in lasts:
        if one.is_by_period:
            by_period[one.cycle.period].append(one)
    found = []
    for name, members in sorted(by_period.items()):
        period, after = defined.periods[name], max(one.day for one in members)
        first, end = period.listed()[-1]
        begins = f"{name} ends {day_text(end)}" if end is not None else \
            f"{name} lists no interval after the one from {day_text(first)} on"
        naming_ones = [one for one in members if not one.cycle.excludes]
        wholly = sorted({one.app for one in naming_ones if is_within(ends[one.app], after)})
        partly = [f"{one.cycle.name} of {one.app}" for one in naming_ones if one.app not in wholly]
        excluding = [f"{one.cycle.name} of {one.app}" for one in members if one.cycle.excludes]
        since = "it" if after == end else day_text(after)
        said = [f"{few(wholly)} {'has' if len(wholly) == 1 else 'have'} no occurrence after {since}"] if wholly else []
        said += [f"{few(partly)} {'names' if len(partly) == 1 else 'name'} no day after {since}"] if partly else []
        said += [f"{few(excluding)} {'excludes' if len(excluding) == 1 else 'exclude'} no day after {since}"] \
            if excluding else []
        text = f"{begins}, but the plan goes to {day_text(last)}: {', and '.join(said)}. {way_on(name, period, last)}"
        found.append(Shortfall("ends", (name, end or first, last), text))
    return found


def is_within(end: int | None, after: int) -> bool:
    """Whether an application ends at the latest on a day."""
    return end is not None and end <= after


def way_on(name: str, period: Period, last: int) -> str:
    """The command that adds the intervals which a period lacks."""
    verb = form_of(period)
    to = day_text(last) if verb == "weeks" else day_text(last)[:7]
    if verb is None and (nth := nth_weekday.of_origins([entry.origin for entry in period.entries])) is not None:
        verb = f"weekday {nth.text}"
    if verb is None:
        return f"`./plan edit PLAN.db period {name} add ORIGIN END` adds an interval."
    return f"`./plan edit PLAN.db period {name} {verb} ..{to}` adds the rest."


def form_of(period: Period) -> str | None:
    """What the intervals of a listed period are: `months`, `quarters`, `weeks`, or None for others."""
    spans = period.listed()
    follow = [span.first for span in spans[1:]]
    for verb, after in NEXT.items():
        begins = [after(span.first) for span in spans]
        end = spans[-1].last
        is_so = begins[:-1] == follow and (end is None or end + 1 == begins[-1]) and (follow or end is not None)
        if is_so and (verb == "weeks" or all(day_text(span.first).endswith("-01") for span in spans)):
            return verb
    return None


def months_after(day: int, count: int) -> int:
    """The first day of the month that follows a day's own by some months."""
    year, month, _ = map(int, day_text(day).split("-"))
    years, months = divmod(month - 1 + count, 12)
    return (datetime.date(year + years, months + 1, 1) - EPOCH.date()).days


# by what the intervals of a listed period are: the first day of the one that follows
NEXT: dict[str, Callable[[int], int]] = {
    "months": lambda day: months_after(day, 1),
    "quarters": lambda day: months_after(day, 3),
    "weeks": lambda day: day + 7,
}


def of_calendars(defined: Definitions, apps: list[str], first: int, last: int) -> list[Shortfall]:
    """The calendars whose dates end before a plan, with those of some applications that go by them."""
    users: dict[str, list[str]] = defaultdict(list)
    for app in apps:
        if defined.applications[app].is_active and defined.run_cycles.get(app):
            users[defined.calendar_name(app)].append(app)
    found = []
    for name, apps in sorted(users.items()):
        calendar = defined.calendars.get(name, Calendar())
        if not calendar.dates or last - max(calendar.dates) <= silence_of(calendar, first):
            continue
        end = max(calendar.dates)
        text = f"{name} lists no date after {day_text(end)}, but the plan goes to {day_text(last)}: {few(apps)} "
        text += f"{'uses' if len(apps) == 1 else 'use'} it. `./plan edit PLAN.db calendar {name} DAY free` adds a "
        text += f"holiday, `./plan import --ics FILE --calendar {name} PLAN.db` those of a file."
        found.append(Shortfall("dates", (name, end, last), text))
    return found


def silence_of(calendar: Calendar, first: int) -> int:
    """For how many days after its last date a calendar may list none: a month where all days from `first` on lack one,
    else half a year, or the longest that it has between two dates."""
    days = sorted(calendar.dates)
    longest = max((after - before for before, after in zip(days, days[1:])), default=YEAR)
    return MONTH if days[-1] < first else max(longest, HALF)


def of_run_cycles(lasts: list[Last], ends: dict[str, int | None], first: int, last: int) -> list[Shortfall]:
    """The run cycles that go out of effect, after which their applications have no occurrence."""
    found = []
    for app, cycle, day, is_by_period in lasts:
        if is_by_period or day != ends[app] or day + 1 < first:
            continue
        text = f"run cycle {cycle.name} of {app} is out of effect from {day_text(day + 1)} on, but the plan goes to "
        text += f"{day_text(last)}: {app} has no occurrence after {day_text(day)}. "
        text += f"`./plan edit PLAN.db run-cycle {app} {cycle.name} out-of-effect=` keeps it in effect."
        found.append(Shortfall("over", (app, cycle.name, day, last), text))
    return found
