"""Which run cycles name a day, by which offset and free-day rule, and why the others don't.

It stands on definitions alone and asks about one day: `names` is the whole answer for an application. What the
answer's parts mean in words stands in naming_words.py.
"""

import dataclasses
from collections.abc import Callable, Iterable, Sequence

from opcplan.rules.definitions import FIRST_DAY, LAST_DAY, Definitions, Interval, Period, RunCycle, WorkDays


@dataclasses.dataclass(frozen=True)
class Hit:
    """One way in which a day is named: the offset, the day that it gives before the rule, and its interval."""

    offset: int
    raw: int
    interval: Interval | None  # first and last day; None in a period of work days


@dataclasses.dataclass(frozen=True)
class Reason:
    """Why a run cycle doesn't name a day; `kind` is one of these, and the fields that it needs are given.

    period: its period isn't defined. never: it is out of effect before it is in effect. early, over: the day is
    before its in-effect day, or on or after its out-of-effect day. free: its offsets count work days, and the day is
    free. omitted: an offset gives this free day, and rule 4 leaves it out. moved: an offset gives this free day, and
    the rule moves it to the day `to` (None: there is none). between: the day lies in no interval. offsets: it is day
    number `place` of its interval, `from_end` counted from the end, and no offset is either. past: the offset is
    past this interval. open: the offset counts from the end, and this interval has none.
    """

    kind: str
    offset: int | None = None
    to: int | None = None
    interval: Interval | None = None
    place: int | None = None
    from_end: int | None = None


@dataclasses.dataclass(frozen=True)
class Answer:
    """What one run cycle says of a day: the ways in which it names it, validity aside, and why it doesn't."""

    cycle: RunCycle
    hits: tuple[Hit, ...]
    reasons: tuple[Reason, ...]

    @property
    def names(self) -> bool:
        """Whether it names the day."""
        return not self.reasons


@dataclasses.dataclass(frozen=True)
class Named:
    """A time at which a day is named: the run cycle that gives the deadline, the others, and those that exclude it."""

    time: int
    cycle: RunCycle
    deadline: int
    others: tuple[str, ...]
    excluded_by: tuple[str, ...]


@dataclasses.dataclass(frozen=True)
class DayNames:
    """All that is said of an application and a day; `obstacle` is why it can't be planned at all, or None."""

    obstacle: str | None  # unknown, pending, calendar, periods
    answers: tuple[Answer, ...]
    times: tuple[Named, ...]  # of Named, also the excluded ones

    @property
    def is_named(self) -> bool:
        """Whether an occurrence is named on the day, whatever its time."""
        return self.obstacle is None and any(not named.excluded_by for named in self.times)


Found = tuple[list[Hit], list[Reason]]  # the ways in which a day is named, and why it isn't


def names(defined: Definitions, app: str, day: int) -> DayNames:
    """What the run cycles of an application say of a day."""
    obstacle = obstacle_of(defined, app)
    if obstacle in ("unknown", "calendar"):
        return DayNames(obstacle, (), ())
    work = defined.work_days(app)
    cycles = [cycle for _, cycle in sorted(defined.run_cycles.get(app, {}).items())]
    answers = tuple(answer(cycle, defined.periods.get(cycle.period), work, day) for cycle in cycles)
    return DayNames(obstacle, answers, times_of([found.cycle for found in answers if found.names], day))


def times_of(naming: Sequence[RunCycle], day: int) -> tuple[Named, ...]:
    """The times at which run cycles that name a day do so, in the order of their names."""
    times = []
    for time in sorted({cycle.time for cycle in naming if not cycle.excludes}):
        first, *others = [cycle for cycle in naming if cycle.time == time and not cycle.excludes]
        excluded_by = tuple(cycle.name for cycle in naming if cycle.time == time and cycle.excludes)
        assert first.due is not None, "a run cycle that excludes nothing has a deadline"
        deadline = (day + first.due.days) * 1440 + first.due.minute
        times.append(Named(time, first, deadline, tuple(cycle.name for cycle in others), excluded_by))
    return tuple(times)


def obstacle_of(defined: Definitions, app: str) -> str | None:
    """Why no planning statement can name a day of an application: a word of DayNames, or None."""
    if app not in defined.applications:
        return "unknown"
    if defined.lacks_calendar(app):
        return "calendar"
    if not defined.applications[app].is_active:
        return "pending"
    return "periods" if defined.lacking_periods(app) else None


def answer(cycle: RunCycle, period: Period | None, work: WorkDays, day: int) -> Answer:
    """What a run cycle says of a day; `work` is its application's WorkDays, `period` its period or None."""
    if period is None:
        return Answer(cycle, (), (Reason("period"),))
    if period.kind == "W":
        hits, reasons = by_work_period(cycle, period, work, day)
    elif cycle.rule == "E":
        hits, reasons = by_work_days(cycle, period, work, day)
    else:
        hits, reasons = by_raw_days(cycle, period, work, day)
    if cycle.out_effect is not None and cycle.out_effect <= cycle.in_effect:
        reasons = [Reason("never"), *reasons]
    elif day < cycle.in_effect:
        reasons = [Reason("early"), *reasons]
    elif cycle.out_effect is not None and cycle.out_effect <= day:
        reasons = [Reason("over"), *reasons]
    return Answer(cycle, tuple(hits), tuple(reasons))


def by_work_period(cycle: RunCycle, period: Period, work: WorkDays, day: int) -> Found:
    """Hits and reasons in a period of work days, whatever the rule."""
    if day < period.origin:
        return [], [Reason("between")]
    if not work.is_work(day):
        return [], [Reason("free")]
    place = work.count(period.origin, day - 1) % period.interval + 1
    from_end = place - period.interval - 1
    hits = [Hit(offset, day, None) for offset in dict.fromkeys(cycle.offsets) if offset in (place, from_end)]
    past = [Reason("past", offset) for offset in dict.fromkeys(cycle.offsets) if abs(offset) > period.interval]
    return hits, [] if hits else [Reason("offsets", place=place, from_end=from_end), *past]


def by_work_days(cycle: RunCycle, period: Period, work: WorkDays, day: int) -> Found:
    """Hits and reasons by rule E: offsets count the work days of an interval."""
    if not period.intervals_of(day):
        return [], [Reason("between")]
    if not work.is_work(day):
        return [], [Reason("free")]
    return by_offsets(cycle, period.intervals_of(day), work.count, day)


def by_raw_days(cycle: RunCycle, period: Period, work: WorkDays, day: int) -> Found:
    """Hits and reasons by the rules 1 to 4: offsets count all days, and a free one goes as the rule says."""
    found, missed = by_offsets(cycle, period.intervals_of(day), all_days, day)
    if work.is_work(day) or cycle.rule == "3":
        hits = list(found)
        for raw in moved_days_of(cycle.rule, work, day):
            hits += by_offsets(cycle, period.intervals_of(raw), all_days, raw)[0]
        return hits, [] if hits else missed or [Reason("between")]
    if not found:
        return [], missed or [Reason("between")]
    if cycle.rule == "4":
        return [], [Reason("omitted", found[0].offset, interval=found[0].interval)]
    to = work.before(day) if cycle.rule == "1" else work.after(day)
    return [], [Reason("moved", found[0].offset, to=to, interval=found[0].interval)]


def by_offsets(cycle: RunCycle, intervals: list[Interval], count: Callable[[int, int], int], day: int) -> Found:
    """The offsets that give a day in one of its intervals, or why none does; `count` counts days between two."""
    hits: list[Hit] = []
    reasons: list[Reason] = []
    for first, last in intervals:
        place = count(first, day)
        from_end = None if last is None else -count(day, last)
        for offset in dict.fromkeys(cycle.offsets):
            if offset in (place, from_end):
                hits.append(Hit(offset, day, Interval(first, last)))
        reasons.append(Reason("offsets", interval=Interval(first, last), place=place, from_end=from_end))
        for offset in dict.fromkeys(cycle.offsets):
            if last is None and offset < 0:
                reasons.append(Reason("open", offset, interval=Interval(first, last)))
            elif last is not None and abs(offset) > count(first, last):
                reasons.append(Reason("past", offset, interval=Interval(first, last)))
    return hits, [] if hits else reasons


def all_days(first: int, last: int) -> int:
    """How many days there are from one to another, both included."""
    return last - first + 1


def moved_days_of(rule: str, work: WorkDays, day: int) -> Iterable[int]:
    """The free days that the rules 1 and 2 move to a work day."""
    if rule == "1":
        return range(day + 1, work.after(day) or LAST_DAY + 1)
    return range(day - 1, work.before(day) or FIRST_DAY - 1, -1) if rule == "2" else ()
