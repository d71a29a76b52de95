"""Which days the definitions name before a change and after it, of each application that the change concerns. No I/O.

What always holds (tests/test_edits.py, with the plain planner over random definitions): an application that isn't
concerned has the same days and times before and after, and the signs of one that is are those of both plans.

A sign for each day of a span: `=` where the same runs are named before and after, `-` where its runs go, `+` where runs
come, `~` where other runs are named instead (another time, deadline or run cycle), `.` where none is named, and a blank
before the current plan's end, because those days aren't planned again."""

from collections.abc import Mapping
from typing import Any, NamedTuple

from opcplan.rules import moments, naming
from opcplan.rules.definitions import FIRST_DAY, LAST_DAY, Definitions, RunCycle

SAME, GOES, COMES, OTHER, NONE, PLANNED = "=", "-", "+", "~", ".", " "
MONTHS = 12  # of a span that nobody names
MOST_DAYS = 1_462
# days of one application whose runs are shown, and applications of which any are
MOST_SHOWN, MOST_APPS = 62, 50


class Span(NamedTuple):
    """The days that are looked at; those before the moment `begin` aren't planned again."""

    first: int
    last: int
    begin: int = 0

    @property
    def days(self) -> range:
        """Its days."""
        return range(self.first, self.last + 1)


class Run(NamedTuple):
    """A run that the definitions name: its input arrival and deadline, and the run cycle."""

    ia: int
    deadline: int
    cycle: str

    def values(self) -> dict[str, str]:
        """As JSON has it."""
        return {"ia": moments.moment_word(self.ia), "deadline": moments.moment_word(self.deadline),
                "run_cycle": self.cycle}


Runs = tuple[Run, ...]


class Difference(NamedTuple):
    """A day with other runs: those before the change and those after it."""

    day: int
    was: Runs
    now: Runs


class AppDays(NamedTuple):
    """The days of an application before and after a change, as signs and with the runs of each that differs; and why
    nothing of it is planned before and after, empty where it is."""

    app: str
    signs: str
    differences: tuple[Difference, ...]
    obstacles: tuple[str, str]

    def values(self, most: int = MOST_SHOWN) -> dict[str, Any]:
        """As JSON has it, with the runs of at most so many days."""
        shown = [{"day": moments.day_text(one.day), "was": [run.values() for run in one.was],
                  "now": [run.values() for run in one.now]} for one in self.differences[:most]]
        count = self.signs.count
        return {"app": self.app, "signs": self.signs, "goes": count(GOES), "comes": count(COMES),
                "stays": count(SAME), "other": count(OTHER), "differences": shown,
                "obstacle_before": self.obstacles[0], "obstacle": self.obstacles[1]}


def usual_span(near: int, plan_end: int | None) -> Span:
    """A year from the first day of the month in which the current plan ends, else of a moment."""
    return months_from((near if plan_end is None else plan_end) // moments.DAY, plan_end)


def months_from(day: int, plan_end: int | None) -> Span:
    """A year from the first day of a day's month on."""
    year, month = map(int, moments.day_text(day).split("-")[:2])
    first = moments.day_of(f"{year}-{month:02}-01")
    after = moments.day_of(f"{year + 1}-{month:02}-01")
    return Span(FIRST_DAY if first is None else first, LAST_DAY if after is None else after - 1, plan_end or 0)


def signature(defined: Definitions, app: str) -> tuple[object, ...]:
    """All by which the days of an application are named."""
    obstacle = naming.obstacle_of(defined, app)
    if obstacle is not None:
        return (obstacle,)
    cycles = defined.run_cycles.get(app, {})
    periods = {cycle.period: defined.periods[cycle.period] for cycle in cycles.values()}
    return None, defined.calendars.get(defined.calendar_name(app)), cycles, periods


def concerned(before: Definitions, after: Definitions) -> list[str]:
    """The applications whose days a change may change, in order."""
    return [app for app in sorted({*before.applications, *after.applications})
            if signature(before, app) != signature(after, app)]


class Namer:
    """The runs that definitions name. Which days a run cycle names is found once for all that are alike but for their
    names and times, because an installation has thousands of run cycles, and few such kinds."""

    def __init__(self, defined: Definitions, span: Span) -> None:
        self.defined, self.span = defined, span
        self.found: dict[tuple[object, ...], frozenset[int]] = {}

    def runs(self, app: str) -> Mapping[int, Runs]:
        """The runs of an application by day."""
        if naming.obstacle_of(self.defined, app) is not None:
            return {}
        naming_by_day: dict[int, list[RunCycle]] = {}
        for _, cycle in sorted(self.defined.run_cycles.get(app, {}).items()):
            for day in self.days(app, cycle):
                naming_by_day.setdefault(day, []).append(cycle)
        found = {}
        for day, cycles in sorted(naming_by_day.items()):
            runs = [Run(day * moments.DAY + one.time, one.deadline, one.cycle.name)
                    for one in naming.times_of(cycles, day) if not one.excluded_by]
            if kept := tuple(run for run in runs if run.ia >= self.span.begin):
                found[day] = kept
        return found

    def days(self, app: str, cycle: RunCycle) -> frozenset[int]:
        """The days that a run cycle of an application names."""
        key = (self.defined.calendar_name(app), cycle.period, cycle.rule, tuple(cycle.offsets), cycle.in_effect,
               cycle.out_effect)
        if key not in self.found:
            period, work = self.defined.periods[cycle.period], self.defined.work_days(app)
            self.found[key] = frozenset(day for day in self.span.days if naming.answer(cycle, period, work, day).names)
        return self.found[key]


def sign(was: Runs, now: Runs) -> str:
    """The sign of a day."""
    if was == now:
        return SAME if was else NONE
    return GOES if not now else OTHER if was else COMES


def of_change(before: Definitions, after: Definitions, span: Span) -> list[AppDays]:
    """The days of each application that a change concerns; first those with most days that differ."""
    old, new = Namer(before, span), Namer(after, span)
    found = []
    for app in concerned(before, after):
        was, now = old.runs(app), new.runs(app)
        signs = "".join(PLANNED if (day + 1) * moments.DAY <= span.begin else sign(was.get(day, ()), now.get(day, ()))
                        for day in span.days)
        differences = tuple(Difference(day, was.get(day, ()), now.get(day, ())) for day in span.days
                            if was.get(day) != now.get(day))
        found.append(AppDays(app, signs, differences, (obstacle(before, app), obstacle(after, app))))
    return sorted(found, key=lambda one: (-len(one.differences), one.app))


OBSTACLES = {"unknown": "it isn't defined", "pending": "it is pending", "calendar": "its calendar isn't defined",
             "periods": "a period of it isn't defined"}


def obstacle(defined: Definitions, app: str) -> str:
    """Why nothing of an application is planned, empty where it is."""
    found = naming.obstacle_of(defined, app)
    if found is None and not defined.run_cycles.get(app):
        return "it has no run cycle"
    return OBSTACLES[found] if found else ""
