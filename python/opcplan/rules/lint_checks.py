"""The checks of ./plan lint, over what is known at a place of a stream."""

import bisect
import dataclasses
from collections.abc import Collection, Iterator

from opcplan.rules import loops, naming
from opcplan.rules.definitions import FIRST_DAY, LAST_DAY, Interval, Period, RunCycle, WorkDays
from opcplan.rules.known import Known
from opcplan.rules.moments import DAY, day_text, minute_text, moment_text
from opcplan.rules.naming_words import count_text, few, meant_text

KINDS = {  # those that a stream shows by itself
    "past": "an offset that is past its interval",
    "open": "an offset counted from the end of an interval that has none",
    "exclusion": "an exclusion at a time that no run cycle has",
    "effect": "a run cycle that is out of effect before it is in effect",
    "due": "a deadline before the input arrival",
    "unknown": "a predecessor that isn't defined",
    "later": "a predecessor that arrives later in the same night, so that yesterday's counts",
    "idle": "an active application without run cycles",
    "calendar": "a default calendar that isn't defined",
    "loop": "a loop of lists of predecessors",
}
KINDS_BY_PLAN = {  # those that show beside what a plan defines
    "lacking": "a calendar, a period or an application that isn't defined and that something names",
    "pending": "a predecessor that is pending",
}
About = tuple[object, ...]
Arrivals = dict[str, list[tuple[int, int]]]  # by application: its arrivals with their deadlines
# what the days of a run cycle depend on: its period and work days, by their places in memory, and its own fields
Pattern = tuple[int, int, str, tuple[int, ...], int, int | None]
WINDOW = 42  # days over which arrivals are compared
NIGHT = 6 * 60  # minutes within which a later predecessor belongs to the same night


@dataclasses.dataclass(frozen=True)
class Finding:
    """What is likely a slip: its kind, what it is about, the line of the record (None: it is in the plan), and what
    is to be said."""

    kind: str
    about: tuple[object, ...]
    line: int | None
    text: str


@dataclasses.dataclass
class LintCache:
    """What was worked out before: arrivals within a span of days, until `forget` drops them; days and offsets of run
    cycles, as long as there are the same periods and calendars, which are held with them; who is on a loop of lists."""

    arrivals: Arrivals = dataclasses.field(default_factory=dict)
    span: range = range(0)
    looped: set[object] = dataclasses.field(default_factory=set)
    days: dict[Pattern, tuple[Period, WorkDays, list[int]]] = dataclasses.field(default_factory=dict)
    offsets: dict[object, tuple[Period, WorkDays | None, list[tuple[str, About, str]]]] = dataclasses.field(
        default_factory=dict
    )

    def look_at(self, span: range) -> None:
        """From here on arrivals within a span of days are worked out."""
        if span != self.span:
            self.span = span
            self.forget(None)
            self.days.clear()

    def forget(self, apps: Collection[str] | None) -> None:
        """Drops the arrivals of some applications, or of all."""
        for app in list(self.arrivals) if apps is None else apps:
            self.arrivals.pop(app, None)


def all_of(now: Known, held: LintCache | None = None, only: set[str] | None = None) -> list[Finding]:
    """All findings over what is known; where `only` some applications have changed since that was asked last, those
    that may be new."""
    held = LintCache() if held is None else held
    found: list[Finding] = []
    for app in chosen(now.defined.run_cycles, only):
        for name, cycle in sorted(now.defined.run_cycles[app].items()):
            line = now.line_of("run-cycles", app, name)
            for kind, about, text in run_cycle_checks(now, app, cycle, held):
                found.append(Finding(kind, (app, name, *about), line, f"run cycle {name} of {app}: {text}"))
    found += idle_applications(now, only) + default_calendar(now) + predecessors(now, held, only)
    if only is None or is_near_a_loop(now, held, only):
        found += loops_of_lists(now)
        held.looped = {app for one in found if one.kind == "loop" for app in one.about}
    return found + lacking(now, only) if now.is_whole else found


def chosen(names: Collection[str], only: set[str] | None) -> list[str]:
    """Some names in order: all, or those of them that are in `only`."""
    return sorted(names if only is None else (name for name in only if name in names))


def is_near_a_loop(now: Known, held: LintCache, only: set[str]) -> bool:
    """Whether one of some applications is on a loop of lists, or was."""
    lists = now.defined.predecessors
    return any(app in held.looped or app in lists and loops.is_on_one(lists, app) for app in only)


def elsewhere(now: Known) -> str:
    """What is to be said behind `isn't defined`, where a plan may define it."""
    return "" if now.is_whole else " in this stream"


def run_cycle_checks(
    now: Known, app: str, cycle: RunCycle, held: LintCache | None = None
) -> Iterator[tuple[str, About, str]]:
    """Kind, further names and text of what is found of one run cycle."""
    held = LintCache() if held is None else held
    if cycle.out_effect is not None and cycle.out_effect <= cycle.in_effect:
        out, since = day_text(cycle.out_effect), day_text(cycle.in_effect)
        yield "effect", (), f"it is out of effect from {out} on and in effect from {since} on, so it never names a day"
    if cycle.due is not None and not cycle.excludes and cycle.due.days * DAY + cycle.due.minute < cycle.time:
        due, time = minute_text(cycle.due.minute), minute_text(cycle.time)
        yield "due", (), f"it is due at {due} of the day on which it arrives at {time}, before it arrives"
    times = sorted({other.time for other in now.defined.run_cycles[app].values() if not other.excludes})
    if cycle.excludes and cycle.time not in times:
        others = f"the others arrive at {', '.join(map(minute_text, times))}" if times else "there is none"
        yield "exclusion", (), f"it excludes {minute_text(cycle.time)}, at which no other one arrives ({others})"
    period = now.defined.periods.get(cycle.period)
    if period is not None and (app not in now.defined.applications or not now.defined.lacks_calendar(app)):
        work = now.defined.work_days(app) if app in now.defined.applications else None
        key = (id(period), id(work), cycle.period, cycle.rule, tuple(cycle.offsets), cycle.in_effect, cycle.out_effect,
               now.bounds, now.is_whole)
        if key not in held.offsets:
            held.offsets[key] = period, work, list(offset_checks(now, app, cycle, period))
        yield from held.offsets[key][2]


def offset_checks(now: Known, app: str, cycle: RunCycle, period: Period) -> Iterator[tuple[str, About, str]]:
    """What is found of a run cycle's offsets."""
    offsets = list(dict.fromkeys(cycle.offsets))
    if period.kind == "W":
        for offset in offsets:
            if abs(offset) > period.interval:
                most = count_text(period.interval, "work day")
                yield "past", (offset,), f"offset {offset} is past each interval of {cycle.period}, which has {most}"
        return
    spans, by_work = spans_of(cycle, period), cycle.rule == "E"
    lengths = [length_of(now, app, by_work, span) for span in spans if span[1] is not None]
    most = count_text(max(lengths, default=0), "work day" if by_work else "day")
    most += ", by this stream alone" if by_work and not now.is_whole else ""
    for offset in offsets:
        short = [span for span, length in zip(spans, lengths) if length < abs(offset)]
        what = f"offset {offset} is past {'each interval' if len(short) == len(spans) else f'{len(short)} of the'}"
        if spans and len(short) == len(spans):
            yield "past", (offset,), f"{what} of {cycle.period}, the longest of which has {most}: it never names a day"
        elif short and not by_work:
            first = day_text(short[0][0])
            yield "past", (offset,), f"{what} {len(spans)} intervals of {cycle.period}, such as the one from {first} on"
        if offset < 0 and len(lengths) < len(spans) and not is_beyond(now, spans[-1]):
            where = f"the last interval of {cycle.period}, from {day_text(spans[-1][0])} on, which has no end"
            yield "open", (offset,), f"offset {offset} names nothing in {where}"


def spans_of(cycle: RunCycle, period: Period) -> list[Interval]:
    """The intervals in which a run cycle is in effect; of type A one stands for all where days alone are counted."""
    until = LAST_DAY + 1 if cycle.out_effect is None else cycle.out_effect
    if period.kind == "N":
        return [span for span in period.listed() if span[0] < until and (span[1] is None or cycle.in_effect <= span[1])]
    begin = period.origin + max(0, cycle.in_effect - period.origin) // period.interval * period.interval
    end = min(until, LAST_DAY + 2 - period.interval)
    if cycle.rule != "E":
        end = min(end, begin + 1)
    return [Interval(first, first + period.interval - 1) for first in range(begin, end, period.interval)]


def length_of(now: Known, app: str, by_work: bool, span: Interval) -> int:
    """How many days of an interval are counted."""
    assert span.last is not None, "days are counted of an interval that has an end"
    if by_work and app in now.defined.applications:
        return now.defined.work_days(app).count(span.first, span.last)
    return span.last - span.first + 1


def is_beyond(now: Known, span: Interval) -> bool:
    """Whether an interval begins after the plan that the stream makes."""
    return now.bounds is not None and now.bounds[1] < span[0]


def idle_applications(now: Known, only: set[str] | None) -> list[Finding]:
    """Active applications without run cycles."""
    none = elsewhere(now)
    return [
        Finding("idle", (app,), now.line_of("applications", app), f"{app} is active, but has no run cycles{none}")
        for app in chosen(now.defined.applications, only)
        if now.defined.applications[app].is_active and not now.defined.run_cycles.get(app)
    ]


def default_calendar(now: Known) -> list[Finding]:
    """A default calendar that isn't defined, where some active application goes by it."""
    name = now.defined.default_calendar
    if name in now.defined.calendars:
        return []
    users = [app for app, application in sorted(now.defined.applications.items())
             if application.is_active and application.calendar in (None, name)]
    if not users:
        return []
    given = now.lines.get(("options", None), {}).get(())
    line = now.gone.get(("calendars", name)) or given
    line = line or min(filter(None, (now.line_of("applications", app) for app in users)), default=None)
    so = "so" if now.is_whole else "and if the plan has none either,"
    none = f"isn't defined{elsewhere(now)}{meant_text(name, now.defined.calendars)}"
    text = f"the default calendar {name} {none}, {so} each day is a work day for {few(users)}"
    return [Finding("calendar", (name,), line, text)]


def predecessors(now: Known, held: LintCache | None = None, only: set[str] | None = None) -> list[Finding]:
    """Predecessors that aren't defined, and those that arrive later in the same night."""
    held = LintCache() if held is None else held
    held.look_at(window(now))
    found: list[Finding] = []
    lists = now.defined.predecessors
    near = None if only is None else {app for app in lists if app in only or not only.isdisjoint(lists[app])}
    for app in chosen(lists, near):
        for other, within in lists[app].items():
            line = now.line_of("predecessors", app, other)
            if other not in now.defined.applications:
                line = line or now.gone.get(("applications", other))
                text = f"{app} waits for {other}, which isn't defined{elsewhere(now)}"
                text += meant_text(other, now.defined.applications)
                none = "; if the plan has none either, it waits for nothing"
                text += ", so it waits for nothing" if now.is_whole else none
                found.append(Finding("unknown", (app, other), line, text))
            elif now.is_whole and not now.defined.applications[other].is_active:
                text = f"{app} waits for {other}, which is pending, so it is no longer planned"
                found.append(Finding("pending", (app, other), line, text))
            elif other != app:
                both = (arrivals_of(now, name, held) for name in (app, other))
                text = later_text(app, other, within, *both)
                text += f"{', by this stream alone' if text and not now.is_whole else ''}"
                found += [Finding("later", (app, other), line, text)] if text else []
    return found


def loops_of_lists(now: Known) -> list[Finding]:
    """Loops of the lists of predecessors, each with its members."""
    found: list[Finding] = []
    for members, ring in loops.all_of(now.defined.predecessors):
        lines = [now.line_of("predecessors", app, other) for app, other in zip(ring, ring[1:])]
        others = [app for app in members if app not in ring]
        text = f"the lists of predecessors have a loop: {' waits for '.join(ring)}"
        text += f" (on a loop with these: {few(others)})" if others else ""
        text += "; a planning statement that puts them into force is refused 25"
        found.append(Finding("loop", tuple(members), max(filter(None, lines), default=None), text))
    return found


def lacking(now: Known, only: set[str] | None) -> list[Finding]:
    """Calendars, periods and applications that aren't defined and that something names."""
    return [*lacking_calendars(now, only), *lacking_of_run_cycles(now, only), *lacking_of_lists(now, only)]


def lacking_calendars(now: Known, only: set[str] | None) -> list[Finding]:
    """Calendars that aren't defined and that applications name."""
    found: list[Finding] = []
    defined = now.defined
    for app in chosen(defined.applications, only):
        application = defined.applications[app]
        if defined.lacks_calendar(app) and application.calendar is not None:
            text = f"{app} names the calendar {application.calendar}, which isn't defined"
            text += meant_text(application.calendar, defined.calendars)
            text += f": planning is refused 22 {app}" if application.is_active else ""
            line = now.line_of("applications", app) or now.gone.get(("calendars", application.calendar))
            found.append(Finding("lacking", (app, application.calendar), line, text))
    return found


def lacking_of_run_cycles(now: Known, only: set[str] | None) -> list[Finding]:
    """Applications of run cycles, and periods, that aren't defined."""
    found: list[Finding] = []
    defined = now.defined
    for app in chosen(defined.run_cycles, only):
        cycles = defined.run_cycles[app]
        is_active = app in defined.applications and defined.applications[app].is_active
        if app not in defined.applications:
            lines = [now.line_of("run-cycles", app, name) for name in cycles] + [now.gone.get(("applications", app))]
            meant = meant_text(app, defined.applications)
            text = f"{app} has run cycles, but isn't defined as an application{meant}, so it isn't planned"
            found.append(Finding("lacking", (app,), min(filter(None, lines), default=None), text))
        for name, cycle in sorted(cycles.items()):
            if cycle.period not in defined.periods:
                text = f"run cycle {name} of {app} names the period {cycle.period}, which isn't defined"
                text += meant_text(cycle.period, defined.periods)
                text += f": planning is refused 23 {app}" if is_active else ""
                line = now.line_of("run-cycles", app, name) or now.gone.get(("periods", cycle.period))
                found.append(Finding("lacking", (app, name), line, text))
    return found


def lacking_of_lists(now: Known, only: set[str] | None) -> list[Finding]:
    """Applications of lists of predecessors that aren't defined."""
    found: list[Finding] = []
    defined = now.defined
    for app in chosen(defined.predecessors, only):
        if app not in defined.applications:
            lines = [now.line_of("predecessors", app, other) for other in defined.predecessors[app]]
            lines.append(now.gone.get(("applications", app)))
            text = f"{app} has a list of predecessors, but isn't defined as an application"
            text += meant_text(app, defined.applications)
            found.append(Finding("lacking", (app, "list"), min(filter(None, lines), default=None), text))
    return found


def arrivals_of(now: Known, app: str, held: LintCache) -> list[tuple[int, int]]:
    """The arrivals of an application within the window, each with its deadline, in order."""
    if app not in held.arrivals:
        held.arrivals[app] = [] if naming.obstacle_of(now.defined, app) else arrivals_within(now, app, held)
    return held.arrivals[app]


def arrivals_within(now: Known, app: str, held: LintCache) -> list[tuple[int, int]]:
    """The same, worked out from the days of each run cycle: of those that name a time of a day the one with the least
    name gives the deadline, and one that excludes the time takes it away."""
    by_time: dict[int, RunCycle] = {}
    gone: set[int] = set()
    for _, cycle in sorted(now.defined.run_cycles.get(app, {}).items()):
        for day in days_of(now, app, cycle, held):
            if cycle.excludes:
                gone.add(day * DAY + cycle.time)
            else:
                by_time.setdefault(day * DAY + cycle.time, cycle)
    return [(moment, deadline_of(by_time[moment], moment)) for moment in sorted(by_time.keys() - gone)]


def deadline_of(cycle: RunCycle, moment: int) -> int:
    """When an arrival that a run cycle names is due."""
    assert cycle.due is not None, "a run cycle that excludes nothing has a deadline"
    return (moment // DAY + cycle.due.days) * DAY + cycle.due.minute


def days_of(now: Known, app: str, cycle: RunCycle, held: LintCache) -> list[int]:
    """The days of the window that a run cycle names or excludes."""
    period, work = now.defined.periods[cycle.period], now.defined.work_days(app)
    key = id(period), id(work), cycle.rule, tuple(cycle.offsets), cycle.in_effect, cycle.out_effect
    if key not in held.days:
        days = [day for day in held.span if naming.answer(cycle, period, work, day).names]
        held.days[key] = period, work, days
    return held.days[key][2]


def window(now: Known) -> range:
    """The days over which arrivals are compared: from the plan's end on, or from where all run cycles are in effect."""
    if now.bounds is not None:
        first = max(now.bounds[0], now.bounds[2] // DAY)
        return range(first, min(now.bounds[1] + 1, first + WINDOW))
    cycles = [cycle for app in now.defined.run_cycles.values() for cycle in app.values() if not cycle.excludes]
    first = max((cycle.in_effect for cycle in cycles), default=FIRST_DAY)
    return range(first, min(LAST_DAY, first + WINDOW))


def later_text(
    app: str, other: str, within: int | None, arrivals: list[tuple[int, int]], others: list[tuple[int, int]]
) -> str:
    """What is to be said where a predecessor arrives later in the same night, or nothing. One that arrives more hours
    before than its limit isn't waited for."""
    slips, moments = [], [moment for moment, _ in others]
    for arrival, deadline in arrivals:
        place = bisect.bisect_right(moments, arrival)
        if place == len(moments) or moments[place] >= deadline or moments[place] - arrival > NIGHT:
            continue
        before = moments[place - 1] if place else None
        if before is not None and within is not None and arrival - before > within * 60:
            before = None
        if before is None or moments[place] - arrival < arrival - before:
            slips.append((before is None, arrival, before, moments[place]))
    if not slips:
        return ""
    _, arrival, before, after = min(slips, key=lambda slip: slip[:2])
    counts = "for nothing" if before is None else f"for the one of {moment_text(before)}"
    when = f"{app} arrives at {moment_text(arrival)}, but {other}, which it waits for, arrives later, "
    when += f"at {moment_text(after)}"
    return f"{when}; so it waits {counts} ({len(slips)} of the {len(arrivals)} times that were checked)"
