"""./plan why-day: which run cycles name a day of an application, by which offset and rule, or why none does."""

import argparse
import textwrap

from opcplan.cli import words
from opcplan.commands import keys
from opcplan.plans import plan_definitions, plan_file, waits
from opcplan.plans.plan_file import Plan
from opcplan.plans.waits import Row
from opcplan.rules import moments, naming, naming_words, printable, statuses
from opcplan.rules.definitions import Definitions

SUMMARY = "which run cycle, offset, rule and free day name a day, or why none does"
WIDTH = 100
OBSTACLES = {
    "unknown": "The application {app} isn't defined, so no day is named for it.",
    "pending": "The application {app} is pending, and only active applications are planned.",
    "calendar": "The application {app} names the calendar {calendar}, which isn't defined: planning is refused 22.",
    "periods": "Run cycles of {app} name periods that aren't defined ({periods}): planning is refused 23.",
}


def add_words(parser: words.Parser) -> None:
    """Adds its words to a parser."""
    parser.description = (
        "Shows for each run cycle of an application whether it names a day and how, or why it doesn't, by the "
        "definitions in PLAN.db; and where the occurrences of that day are. The exit status is 0 if the day is named, "
        "and 1 if it isn't."
    )
    words.add_plan(parser)
    keys.add_key_of_day(parser)


def run(given: argparse.Namespace) -> int:
    """Does what the words ask for; the exit status."""
    key: keys.Key = given.key
    lines, is_named = plan_file.answer(given.plan, lambda plan: lines_of(plan, key))
    print(printable.text(lines))
    return 0 if is_named else 1


def lines_of(plan: Plan, key: keys.Key) -> tuple[list[str], bool]:
    """What is printed of a day, and whether it is named."""
    found = keys.rows_of(plan, key)
    if found is None:
        return [keys.unknown_text(plan, key)], False
    app, day = found.app, found.ia // moments.DAY
    defined = plan_definitions.of_plan(plan)
    said = naming.names(defined, app, day)
    return day_lines(defined, app, day, said) + plan_lines(plan, app, day, said), said.is_named


def day_lines(defined: Definitions, app: str, day: int, said: naming.DayNames) -> list[str]:
    """What the definitions say of the day."""
    lines = [heading(defined, app, day, said)]
    if said.obstacle:
        lines += ["", obstacle_text(defined, app, said.obstacle)]
    for named in said.times:
        lines += ["", *time_lines(named)]
        for answer in answers_at(said, named):
            lines += cycle_lines(defined, app, day, answer)
    silent = [answer for answer in said.answers if not answer.names]
    idle = [answer for answer in said.answers if answer.names and not any(at(named, answer) for named in said.times)]
    if silent:
        lines += ["", "Run cycles that don't name this day:"]
        for answer in silent:
            lines += cycle_lines(defined, app, day, answer)
    if idle:
        lines += ["", "Run cycles that exclude a time at which nothing is named:"]
        for answer in idle:
            lines += cycle_lines(defined, app, day, answer)
    if not said.answers and said.obstacle in (None, "pending"):
        lines += ["", f"{app} has no run cycles."]
    return lines


def heading(defined: Definitions, app: str, day: int, said: naming.DayNames) -> str:
    """The first line: whether and when the application is named, and what day it is."""
    times = [moments.minute_text(named.time) for named in said.times if not named.excluded_by]
    if said.obstacle in ("unknown", "calendar"):
        return f"{app} on {naming_words.weekday_text(day)}: not named."
    is_work = defined.work_days(app).is_work(day)
    kind = f"a {'work' if is_work else 'free'} day ({naming_words.entry_text(defined, app, day)})"
    named = f"named at {' and '.join(times)}" if times and said.obstacle is None else "not named"
    return f"{app} on {naming_words.weekday_text(day)}, {kind}: {named}."


def obstacle_text(defined: Definitions, app: str, obstacle: str) -> str:
    """Why nothing of the application is planned at all."""
    known = app in defined.applications
    return OBSTACLES[obstacle].format(
        app=app, calendar=known and defined.calendar_name(app), periods=", ".join(defined.lacking_periods(app))
    )


def time_lines(named: naming.Named) -> list[str]:
    """What comes of one time of the day."""
    at_time = moments.minute_text(named.time)
    if named.excluded_by:
        return [f"{at_time}  excluded by {' and '.join(named.excluded_by)}, though {named.cycle.name} names it:"]
    least = f", the least name of {1 + len(named.others)}" if named.others else ""
    return [f"{at_time}  by {named.cycle.name}{least}, due {moments.moment_text(named.deadline)}:"]


def at(named: naming.Named, answer: naming.Answer) -> bool:
    """Whether a run cycle has its say at a time."""
    return answer.cycle.time == named.time


def answers_at(said: naming.DayNames, named: naming.Named) -> list[naming.Answer]:
    """The run cycles that name a time, or take it away: the one that counts first, then the others by name."""
    found = [answer for answer in said.answers if answer.names and at(named, answer)]
    return sorted(found, key=lambda answer: (not answer.cycle.excludes, answer.cycle.name != named.cycle.name))


def cycle_lines(defined: Definitions, app: str, day: int, answer: naming.Answer) -> list[str]:
    """A run cycle's lines: its name and time, and what it says."""
    cycle = answer.cycle
    kind = ", excludes" if cycle.excludes else ""
    reasons = "; ".join(naming_words.reasons(defined, app, day, answer))
    text = textwrap.wrap(f"{reasons}.", WIDTH - 8, break_on_hyphens=False)
    return [f"    {cycle.name} ({moments.minute_text(cycle.time)}{kind})"] + ["        " + line for line in text]


def plan_lines(plan: Plan, app: str, day: int, said: naming.DayNames) -> list[str]:
    """Where the occurrences of the day stand, and why one that is named may not be there."""
    rows = waits.rows_of_day(plan, app, day)
    lines = [""] + [row_text(row) for row in rows]
    live = {row.ia % waits.DAY for row in rows if row.place not in "Dowp"}
    named = {one.time for one in said.times if not one.excluded_by and said.obstacle is None}
    for time in sorted(named - live):
        missing = why_missing(plan, app, day * waits.DAY + time, rows)
        lines.append(f"{moments.minute_text(time)}  {missing}")
    return lines if len(lines) > 1 else lines + [f"No occurrence of {app} on this day has ever been made."]


def row_text(row: Row) -> str:
    """Where one occurrence stands."""
    by = "added by hand" if row.cycle is None else f"by {row.cycle}"
    return f"{moments.minute_text(row.ia % waits.DAY)}  It {statuses.WHERE[row.place]} (serial {row.serial}, {by})."


def why_missing(plan: Plan, app: str, ia: int, rows: list[Row]) -> str:
    """Why an occurrence that the definitions name doesn't stand in the plan."""
    meta = plan.meta
    first, last = (moments.day_text(meta[column]) for column in ("first_day", "last_day"))
    if not plan.is_created:
        return "It isn't planned: there is no long-term plan yet, which `ltp-create` makes."
    if ia >= (meta["last_day"] + 1) * waits.DAY:
        return f"It isn't planned: the long-term plan ends with {last}; `ltp-extend` goes on from there."
    if ia < meta["first_day"] * waits.DAY:
        return f"It isn't planned: the long-term plan begins with {first}."
    if any(row.ia == ia and row.place == "o" for row in rows):
        return "It isn't made again, because an operator deleted it; `ltp-add` or `cp-add` makes it by hand."
    if ia < meta["plan_end"]:
        return "It isn't made: it arrives before the end of the current plan, where only `cp-add` adds occurrences."
    return f"It isn't made yet: `ltp-modify-one --app {app}` or `ltp-modify-all` makes it."
