"""./plan day: all runs of a day, with the reason of each, and what is unusual of the day."""

import argparse
import dataclasses
from collections import defaultdict
from collections.abc import Iterable, Sequence

from opcplan.cli import words
from opcplan.commands import days, plan_words, why_day
from opcplan.plans import plan_definitions, row_model, waits
from opcplan.plans.plan_file import Plan
from opcplan.plans.waits import Row
from opcplan.rules import moments, naming, naming_words, printable, statuses, usual_days
from opcplan.rules.definitions import WEEKDAYS, Calendar, Definitions, weekday_of
from opcplan.rules.naming_words import LONG, count_text, weekday_text
from opcplan.rules.usual_days import Run

SUMMARY = "all runs of a day, the reason of each, and what is unusual of the day"
GONE = "Dopw"  # places of rows that are no runs of their day any more


@dataclasses.dataclass(frozen=True)
class Day:
    """A day of a plan: its rows, those of days before that aren't complete yet, the states of both by serial, and what
    the definitions name and nobody made or deleted, with the reason why not."""

    day: int
    rows: list[Row]
    carried: list[Row]
    states: dict[int, str]
    missing: dict[Run, tuple[days.Named, str]]

    @property
    def runs(self) -> set[Run]:
        """The runs of the day that are in a plan."""
        return {run_of(row) for row in self.rows if row.place not in GONE}


def add_words(parser: words.Parser) -> None:
    """Adds its words to a parser."""
    parser.description = (
        "Prints all runs of a day by input arrival, each with its reason: the run cycle with its rule and offset, or "
        "that it was added by hand; those that were carried from earlier days; and those that the definitions name and "
        "the plan doesn't have. Then it prints what is unusual: the runs that more than half of the other days of that "
        f"weekday have and this one lacks, with the reason, and the other way round, in the {usual_days.WEEKS} weeks "
        "before and after. The exit status is 1 if the day has no run."
    )
    plan_words.add_words(parser)
    parser.add_argument("day", metavar="D", type=words.day, help="the day")
    words.add_now(parser)
    parser.is_mixed = True


def run(given: argparse.Namespace) -> int:
    """Does what the words ask for; the exit status."""
    now = moments.now() if given.now is None else given.now
    with plan_words.opened(given, "./plan day") as plan:
        defined = plan_definitions.of_plan(plan)
        found = of_plan(plan, defined, given.day, now)
        lines = [*heading(defined, found), *run_lines(defined, found), *carried_lines(found), *missing_lines(found),
                 *unusual_lines(plan, defined, found)]
    print(printable.text(lines))
    return 0 if found.runs else 1


def run_of(row: Row) -> Run:
    """The run that a row is."""
    return row.ia % moments.DAY, row.app


def of_plan(plan: Plan, defined: Definitions, day: int, now: int) -> Day:
    """A day of a plan at a moment."""
    begin = day * moments.DAY
    rows = waits.rows_where(plan, "ia >= :v0 AND ia < :v1", begin, begin + moments.DAY)
    unfinished, pairs = waits.unfinished(plan)
    model = row_model.of_waits(unfinished, pairs, now)
    states = {row.serial: row.place for row in rows}
    states |= {row.serial: state for row, state in zip(unfinished, model.states)}
    carried = [row for row in unfinished if row.ia < begin] if begin <= now else []
    there = {run_of(row) for row in rows if row.place != "w"}
    missing: dict[Run, tuple[days.Named, str]] = {}
    for one in days.named(defined, sorted(defined.applications), day, day):
        key = one.ia % moments.DAY, one.app
        if key not in there:
            missing[key] = one, why_day.why_missing(plan, one.app, one.ia, rows_of(rows, one.app))
    return Day(day, [row for row in rows if row.place != "w"], carried, states, dict(sorted(missing.items())))


def rows_of(rows: Iterable[Row], app: str) -> list[Row]:
    """The rows of an application."""
    return [row for row in rows if row.app == app]


# What is told.


def heading(defined: Definitions, found: Day) -> list[str]:
    """The day, and how many runs it has."""
    calendar = defined.calendars.get(defined.default_calendar, Calendar())
    kind = "work" if calendar.is_work(found.day) else "free"
    runs = count_text(len(found.runs), "run") if found.runs else "no runs"
    return [f"{weekday_text(found.day)}, a {kind} day by {defined.default_calendar}: {runs}."]


def run_lines(defined: Definitions, found: Day) -> list[str]:
    """A line for each row, in columns: time, application, state, deadline, reason, serial."""
    rows = sorted(found.rows, key=lambda row: (row.ia, row.app, row.place in GONE, row.serial))
    names = answers_of(defined, {row.app for row in rows}, found.day)
    cells = [(moments.minute_text(row.ia % moments.DAY), row.app, state_text(found, row),
              f"due {moments.moment_text(row.deadline)}", reason_text(row, names[row.app]), f"serial {row.serial}")
             for row in rows]
    return ["", *columns(cells)] if cells else []


def columns(cells: Sequence[tuple[str, ...]]) -> list[str]:
    """Lines in columns."""
    widths = [max(map(len, column)) for column in zip(*cells)]
    return ["  " + "  ".join(f"{cell:{width}}" for cell, width in zip(line, widths)).rstrip() for line in cells]


def state_text(found: Day, row: Row) -> str:
    """How far a row is, in words."""
    return statuses.STATES[found.states[row.serial]] + (" by an operator" if row.place in "Dop" else "")


def answers_of(defined: Definitions, apps: Iterable[str], day: int) -> dict[str, naming.DayNames]:
    """What is said of a day and some applications."""
    return {app: naming.names(defined, app, day) for app in apps}


def reason_text(row: Row, said: naming.DayNames) -> str:
    """Why a row is there: its run cycle with its rule, and the offset that gives the day, or that it was added."""
    if row.cycle is None:
        return "added by hand"
    answer = next((one for one in said.answers if one.cycle.name == row.cycle), None)
    if answer is None:
        return f"by {row.cycle}, which isn't defined any more"
    if not answer.names:
        return f"by {row.cycle}, which doesn't name the day any more"
    return f"by {row.cycle}, {hit_text(answer, row.ia // moments.DAY)}"


def hit_text(answer: naming.Answer, day: int) -> str:
    """The rule of a run cycle, and the offset by which it names a day; where the rule moved the day, from which."""
    hit = answer.hits[0]
    moved = "" if hit.raw == day else f", moved from {weekday_text(hit.raw)}"
    return f"rule {answer.cycle.rule}, offset {hit.offset}{moved}"


def carried_lines(found: Day) -> list[str]:
    """A line for each row of an earlier day that isn't complete yet."""
    cells = [(row.key, state_text(found, row), f"due {moments.moment_text(row.deadline)}", f"serial {row.serial}")
             for row in found.carried]
    return ["", "Carried from earlier days:", *columns(cells)] if cells else []


def missing_lines(found: Day) -> list[str]:
    """What the definitions name and no row has, by the reason why not."""
    by_reason: dict[str, list[tuple[str, ...]]] = defaultdict(list)
    for (minute, app), (one, why) in found.missing.items():
        by_reason[why].append((moments.minute_text(minute), app, f"due {moments.moment_text(one.deadline)}",
                               f"by {one.cycle}"))
    lines = []
    for why, cells in by_reason.items():
        lines += ["", f"Named, but not in the plan. {why}", *columns(cells)]
    return lines


# What is unusual.


def unusual_lines(plan: Plan, defined: Definitions, found: Day) -> list[str]:
    """What is unusual of a day beside others of its weekday."""
    if not plan.is_created:
        return []
    weekday = LONG[WEEKDAYS[weekday_of(found.day)]]
    days_found = usual_days.others_of(found.day, plan.meta["first_day"], plan.meta["last_day"])
    is_planned = found.day <= plan.meta["last_day"]
    one = usual_days.unusual(found.runs if is_planned else set(found.missing), runs_of_days(plan, days_found))
    if one is None:
        return ["", f"The plan has too few {weekday}s near to say what is unusual."]
    of = f"{len(days_found)} {weekday}s from {moments.day_text(days_found[0])} to {moments.day_text(days_found[-1])}"
    lines = [line for why, cells in lacks_by_reason(defined, found, one.lacks).items()
             for line in (f"It lacks what a usual {weekday} has: {why}", *columns(cells))]
    if one.has:
        lines += [f"It has what a usual {weekday} lacks:",
                  *columns([(*texts_of(run), f"on {count} of the {len(days_found)}")
                            for run, count in one.has.items()])]
    return ["", f"Beside {of}:", *lines] if lines else ["", f"Nothing is unusual of it beside {of}."]


def runs_of_days(plan: Plan, wanted: list[int]) -> dict[int, set[Run]]:
    """The runs of some days that are in the plans or in history."""
    found: dict[int, set[Run]] = {day: set() for day in wanted}
    if wanted:
        begin, end = wanted[0] * moments.DAY, (wanted[-1] + 1) * moments.DAY
        for row in waits.rows_where(plan, "ia >= :v0 AND ia < :v1", begin, end):
            if row.ia // moments.DAY in found and row.place not in GONE:
                found[row.ia // moments.DAY].add(run_of(row))
    return found


def texts_of(run: Run) -> tuple[str, str]:
    """A run in words."""
    return moments.minute_text(run[0]), run[1]


def lacks_by_reason(defined: Definitions, found: Day, lacks: Iterable[Run]) -> dict[str, list[tuple[str, ...]]]:
    """The runs that a day lacks, by the reason why, in words."""
    by_reason: dict[str, list[tuple[str, ...]]] = defaultdict(list)
    for run in lacks:
        by_reason[why_lacking(defined, found, run)].append(texts_of(run))
    return by_reason


def why_lacking(defined: Definitions, found: Day, run: Run) -> str:
    """Why a day lacks a run, in words."""
    minute, app = run
    if any(run_of(row) == run for row in found.rows):
        return "deleted by an operator"
    if run in found.missing:
        return f"named, but not in the plan. {found.missing[run][1]}"
    said = naming.names(defined, app, found.day)
    if said.obstacle:
        return why_day.obstacle_text(defined, app, said.obstacle)
    excluding = [one for one in said.times if one.time == minute and one.excluded_by]
    if excluding:
        return f"excluded by {' and '.join(excluding[0].excluded_by)} of {app}"
    at_time = [one for one in said.answers if one.cycle.time == minute and not one.cycle.excludes]
    if not at_time:
        return "no run cycle has this time; on other days it was added by hand, or the definition was another one"
    free = next((one for one in at_time if any(reason.kind in ("free", "omitted", "moved") for reason in one.reasons)),
                None)
    if free is not None:
        return f"the day is free ({naming_words.entry_text(defined, app, found.day)})"
    return f"{at_time[0].cycle.name} of {app}: {naming_words.reasons(defined, app, found.day, at_time[0])[0]}"
