"""./plan cal: a calendar or a period of a plan, as a year in the terminal."""

import argparse
import calendar
from collections.abc import Callable

from opcplan.cli import colours, words
from opcplan.cli.colours import Paint
from opcplan.commands import edit_words
from opcplan.errors import Error
from opcplan.plans import plan_definitions, plan_file
from opcplan.rules import moments
from opcplan.rules.definitions import FIRST_DAY, LAST_DAY, Calendar, Definitions, Period, WorkDays
from opcplan.rules.naming_words import count_text, few, meant_text

SUMMARY = "a calendar or a period as a year"
ACROSS = 3  # months beside each other
WIDE = 21  # of a month: seven days of three signs
MONTHS = "January February March April May June July August September October November December".split()
COLOURS = {"*": "red", "(": "green", "|": "green", "-": "red"}
Sign = Callable[[int], str]  # behind a day


def add_words(parser: words.Parser) -> None:
    """Adds its words to a parser."""
    parser.description = (
        "Prints a year of a calendar of PLAN.db, with a star after each free day. Or it prints a year of a period: ( "
        "follows the first day of each interval, ) the last one, | a day that is both, and - a day in no interval. The "
        "work days of a period of type W are those of the default calendar. The exit status is 1 if the plan has no "
        "such calendar and no such period."
    )
    words.add_plan(parser)
    action = parser.add_argument("name", metavar="NAME", type=edit_words.name, help="the calendar, or the period")
    words.offer(action, names=["calendars", "periods"])
    parser.add_argument("year", metavar="YEAR", type=year, nargs="?", help="the year (else that of the clock)")
    parser.add_argument("--period", action="store_true", help="the period, even if a calendar has the same name")
    colours.add_words(parser)
    parser.is_mixed = True


def year(text: str) -> int:
    """A year of a plan, for `type=`."""
    if not text.isdecimal() or not moments.FIRST_YEAR <= int(text) <= moments.LAST_YEAR:
        raise argparse.ArgumentTypeError(f"{text!r} is not a year from {moments.FIRST_YEAR} to {moments.LAST_YEAR}")
    return int(text)


def run(given: argparse.Namespace) -> int:
    """Does what the words ask for; the exit status."""
    with plan_file.opened(given.plan) as plan:
        found = plan_definitions.of_plan(plan)
    at = given.year or int(moments.day_text(moments.now() // moments.DAY)[:4])
    if given.name in found.calendars and not given.period:
        title, sign = f"calendar {given.name}", of_calendar(found.calendars[given.name])
        legend = calendar_legend(found, given.name, at)
    elif given.name in found.periods:
        period = found.periods[given.name]
        title, sign = f"period {given.name}", of_period(period, found)
        legend = "( an interval begins, ) it ends, | both, - in none" if period.kind != "W" else \
            f"( an interval begins, by the work days of {found.default_calendar}"
    else:
        known = [*([] if given.period else found.calendars), *found.periods]
        raise Error(f"{given.plan}: there is no {'' if given.period else 'calendar and no '}period {given.name}"
                    f"{meant_text(given.name, known)}; the plan has {few(known) or 'none'}")
    print("\n".join([f"{title}, {at}", "", *year_lines(at, sign, Paint(given.color)), "", legend]))
    return 0


def calendar_legend(found: Definitions, name: str, at: int) -> str:
    """What the signs mean, and how many days are free."""
    days = [day for month in range(1, 13) for day in days_of(at, month)]
    free = sum(not found.calendars[name].is_work(day) for day in days)
    return f"* free: {count_text(free, 'day')}; work: {count_text(len(days) - free, 'day')}"


def of_calendar(defined: Calendar) -> Sign:
    """What stands behind each day of a calendar."""
    return lambda day: " " if defined.is_work(day) else "*"


def of_period(period: Period, found: Definitions) -> Sign:
    """What stands behind each day of a period."""
    if period.kind == "W":
        work = WorkDays(found.calendars.get(found.default_calendar))
        return lambda day: "(" if begins_by_work(period, work, day) else " "
    spans = period.listed() if period.kind == "N" else None
    firsts, lasts = {span.first for span in spans or ()}, {span.last for span in spans or ()}

    def sign(day: int) -> str:
        """Where a day is in its intervals."""
        inside = period.intervals_of(day)
        begins = day in firsts if spans is not None else any(one.first == day for one in inside)
        ends = day in lasts if spans is not None else any(one.last == day for one in inside)
        return "|" if begins and ends else "(" if begins else ")" if ends else " " if inside else "-"

    return sign


def begins_by_work(period: Period, work: WorkDays, day: int) -> bool:
    """Whether an interval of work days begins on a day."""
    return day >= period.origin and work.is_work(day) and work.count(period.origin, day - 1) % period.interval == 0


def days_of(at: int, month: int) -> list[int]:
    """The days of a month that a plan can have."""
    first = moments.day_of(f"{at}-{month:02}-01")
    assert first is not None, "the year is one of a plan"
    return [day for day in range(first, first + calendar.monthrange(at, month)[1]) if FIRST_DAY <= day <= LAST_DAY]


def year_lines(at: int, sign: Sign, paint: Paint) -> list[str]:
    """The lines of a year, some months beside each other."""
    lines: list[str] = []
    for begin in range(1, 13, ACROSS):
        blocks = [month_cells(at, month, sign, paint) for month in range(begin, begin + ACROSS)]
        lines += [""] if lines else []
        lines.append("   ".join(f"{MONTHS[month - 1]:^{WIDE}}" for month in range(begin, begin + ACROSS)).rstrip())
        lines.append("   ".join("Mo Tu We Th Fr Sa Su " for _ in blocks).rstrip())
        lines += ["   ".join("".join(week) for week in row).rstrip() for row in zip(*blocks)]
    return lines


def month_cells(at: int, month: int, sign: Sign, paint: Paint) -> list[list[str]]:
    """Six weeks of a month, each of seven cells."""
    cells = ["   "] * calendar.monthrange(at, month)[0]
    for number, day in enumerate(days_of(at, month), 1):
        mark = sign(day)
        cells.append(paint(f"{number:>2}{mark}", COLOURS.get(mark)))
    cells += ["   "] * (42 - len(cells))
    return [cells[begin : begin + 7] for begin in range(0, 42, 7)]
