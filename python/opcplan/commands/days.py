"""./plan days: which days the definitions of a plan name, of all applications, or of a run cycle that isn't defined."""

import argparse
import dataclasses
from collections.abc import Iterator
from typing import NamedTuple

from opcplan.cli import words
from opcplan.commands import edit_words
from opcplan.edits import run_cycles as cycle_edits, words as edit_texts
from opcplan.edits.changes import ChangeRefused
from opcplan.errors import UsageError
from opcplan.plans import plan_definitions, plan_file
from opcplan.plans.plan_file import Plan
from opcplan.rules import moments, naming, naming_words, printable
from opcplan.rules.definitions import LAST_DAY, Application, Definitions
from opcplan.rules.naming_words import few, meant_text

SUMMARY = "which days the definitions name, of all applications, or of a run cycle that you try"
USUAL, MOST = 31, 1462  # days, where --to isn't given, and at most
TRIED = "TRIED"


class Named(NamedTuple):
    """An occurrence that the definitions name: arrival, application, run cycle, deadline."""

    ia: int
    app: str
    cycle: str
    deadline: int


@dataclasses.dataclass(frozen=True)
class Settings:
    """Whose days are shown, of an application or of a run cycle that is tried, and from when to when."""

    app: str | None
    tried: list[tuple[str, str]] | None
    first: int | None
    last: int | None


def add_words(parser: words.Parser) -> None:
    """Adds its words to a parser."""
    parser.description = (
        "Prints what the definitions of PLAN.db name now: application, input arrival, run cycle and deadline, by "
        "arrival; of all active applications, or of one. With --try it prints the days of a run cycle that you try, "
        "each with what names it: `--try period=MONTH rule=1 offsets=25`. Nothing changes. The exit status is 1 if no "
        "day is named."
    )
    words.add_plan(parser)
    parser.add_argument("app", metavar="APP", type=words.name, nargs="?",
                        help="the application (else all that are active)")
    parser.add_argument("--try", dest="tried", metavar="FIELD=VALUE", type=edit_words.pair, nargs="+",
                        help="period= and what else a run cycle has (rule=E, offsets=1, type=N, in-effect=, "
                        "out-of-effect=, ia=00.00, deadline=), and calendar= for another than the default one")
    parser.add_argument("--from", dest="first", type=words.day, metavar="D",
                        help="from this day on (else from the end of the current plan on, or from today)")
    parser.add_argument("--to", dest="last", type=words.day, metavar="D", help=f"up to this day (else {USUAL} days)")
    parser.is_mixed = True


def run(given: argparse.Namespace) -> int:
    """Does what the words ask for; the exit status."""
    settings = Settings(given.app, given.tried, given.first, given.last)
    with plan_file.opened(given.plan) as plan:
        found, (first, last) = plan_definitions.of_plan(plan), span_of(plan, settings)
    if last < first or last - first >= MOST:
        raise UsageError("--to is before --from" if last < first else
                         f"at most {MOST:,} days are shown; --to names an earlier day")
    lines = tried_lines(found, settings.tried, settings.app, first, last) if settings.tried else \
        named_lines(found, settings.app, first, last)
    span = f"from {moments.day_text(first)} to {moments.day_text(last)}"
    print(printable.text(lines) if lines else f"No day is named {span}.")
    return 0 if lines else 1


def span_of(plan: Plan, given: Settings) -> tuple[int, int]:
    """The first and the last day that are shown."""
    usual = plan.meta["plan_end"] // moments.DAY if plan.is_created else moments.now() // moments.DAY
    first = usual if given.first is None else given.first
    return first, min(LAST_DAY, first + USUAL - 1) if given.last is None else given.last


def named_lines(found: Definitions, app: str | None, first: int, last: int) -> list[str]:
    """A line for each occurrence that is named, of an application or of all."""
    if app is not None and app not in found.applications:
        raise ChangeRefused(f"there is no application {app}{meant_text(app, found.applications)}")
    for one in [app] if app else sorted(found.applications):
        obstacle = naming.obstacle_of(found, one)
        if obstacle is not None and (obstacle != "pending" or app):
            words.print_message(OBSTACLES[obstacle].format(app=one))
    return [f"{it.app:16} {moments.moment_text(it.ia)} {it.cycle:8} {moments.moment_text(it.deadline)}"
            for it in sorted(named(found, [app] if app else list(found.applications), first, last))]


OBSTACLES = {
    "pending": "{app} is pending, so none of it is planned",
    "calendar": "{app} names a calendar that isn't defined, so nothing can be planned (22)",
    "periods": "run cycles of {app} name periods that aren't defined, so nothing can be planned (23)",
}


def named(found: Definitions, apps: list[str], first: int, last: int) -> Iterator[Named]:
    """What is named of some applications in a span of days."""
    for app in apps:
        if naming.obstacle_of(found, app) is not None or not found.run_cycles.get(app):
            continue
        for day in range(first, last + 1):
            for one in naming.names(found, app, day).times:
                if not one.excluded_by:
                    yield Named(day * moments.DAY + one.time, app, one.cycle.name, one.deadline)


def tried_lines(
    found: Definitions, fields_given: list[tuple[str, str]], app: str | None, first: int, last: int
) -> list[str]:
    """A line for each day that a run cycle names which isn't defined."""
    pairs = dict(fields_given)
    if app or len(pairs) < len(fields_given):
        raise ChangeRefused("--try takes no APP; give a calendar with "
                            "calendar=" if app else "you gave a field twice", 2)
    name = pairs.pop("calendar", "").upper() or None
    if name is not None and name not in found.calendars:
        raise ChangeRefused(edit_texts.lack("calendar", name, found.calendars))
    fields = cycle_edits.wanted_fields(pairs.items())
    if not fields.get("period"):
        raise ChangeRefused(f"--try needs period= too; the plan has {few(found.periods) or 'none'}", 2)
    usual = {"type": "N", "rule": "E", "offsets": "1", "in effect": "1972-01-01", "out of effect": "",
             "input arrival": "00.00", "deadline day": "0", "deadline time": "23.59"}
    cycle = cycle_edits.cycle_of({"application": TRIED, "name": TRIED, **usual, **fields})
    if cycle.period not in found.periods:
        raise ChangeRefused(edit_texts.lack("period", cycle.period, found.periods))
    applications, run_cycles = {TRIED: Application(True, name)}, {TRIED: {TRIED: cycle}}
    tried = dataclasses.replace(found, applications=applications, run_cycles=run_cycles)
    lines = []
    for day in range(first, last + 1):
        (answer,) = naming.names(tried, TRIED, day).answers
        if answer.names:
            reasons = "; ".join(naming_words.reasons(tried, TRIED, day, answer))
            lines.append(f"{naming_words.weekday_text(day):20}  {reasons}")
    return lines
