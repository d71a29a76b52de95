"""./plan next: the next runs of an application, from what isn't complete on."""

import argparse
import re
from collections.abc import Iterator
from typing import NamedTuple

from opcplan.cli import words
from opcplan.commands import days, plan_words
from opcplan.errors import Error
from opcplan.plans import plan_definitions, row_model, waits
from opcplan.plans.plan_file import Plan
from opcplan.plans.waits import Row
from opcplan.rules import moments, naming, printable, statuses
from opcplan.rules.definitions import LAST_DAY, WEEKDAYS, Definitions, weekday_of
from opcplan.rules.naming_words import meant_text

SUMMARY = "the next runs of an application: when they arrive, where they are, and when they are due"
USUAL, MOST = 5, 1000  # runs that are shown
FAR = 1462  # days behind the long-term plan that definitions are asked for
UNPLANNED = "not planned yet"


class Coming(NamedTuple):
    """A run that is to come: its input arrival, where it is in words, its deadline, what makes it, and its serial or
    None where it isn't planned."""

    ia: int
    state: str
    deadline: int
    by: str
    serial: int | None


def add_words(parser: words.Parser) -> None:
    """Adds its words to a parser."""
    parser.description = (
        "Prints the next runs of an application, by input arrival: what isn't complete in the current plan, then what "
        "the long-term plan has, and after its end what the definitions name. What is started or in error is shown "
        "too, and isn't counted. The exit status is 1 if no run is to come."
    )
    plan_words.add_words(parser)
    parser.add_argument("app", metavar="APP", type=words.name, help="the application")
    parser.add_argument("-n", dest="count", metavar="N", type=count, default=USUAL, help=f"so many runs (else {USUAL})")
    words.add_now(parser)
    parser.is_mixed = True


def count(text: str) -> int:
    """How many runs are shown, for `type=`."""
    if not re.fullmatch("[1-9][0-9]{0,3}", text) or int(text) > MOST:
        raise argparse.ArgumentTypeError(f"{text!r} is not a number of runs, 1 to {MOST:,}")
    return int(text)


def run(given: argparse.Namespace) -> int:
    """Does what the words ask for; the exit status."""
    now = moments.now() if given.now is None else given.now
    with plan_words.opened(given, "./plan next") as plan:
        defined = plan_definitions.of_plan(plan)
        if given.app not in defined.applications and not waits.is_of_a_row(plan, given.app):
            raise Error(f"there is no application {given.app}{meant_text(given.app, defined.applications)}")
        found = coming(plan, defined, given.app, now, given.count)
        notes = notes_on(defined, given.app)
    print(printable.text(lines_of(given.app, found)))
    for note in notes:
        words.print_message(note)
    return 0 if found else 1


def notes_on(defined: Definitions, app: str) -> list[str]:
    """Why nothing more of an application is planned, in a sentence."""
    if app not in defined.applications:
        return [f"{app} isn't defined, so none of it is planned"]
    obstacle = naming.obstacle_of(defined, app)
    return [days.OBSTACLES[obstacle].format(app=app)] if obstacle else []


def coming(plan: Plan, defined: Definitions, app: str, now: int, most: int) -> list[Coming]:
    """What is started or in error, and so many runs that are to come at a moment."""
    found: list[Coming] = []
    rows, pairs = waits.unfinished(plan)
    model = row_model.of_waits(rows, pairs, now)
    current = [(row, state) for row, state in zip(rows, model.states) if row.app == app]
    planned = [(row, row.place) for row in waits.rows_of_set(plan, "ltp_row", app, None, None)]
    left = most
    for row, state in sorted([*current, *planned], key=lambda one: (one[0].ia, one[0].serial)):
        if left or state in "SE":
            left -= state not in "SE"
            found.append(of_row(row, state))
    return [*found, *(one for one, _ in zip(unplanned(plan, defined, app, now), range(left)))]


def of_row(row: Row, state: str) -> Coming:
    """A row that is to come."""
    by = "added by hand" if row.cycle is None else f"by {row.cycle}"
    return Coming(row.ia, statuses.STATES[state], row.deadline, by, row.serial)


def unplanned(plan: Plan, defined: Definitions, app: str, now: int) -> Iterator[Coming]:
    """What the definitions name of an application behind the long-term plan, or from a moment on where there is
    none."""
    first = plan.meta["last_day"] + 1 if plan.is_created else now // moments.DAY
    for day in range(first, min(first + FAR, LAST_DAY + 1)):
        for one in sorted(days.named(defined, [app], day, day)):
            if plan.is_created or one.ia >= now:
                yield Coming(one.ia, UNPLANNED, one.deadline, f"by {one.cycle}", None)


def lines_of(app: str, found: list[Coming]) -> list[str]:
    """A line for each run, in columns."""
    if not found:
        return [f"No run of {app} is to come."]
    state, by = (max(map(len, texts)) for texts in ([one.state for one in found], [one.by for one in found]))
    return [f"{app}:", *(
        f"  {WEEKDAYS[weekday_of(one.ia // moments.DAY)]} {moments.moment_text(one.ia)}  {one.state:{state}}  "
        f"due {moments.moment_text(one.deadline)}  {one.by:{by}}"
        f"{'' if one.serial is None else f'  serial {one.serial}'}".rstrip() for one in found)]
