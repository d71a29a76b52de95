"""./plan rows: the rows of a plan as `list` prints them, or those of them that are asked for."""

import argparse
import dataclasses
import itertools
import json
import re
import sys
from collections.abc import Callable, Iterable, Iterator
from typing import NamedTuple

from opcplan.cli import colours, words
from opcplan.commands import export
from opcplan.commands.export import Occurrence
from opcplan.errors import UsageError
from opcplan.plans import plan_file, waits
from opcplan.plans.plan_file import Plan
from opcplan.rules import moments, printable
from opcplan.rules.naming_words import meant_text
from opcplan.rules.statuses import UNFINISHED

SUMMARY = "the rows of a list that meet a filter, as `list` prints them, as CSV or as JSON"
STATUSES = {name: letter for letter, name in export.STATUSES.items()}
BY_WORD = ", ".join(f"{name.replace(' ', '-')} ({letter})" for name, letter in STATUSES.items())
# the sets whose rows have a status
WITH_STATUS = ("cp", "history")
MOST_HELD = 20_000  # rows that are held, so that a file is read as it is


class Found(NamedTuple):
    """What is printed of some rows, how many they are, and what is to be said."""

    text: str
    number: int
    notes: list[str]


@dataclasses.dataclass(frozen=True)
class Settings:
    """The list, the filters of its rows, the moment at which they are late, and how they are printed."""

    what: str | None
    app: str | None
    first: int | None
    last: int | None
    status: set[str] | None
    late: bool
    now: int | None
    form: Callable[[Plan, Iterable[Occurrence]], Iterator[str]]
    color: str


def add_words(parser: words.Parser) -> None:
    """Adds its words to a parser."""
    parser.description = (
        "Prints rows of PLAN.db by input arrival, application and serial: those of the list that you name, else of the "
        "long-term plan, of the current plan and of history. The lines are those of opcplan's `list`, with `ok rows` "
        "and their number at the end. The exit status is 1 if no row is found."
    )
    words.add_plan(parser)
    parser.add_argument("what", metavar="LIST", nargs="?", choices=list(export.SETS), help=", ".join(export.SETS))
    parser.add_argument("--app", type=words.name, help="only this application")
    parser.add_argument("--from", dest="first", type=first_moment, metavar="D",
                        help="only what arrives from this day or moment on")
    parser.add_argument("--to", dest="last", type=last_moment, metavar="D",
                        help="only what arrives up to the end of this day, or up to this moment")
    action = parser.add_argument("--status", type=statuses, metavar="S",
                                 help="only these statuses: letters as W,S,E, or words "
                                      f"({', '.join(STATUSES).replace(' e', '-e')})")
    words.offer(action, [name.replace(" ", "-") for name in STATUSES])
    parser.add_argument("--late", action="store_true",
                        help="only what is past its deadline in the current plan, and neither complete nor deleted")
    words.add_now(parser)
    form = parser.add_mutually_exclusive_group()
    form.add_argument("--csv", dest="form", action="store_const", const=export.csv_texts,
                      help="a table, as export prints it")
    form.add_argument("--json", dest="form", action="store_const", const=json_texts, help="an object on each line")
    colours.add_words(parser)
    parser.set_defaults(form=list_texts)
    parser.is_mixed = True


def first_moment(text: str) -> int:
    """The moment from which on rows are asked for, of a day or a moment."""
    return edge(text, 0)


def last_moment(text: str) -> int:
    """The moment up to which rows are asked for, of a day or a moment."""
    return edge(text, moments.DAY - 1)


def edge(text: str, minute: int) -> int:
    """The moment that a text spells; of a day its minute of this number."""
    day, moment = moments.day_of(text), moments.typed_moment(text)
    if day is not None:
        return day * moments.DAY + minute
    if moment is None:
        raise argparse.ArgumentTypeError(f"{text!r} is neither a day such as 2026-11-25 nor a moment such as "
                                         "2026-11-25/06.00")
    return moment


def statuses(text: str) -> set[str]:
    """The letters of statuses that a text names, by letters or by words."""
    found: set[str] = set()
    for word in text.lower().replace("-", " ").split(","):
        if word in STATUSES:
            found.add(STATUSES[word])
        elif word == "error":
            found.add("E")
        elif re.fullmatch("[wsecd]+", word):
            found |= set(word.upper())
        else:
            late = "; `--late` shows what is late" if word == "late" else ""
            raise argparse.ArgumentTypeError(f"{word!r} is not a status; a status is one of {BY_WORD}{late}")
    return found


def run(given: argparse.Namespace) -> int:
    """Does what the words ask for; the exit status."""
    return printed(Settings(given.what, given.app, given.first, given.last, given.status, given.late, given.now,
                            given.form, given.color), given.plan)


def printed(given: Settings, path: str) -> int:
    """Prints the rows of a plan that are asked for; the exit status."""
    wrong = fault_of(given)
    if wrong:
        raise UsageError(wrong)
    now = moments.now() if given.now is None else given.now
    color = given.color if given.form is list_texts else "never"
    is_filtered = given.late or any(one is not None for one in (given.app, given.first, given.last, given.status))
    found = plan_file.answer(path, lambda plan: few(plan, given, now)) if is_filtered else None
    if found is not None:
        sys.stdout.write(colours.text(found.text, color, colours.of_row))
        count, notes = found.number, found.notes
    else:
        with plan_file.opened(path) as plan:
            seen = Counted(wanted(plan, given, now))
            with export.shown(plan, seen, sets_of(given)) as passing:
                for text in given.form(plan, passing):
                    sys.stdout.write(colours.text(text, color, colours.of_row))
            count, notes = seen.count, notes_on(plan, given, now)
    for note in notes:
        words.print_message(note)
    return 0 if count else 1


class Counted:
    """Rows that pass, and how many did."""

    def __init__(self, rows: Iterable[Occurrence]) -> None:
        self.rows, self.count = rows, 0

    def __iter__(self) -> Iterator[Occurrence]:
        for one in self.rows:
            self.count += 1
            yield one


def few(plan: Plan, given: Settings, now: int) -> Found | None:
    """What is printed of rows that aren't many, or None."""
    rows = list(itertools.islice(wanted(plan, given, now), MOST_HELD + 1))
    if len(rows) > MOST_HELD:
        return None
    return Found("".join(given.form(plan, rows)), len(rows), notes_on(plan, given, now))


def fault_of(given: Settings) -> str | None:
    """What is wrong with words that don't go together, or None."""
    if given.first is not None and given.last is not None and given.last < given.first:
        return "--to is before --from"
    if given.now is not None and not given.late:
        return "--now says as of when something is late; it needs --late"
    if given.late and given.what not in (None, "cp"):
        return f"--late goes with the current plan only, not with {given.what}"
    if given.status and given.what not in (None, *WITH_STATUS):
        return f"rows of {given.what} have no status; only those of {' and '.join(WITH_STATUS)} have one"
    return None


def sets_of(given: Settings) -> list[str]:
    """The sets whose rows are asked for."""
    return [given.what] if given.what else ["cp"] if given.late else export.USUAL


def wanted(plan: Plan, given: Settings, now: int) -> Iterator[Occurrence]:
    """The rows of the sets that meet all filters."""
    found = export.occurrences(plan.db, sets_of(given), given.app, given.first, given.last)
    return (one for one in found if is_wanted(one, given, now))


def is_wanted(one: Occurrence, given: Settings, now: int) -> bool:
    """Whether a row meets the filters by its status."""
    return bool(
        (not given.status or one.status in given.status)
        and (not given.late or one.status in tuple(UNFINISHED) and one.deadline < now)
    )


def notes_on(plan: Plan, given: Settings, now: int) -> list[str]:
    """What is to be said of the moment, and of a plan and an application of which there can be no rows."""
    notes = waits.notes_on(plan, now) if given.late else []
    if not plan.is_created:
        return notes or [f"{plan.path}: there is no long-term plan yet, so there are no rows"]
    if given.app is None or is_known(plan, given.app):
        return notes
    known = (name for name, in plan.db.execute("SELECT name FROM application"))
    return [*notes, f"{plan.path}: it has no application {given.app}{meant_text(given.app, known)}"]


def is_known(plan: Plan, app: str) -> bool:
    """Whether an application is defined, or has a row."""
    defined = plan.db.execute("SELECT 1 FROM application WHERE name = ?", (app,)).fetchone()
    return defined is not None or waits.is_of_a_row(plan, app)


def list_texts(_: Plan, found: Iterable[Occurrence]) -> Iterator[str]:
    """The lines that `list` prints, in pieces."""
    count = 0
    for one in found:
        count += 1
        yield printable.fit(list_line(one)) + "\n"
    yield f"ok rows {count}\n"


def list_line(one: Occurrence) -> str:
    """A row in a list; none of the long-term plan has a letter at its end."""
    origin, cycle = ("A", "") if one.run_cycle is None else ("G", one.run_cycle)
    times = f"{moment_text(one.arrival)} {moment_text(one.deadline)}"
    row = f"{one.serial:09} {one.app:16} {origin} {cycle:8} {times}"
    return " ".join(filter(None, [row, one.status or one.reason]))


def moment_text(moment: int) -> str:
    """`YYYY-MM-DD HH.MM`."""
    return f"{export.day_text(moment // moments.DAY)} {moments.minute_text(moment % moments.DAY)}"


def json_texts(_: Plan, found: Iterable[Occurrence]) -> Iterator[str]:
    """An object a row, each on a line."""
    return (json.dumps(dict(zip(export.COLUMNS, one.values(export.iso)))) + "\n" for one in found)
