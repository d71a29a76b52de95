"""./plan ready: what may be started at a moment, for whatever starts it."""

from __future__ import annotations

import argparse
import sys
from typing import TYPE_CHECKING

from opcplan.cli import colours, words
from opcplan.cli.colours import Paint
from opcplan.plans import waits
from opcplan.plans.waits import Row
from opcplan.rules import moments

if TYPE_CHECKING:  # what --help doesn't need is imported where it is needed
    from opcplan.plans.plan_file import Plan

USUAL = "usual"  # the form by which it prints where none is named
SUMMARY = "what may be started now: it has arrived and waits for nothing"
# none of what it waits for stands in a place where it isn't complete
READY = f"""SELECT {waits.COLUMNS}, status FROM cp_row
    WHERE status = 'W' AND ia <= :now AND (:app IS NULL OR app = :app)
    AND NOT EXISTS (SELECT 1 FROM dependency WHERE successor = cp_row.serial AND (
        EXISTS (SELECT 1 FROM cp_row AS other WHERE other.serial = predecessor AND other.status IN ('W', 'S', 'E'))
        OR EXISTS (SELECT 1 FROM ltp_row WHERE ltp_row.serial = predecessor)))
    ORDER BY deadline, ia, app, serial"""


def add_words(parser: words.Parser) -> None:
    """Adds its words to a parser."""
    parser.description = (
        "Prints the occurrences of the current plan that wait, have arrived, and wait for nothing that isn't complete, "
        "the earliest deadline first: application, input arrival and serial, as statements and `./plan agent` have "
        "them. On a terminal, and with --table, it prints a table with the deadlines. The exit status is 1 if nothing "
        "is ready."
    )
    words.add_plan(parser)
    parser.add_argument("--app", type=words.name, help="only this application")
    words.add_now(parser)
    form = parser.add_mutually_exclusive_group()
    form.add_argument("--table", dest="form", action="store_const", const=None, help="a table with deadlines and run "
                      "cycles, as on a terminal")
    form.add_argument("--lines", dest="form", action="store_const", const=line_text, help="a line each, also on a "
                      "terminal")
    form.add_argument("--json", dest="form", action="store_const", const=json_text, help="an object on each line")
    form.add_argument("-0", "--null", dest="form", action="store_const", const=null_text,
                      help="each of the three with a zero byte after it, as for `xargs -0 -n 3`")
    colours.add_words(parser)
    parser.set_defaults(form=USUAL)


def run(given: argparse.Namespace) -> int:
    """Does what the words ask for; the exit status."""
    from opcplan.plans import plan_file

    now = moments.now() if given.now is None else given.now
    found, notes = plan_file.answer(
        given.plan, lambda plan: (of_plan(plan, now, given.app), waits.notes_on(plan, now)))
    is_table = given.form is None or given.form == USUAL and sys.stdout.isatty()
    if is_table:
        print("\n".join(table_lines(found, now, Paint(given.color))))
    else:
        sys.stdout.write("".join(map(line_text if given.form == USUAL else given.form, found)))
    for note in notes:
        words.print_message(note)
    return 0 if found else 1


def of_plan(plan: Plan, now: int, app: str | None = None) -> list[Row]:
    """The rows that are ready at a moment, the earliest deadline first."""
    return [Row(*row) for row in plan.db.execute(READY, {"now": now, "app": app})]


def table_lines(rows: list[Row], now: int, paint: Paint) -> list[str]:
    """A line for each row, in columns, with its deadline; or that there is none."""
    if not rows:
        return [f"Nothing is ready at {moments.moment_text(now)}."]
    wide = max(11, *(len(row.app) for row in rows))
    title = f"{'application':{wide}}  {'arrives':16}  {'due':16}  {'left':>16}  {'run cycle':9}  serial"
    lines = [paint(title, "bold")]
    for row in rows:
        left = waits.late_text(row, now) or waits.length_text(row.deadline - now)
        text = f"{row.app:{wide}}  {moments.moment_text(row.ia)}  {moments.moment_text(row.deadline)}  {left:>16}  " \
            f"{row.cycle or 'by hand':9}  {row.serial}"
        lines.append(paint(text, "yellow" if waits.is_late(row, now) else None))
    return lines


def parts(row: Row) -> list[str]:
    """Application, input arrival and serial, each as text."""
    return [*moments.key_text(row.app, row.ia).split(" "), str(row.serial)]


def line_text(row: Row) -> str:
    """A line."""
    return " ".join(parts(row)) + "\n"


def null_text(row: Row) -> str:
    """Its parts, each with a zero byte behind it."""
    return "".join(part + "\0" for part in parts(row))


def json_text(row: Row) -> str:
    """An object on a line."""
    import json

    from opcplan.commands import export

    app, ia, _ = parts(row)
    values = {"serial": row.serial, "application": app, "ia": ia, "arrives": export.iso(row.ia),
              "due": export.iso(row.deadline), "run_cycle": row.cycle, "added": row.cycle is None}
    return json.dumps(values) + "\n"
