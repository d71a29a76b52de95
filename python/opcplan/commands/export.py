"""./plan export: occurrences for a calendar, a spreadsheet or a program. They are printed as they are read."""

import argparse
import contextlib
import csv
import datetime
import functools
import io
import itertools
import json
import os
import sqlite3
import sys
from collections.abc import Callable, Collection, Iterable, Iterator
from typing import NamedTuple

from opcplan.cli import words
from opcplan.commands import export_actual
from opcplan.commands.export_actual import Ran
from opcplan.errors import Error, UsageError
from opcplan.plans import plan_file, progress
from opcplan.plans.plan_file import Plan
from opcplan.rules import moments, printable

SUMMARY = "occurrences as iCalendar, CSV or JSON, with ISO dates"
SETS = {
    "ltp": ("ltp_row", "'', ''"),
    "cp": ("cp_row", "status, ''"),
    "history": ("history_row", "'C', ''"),
    "deletions": ("deletion_row", "'', reason"),
}
USUAL = ["ltp", "cp", "history"]
STATUSES = {"W": "waiting", "S": "started", "E": "in error", "C": "complete", "D": "deleted"}
REASONS = {"O": "deleted by an operator", "W": "withdrawn", "P": "deleted in the current plan"}
PLACES = {"ltp": "long-term plan", "cp": "current plan", "history": "history", "deletions": "deletions"}
COLUMNS = "serial application set status reason arrives due run_cycle added".split()
# of a line of iCalendar, without its end
MOST_OCTETS = 75
AT_ONCE = 1000  # rows of which the text, or what they wait for, is made at once
# a spreadsheet takes a cell that begins with one of these for a formula, or looks behind it for one
FORMULA_SIGNS = ("=", "+", "-", "@", "\t", "\r")


class Occurrence(NamedTuple):
    """An occurrence and where it stands: in a set, with its status there or the reason of its deletion, else ''."""

    serial: int
    app: str
    arrival: int
    deadline: int
    run_cycle: str | None
    held: str
    status: str
    reason: str

    def values(self, moment_text: Callable[[int], str]) -> list[object]:
        """What the columns show; None where there is nothing to show."""
        status, reason = STATUSES.get(self.status), REASONS.get(self.reason)
        moments_shown = [moment_text(self.arrival), moment_text(self.deadline)]
        added = self.run_cycle is None
        return [self.serial, self.app, self.held, status, reason, *moments_shown, self.run_cycle, added]


def add_words(parser: words.Parser) -> None:
    """Adds its words to a parser."""
    parser.description = (
        "Prints occurrences of PLAN.db by input arrival: those of the long-term plan, of the current plan and of "
        "history, or of the sets that you name. Moments are those of the plan, local and without a time zone."
    )
    words.add_plan(parser)
    words.add_journal(parser)
    words.add_now(parser)
    form = parser.add_mutually_exclusive_group(required=True)
    form.add_argument("--ics", dest="form", action="store_const", const=calendar_texts,
                      help="iCalendar, with an event for each")
    form.add_argument("--csv", dest="form", action="store_const", const=csv_texts,
                      help="a table with a line of names; a cell that begins like a formula has an apostrophe before "
                           "it")
    form.add_argument("--json", dest="form", action="store_const", const=json_texts, help="with what each waits for")
    parser.add_argument("--raw", action="store_true",
                        help="with --csv: cells as they are, for programs other than spreadsheets")
    parser.add_argument("--set", dest="sets", action="append", choices=list(SETS),
                        help="a set; you may give it repeatedly")
    parser.add_argument("--app", type=words.name, help="only this application")
    parser.add_argument("--from", dest="first", type=words.day, metavar="D",
                        help="only what arrives on this day or later")
    parser.add_argument("--to", dest="last", type=words.day, metavar="D",
                        help="only what arrives on this day or before")


def run(given: argparse.Namespace) -> int:
    """Does what the words ask for; the exit status."""
    if given.raw and given.form is not csv_texts:
        raise UsageError("--raw goes with --csv only")
    if given.now is not None and given.journal is None:
        raise UsageError("--now says as of when ends are expected; it needs --journal")
    form = raw_csv_texts if given.raw else given.form
    begin = None if given.first is None else given.first * moments.DAY
    end = None if given.last is None else (given.last + 1) * moments.DAY - 1
    with plan_file.opened(given.plan) as plan:
        found = occurrences(plan.db, given.sets or USUAL, given.app, begin, end)
        one = next(found, None)
        if one is None:
            raise Error(f"{given.plan}: it has no such occurrence")
        ran = export_actual.of_journal(given.journal, plan, given.now) if given.journal else None
        sys.stdout.flush()
        with shown(plan, itertools.chain([one], found), given.sets or USUAL) as rows:
            for text in form(plan, rows, ran):
                sys.stdout.buffer.write(text.encode())
    return 0


@contextlib.contextmanager
def shown(plan: Plan, rows: Iterable[Occurrence], sets: Collection[str]) -> Iterator[Iterator[Occurrence]]:
    """Rows of some sets that are printed; how far that is shows at a terminal, unless they are printed there."""
    with progress.of(f"prints rows of {plan.path}", not sys.stdout.isatty()) as far:
        tables = [SETS[name][0] for name in SETS if name in sets]
        most = sum(int(plan.db.execute(f"SELECT count(*) FROM {table}").fetchone()[0]) for table in tables)
        count = itertools.count(1)
        yield progress.along(rows, far, lambda: next(count) / max(1, most))


def occurrences(
    db: sqlite3.Connection, sets: Collection[str], app: str | None, begin: int | None, end: int | None
) -> Iterator[Occurrence]:
    """The rows of these sets, one at a time, in the order of lists: by input arrival, application and serial. They are
    of an application, and arrive from a moment on up to another one, where these are named."""
    named = {"app": ("app = :app", app), "begin": ("ia >= :begin", begin), "end": ("ia <= :end", end)}
    values = {name: value for name, (_, value) in named.items() if value is not None}
    where = " AND ".join(["1", *(named[name][0] for name in values)])
    texts = [f"SELECT serial, app, ia, deadline, run_cycle, '{name}', {state} FROM {table} WHERE {where}"
             for name, (table, state) in SETS.items() if name in sets]
    cursor = db.cursor()
    cursor.row_factory = None
    return itertools.starmap(Occurrence, cursor.execute(" UNION ALL ".join(texts) + " ORDER BY 3, 2, 1", values))


def batches(found: Iterable[Occurrence]) -> Iterator[list[Occurrence]]:
    """The same, some at a time."""
    rows = iter(found)
    while some := list(itertools.islice(rows, AT_ONCE)):
        yield some


def iso(moment: int, between: str = "T") -> str:
    """A moment by ISO 8601, without a zone."""
    day, minute = divmod(moment, moments.DAY)
    return f"{day_text(day)}{between}{minute // 60:02}:{minute % 60:02}"


@functools.lru_cache(1000)
def day_text(day: int) -> str:
    """`YYYY-MM-DD`."""
    return moments.day_text(day)


# A table. Spreadsheets take moments with a blank in them for moments.


def spaced(moment: int) -> str:
    """A moment by ISO 8601 with a blank in it."""
    return iso(moment, " ")


def csv_texts(_: Plan, found: Iterable[Occurrence], ran: Ran | None = None) -> Iterator[str]:
    """A table for a spreadsheet."""
    return table_texts(ran, ([cell(value) for value in row] for row in cells_of(found, ran)))


def raw_csv_texts(_: Plan, found: Iterable[Occurrence], ran: Ran | None = None) -> Iterator[str]:
    """A table of the cells as they are."""
    return table_texts(ran, cells_of(found, ran))


def cells_of(found: Iterable[Occurrence], ran: Ran | None) -> Iterator[list[object]]:
    """The values of the rows of a table."""
    return ([*one.values(spaced), *(ran.values(one, " ") if ran else ())] for one in found)


def table_texts(ran: Ran | None, rows: Iterator[list[object]]) -> Iterator[str]:
    """The text of a table, with a line of names, in pieces."""
    yield rows_text([[*COLUMNS, *(export_actual.COLUMNS if ran else ())]])
    while some := list(itertools.islice(rows, AT_ONCE)):
        yield rows_text(some)


def rows_text(rows: Iterable[Iterable[object]]) -> str:
    """The text of some rows of a table."""
    text = io.StringIO()
    table = csv.writer(text, lineterminator="\n")
    table.writerows([int(value) if isinstance(value, bool) else value for value in values] for values in rows)
    return text.getvalue()


def cell(value: object) -> object:
    """A value such as no spreadsheet takes for a formula."""
    return f"'{value}" if isinstance(value, str) and value.startswith(FORMULA_SIGNS) else value


# For programs: an object, an occurrence on each line of its list.


def json_texts(plan: Plan, found: Iterable[Occurrence], ran: Ran | None = None) -> Iterator[str]:
    """An object, with a list of occurrences, in pieces."""
    meta = plan.meta
    head: dict[str, object] = {
        "plan": os.path.basename(plan.path),
        "first_day": moments.day_text(meta["first_day"]),
        "last_day": moments.day_text(meta["last_day"]),
        "plan_end": iso(meta["plan_end"]),
        **({"durations": ran.durations} if ran else {}),
    }
    yield json.dumps(head, indent=1).removesuffix("\n}") + ',\n "occurrences": [\n'
    between = ""
    for some in batches(found):
        waits_for = predecessors_of(plan.db, some)
        lines = []
        for one in some:
            values = dict(zip(COLUMNS, one.values(iso)))
            more = dict(zip(export_actual.COLUMNS, ran.values(one, "T"))) if ran else {}
            lines.append(json.dumps({**values, "waits_for": waits_for.get(one.serial, []), **more}))
        yield between + ",\n".join("  " + line for line in lines)
        between = ",\n"
    yield "\n ]\n}\n"


def predecessors_of(db: sqlite3.Connection, rows: Iterable[Occurrence]) -> dict[int, list[int]]:
    """By serial the serials of what some occurrences have pairs with, in order."""
    waits_for: dict[int, list[int]] = {}
    asked = ("SELECT pair.successor, pair.predecessor FROM json_each(?) AS one CROSS JOIN dependency AS pair "
             "ON pair.successor = one.value")
    for successor, predecessor in db.execute(asked, (json.dumps([row.serial for row in rows]),)):
        waits_for.setdefault(successor, []).append(predecessor)
    return {serial: sorted(others) for serial, others in waits_for.items()}


# iCalendar, RFC 5545: an event from input arrival to deadline, in floating local time.


def calendar_texts(plan: Plan, found: Iterable[Occurrence], ran: Ran | None = None) -> Iterator[str]:
    """A calendar, with an event for each occurrence, in pieces."""
    stamp = last_written(plan.path).strftime("%Y%m%dT%H%M%SZ")
    lines = ["BEGIN:VCALENDAR", "VERSION:2.0", "PRODID:-//opcplan//plan export//EN", "CALSCALE:GREGORIAN"]
    for some in itertools.chain([lines], (event_lines(one, stamp, ran) for one in found), [["END:VCALENDAR"]]):
        yield "".join([f"{folded(line)}\r\n" for line in some])


def last_written(path: str) -> datetime.datetime:
    """When the plan was last written, in universal time: the stamp of what is told about it."""
    times = [os.stat(path + tail).st_mtime for tail in ("", "-wal") if os.path.exists(path + tail)]
    return datetime.datetime.fromtimestamp(max(times, default=0), datetime.timezone.utc)


def event_lines(one: Occurrence, stamp: str, ran: Ran | None) -> list[str]:
    """The lines of an event. An end has to come after the start, so a deadline that doesn't is told in words alone."""
    start, end = (iso(moment).replace("-", "").replace(":", "") + "00" for moment in (one.arrival, one.deadline))
    is_gone = one.status == "D" or one.held == "deletions"
    return [
        "BEGIN:VEVENT",
        f"UID:opcplan-{one.serial:09}-{start}-{escaped(one.app)}",
        f"DTSTAMP:{stamp}",
        f"DTSTART:{start}",
        *([f"DTEND:{end}"] if one.deadline > one.arrival else []),
        f"SUMMARY:{escaped(one.app)}",
        f"DESCRIPTION:{escaped(description(one) + (ran.text(one) if ran else ''))}",
        f"CATEGORIES:{escaped(PLACES[one.held])}",
        f"STATUS:{'CANCELLED' if is_gone else 'CONFIRMED'}",
        "TRANSP:TRANSPARENT",
        "END:VEVENT",
    ]


def description(one: Occurrence) -> str:
    """What an occurrence is, in words."""
    status = None if one.held == "history" else STATUSES.get(one.status)
    place = ", ".join(filter(None, [PLACES[one.held], status, REASONS.get(one.reason)]))
    origin = "added by hand" if one.run_cycle is None else f"named by run cycle {one.run_cycle}"
    due = f"due {moments.moment_text(one.deadline)}"
    return f"serial {one.serial}, {place}\narrives {moments.moment_text(one.arrival)}, {due}\n{origin}"


def escaped(text: str) -> str:
    """A value of type TEXT: line ends are written `\\n`, other controls as their numbers."""
    if text.isalnum():
        return text
    if not text.replace("\n", "").isprintable():
        text = printable.text(text.replace("\r\n", "\n").replace("\r", "\n").split("\n"))
    for sign, written in (("\\", "\\\\"), (";", "\\;"), (",", "\\,"), ("\n", "\\n")):
        text = text.replace(sign, written)
    return text


def folded(line: str) -> str:
    """A line cut so that no piece has more octets than it may, each character whole; each further piece begins behind
    a blank, which counts."""
    if len(line) <= MOST_OCTETS and line.isascii():
        return line
    octets, begin = line.encode("utf-8"), 0
    pieces: list[bytes] = []
    if len(octets) <= MOST_OCTETS:
        return line
    while len(octets) - begin > MOST_OCTETS - bool(pieces):
        end = begin + MOST_OCTETS - bool(pieces)
        while octets[end] & 0xC0 == 0x80:  # it goes on with a character that began before
            end -= 1
        pieces.append(octets[begin:end])
        begin = end
    return b"\r\n ".join([*pieces, octets[begin:]]).decode("utf-8")
