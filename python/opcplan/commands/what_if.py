"""./plan what-if: what a stream would change of a plan, tried on a private copy."""

import argparse
import collections
import sqlite3
from collections.abc import Collection, Iterator, Mapping

from opcplan.cli import words
from opcplan.commands import trial_words
from opcplan.plans import plan_definitions, progress, trial, waits
from opcplan.plans.plan_file import Plan
from opcplan.plans.stream_state import Known
from opcplan.plans.waits import Row
from opcplan.rules import changes, explanations, moments, printable, stream
from opcplan.rules.definitions import Definitions
from opcplan.rules.stream import Item, Source

SUMMARY = "what a stream would change of a plan, tried on a private copy"
KINDS = ["calendars", "periods", "applications", "run_cycles", "predecessors"]
PLACES = {
    "L": "long-term plan",
    "W": "current plan, waiting",
    "S": "current plan, started",
    "E": "current plan, in error",
    "C": "current plan, complete",
    "D": "current plan, deleted",
    "H": "history",
    "o": "deleted by an operator",
    "w": "withdrawn",
    "p": "deleted in the current plan",
}


def add_words(parser: words.Parser) -> None:
    """Adds its words to a parser."""
    parser.description = (
        "Runs STREAM over a private copy of PLAN.db, and shows which statements are refused and what is different "
        "then. It shows changed definitions, how far the plans reach, and each occurrence that is new, is in another "
        "list or has another deadline. The plan stays as it is. The exit status is 1 if a statement is "
        "refused. " + stream.BOUND
    )
    words.add_plan(parser)
    trial_words.add_words(parser, "tries")


def run(given: argparse.Namespace) -> int:
    """Does what the words ask for; the exit status."""
    with trial.tried(given.plan, given.stream, reply_lines, given.program) as tried:
        lines = [*tried.found, printable.text(difference(tried.plan, tried.after))]
    print("\n".join(lines))
    trial_words.print_end(tried)
    return 0 if tried.status == 0 else 1


def reply_lines(items: Iterator[Item], output: Source, now: Known) -> list[str]:
    """How many statements were accepted and refused, and each that was refused, in the words of explain, fit for a
    terminal."""
    lines, refused, answered = explanations.explained(items, output, now)
    explained = ["", "\n".join(lines).rstrip("\n")] if lines else []
    return [f"{answered - refused} accepted, {refused} refused", *explained]


# What is different.


def difference(before: Plan, after: Plan, most: int | None = None, told: Collection[str] = ()) -> list[str]:
    """Definitions, bounds and occurrences that differ between two plans, in lines; of the occurrences so many at
    most. Changes of definitions that were told before aren't told again."""
    lines = definition_lines(plan_definitions.of_plan(before), plan_definitions.of_plan(after), told)
    lines += bound_lines(before.meta, after.meta)
    with progress.of("compares the plans"):
        changed = changed_rows(before, after)
    lines += occurrence_lines(changed, most)
    return lines or ["", "Nothing would be different except the kept jobs."]


def definition_lines(before: Definitions, after: Definitions, told: Collection[str] = ()) -> list[str]:
    """The names whose definitions differ, by kind, each once, with what was changed of it and isn't told yet, and the
    options."""
    lines = []
    for kind in KINDS:
        held, now = getattr(before, kind), getattr(after, kind)
        what = kind.replace("_", " ")
        changed = {name: changes.of_name(kind.replace("_", "-"), name, held[name], now[name])
                   for name in sorted(held.keys() & now.keys()) if held[name] != now[name]}
        left = {name: [one.brief for one in found if one.text not in told] for name, found in changed.items()}
        for said, names in (
            ("new", now.keys() - held.keys()),
            ("changed, as above", [name for name, texts in left.items() if not texts]),
            ("gone", held.keys() - now.keys()),
        ):
            if names:
                lines.append(f"  {what} {said}: {', '.join(sorted(names))}")
        if any(left.values()):
            lines += [f"  {what} changed:", *changed_lines(left)]
    if before.default_calendar != after.default_calendar:
        lines.append(f"  the default calendar: {before.default_calendar}, then {after.default_calendar}")
    if before.max_hours != after.max_hours:
        lines.append(f"  the most hours of one daily plan: {before.max_hours}, then {after.max_hours}")
    return ["", "Definitions:", *lines] if lines else []


def changed_lines(changed: Mapping[str, list[str]]) -> list[str]:
    """A line for each change of some names, the first of a name behind it, the others below."""
    lines = []
    for name, texts in changed.items():
        lines += [f"    {f'{name}:' if at == 0 else '':{len(name) + 1}} {text}" for at, text in enumerate(texts)]
    return lines


def bound_lines(before: sqlite3.Row, after: sqlite3.Row) -> list[str]:
    """How far the plans reach, where that differs."""
    if not after["created"]:
        return []
    lines = []
    for name, said, text in (
        ("first_day", "the long-term plan begins on", moments.day_text),
        ("last_day", "the long-term plan goes to", moments.day_text),
        ("plan_end", "the current plan ends at", moments.moment_text),
    ):
        if not before["created"]:
            lines.append(f"  {said} {text(after[name])}")
        elif before[name] != after[name]:
            lines.append(f"  {said} {text(before[name])}, then {text(after[name])}")
    return ["", "Plans:", *lines] if lines else []


# What was complete in history or deleted before stays so. So it is enough to look at what was open, and at new serials.
MOVED = """INSERT INTO temp.moved SELECT one.serial FROM before.{0} AS one LEFT JOIN main.{0} AS same USING (serial)
    WHERE same.serial IS NULL"""
NEW = "serial IN (SELECT serial FROM temp.moved) OR serial > :issued"
OTHERWISE = """serial IN (SELECT one.serial FROM before.{0} AS one JOIN main.{0} AS same USING (serial)
    WHERE (one.deadline, one.run_cycle, {1}) IS NOT (same.deadline, same.run_cycle, {2}))"""
OPEN = {"ltp_row": ("'L'", "'L'", "'L'"), "cp_row": ("one.status", "same.status", "status")}


def changed_rows(before: Plan, after: Plan) -> list[tuple[Row | None, Row]]:
    """The occurrences that are new, stand elsewhere, or are due or named otherwise, by input arrival, application and
    serial: as they were before, None if they weren't, and as they are."""
    ask = after.db.execute
    ask("ATTACH ? AS before", (before.db.execute("PRAGMA database_list").fetchone()["file"],))
    try:
        ask("CREATE TEMP TABLE moved (serial INTEGER PRIMARY KEY)")
        for table in OPEN:
            ask(MOVED.format(table))
        otherwise = [f" OR {OTHERWISE.format(table, *cells[:2])}" for table, cells in OPEN.items()]
        texts = [f"{text.replace('FROM ', 'FROM main.')} WHERE {NEW}{more}"
                 for text, more in zip(waits.SETS, [otherwise[1], otherwise[0], "", ""])]
        changed = [Row(*row) for row in ask(" UNION ALL ".join(texts) + " ORDER BY ia, app, serial",
                                            {"issued": before.meta["issued"]})]
        return [(row_before(after, row.serial), row) for row in changed]
    finally:
        ask("DROP TABLE IF EXISTS temp.moved")
        ask("DETACH before")


def row_before(after: Plan, serial: int) -> Row | None:
    """An open row as it was before, in the database that is attached, or None."""
    for table, (_, _, place) in OPEN.items():
        found = after.db.execute(f"SELECT {waits.COLUMNS}, {place} FROM before.{table} WHERE serial = ?", (serial,))
        if (row := found.fetchone()) is not None:
            return Row(*row)
    return None


def occurrence_lines(changed: list[tuple[Row | None, Row]], most: int | None = None) -> list[str]:
    """How many occurrences come to stand elsewhere, from where to where, and then each of them, or the first of them
    and how many more."""
    if not changed:
        return []
    counts = collections.Counter((place_of(old), place_of(new)) for old, new in changed)
    wide = len(f"{len(changed)}")
    lines = ["", f"Occurrences: {len(changed)}"]
    for (old, new), count in sorted(counts.items()):
        how = f"{old}, with another deadline or run cycle" if old == new else f"{old} -> {new}"
        lines.append(f"  {count:{wide}}  {how}")
    table: list[tuple[str, ...]] = [("serial", "application", "arrives", "before", "then", "due")]
    table += [occurrence_cells(old, new) for old, new in changed[:most]]
    widths = [max(map(len, column)) for column in zip(*table)]
    for serial, *cells in table:
        padded = "  ".join(f"{cell:{width}}" for cell, width in zip(cells, widths[1:]))
        lines.append(f"  {serial:>{widths[0]}}  {padded}".rstrip())
    more = len(changed) - len(table) + 1
    lines.insert(-len(table), "")
    return lines + ([f"  and {more} more, which `./plan what-if` shows"] if more else [])


def place_of(row: Row | None) -> str:
    """Where an occurrence stands, in words."""
    return "new" if row is None else PLACES[row.place]


def occurrence_cells(old: Row | None, new: Row) -> tuple[str, ...]:
    """The cells of an occurrence's line."""
    due = moments.moment_text(new.deadline)
    if old is not None and old.deadline != new.deadline:
        due = f"{moments.moment_text(old.deadline)}, then {due}"
    if old is not None and old.cycle != new.cycle:
        due += f" (by {old.cycle}, then by {new.cycle})"
    return str(new.serial), new.app, moments.moment_text(new.ia), place_of(old), place_of(new), due
