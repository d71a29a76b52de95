"""The facts of a plan and of its desk's journal. This alone of the package reads files."""

import datetime
import os
import sqlite3
import time
from collections.abc import Iterable
from typing import NamedTuple

from opcplan.errors import Unreadable
from opcplan.needs.facts import Change, Done, Ends, Extension, Facts, Jump, Live
from opcplan.plans import actual, forecast, journal, plan_definitions, waits
from opcplan.plans.actual import Actual
from opcplan.plans.journal import Journal, StatusChange
from opcplan.plans.plan_file import Plan
from opcplan.rules import horizons, moments

# how many of the last entries are searched for extensions of the plan, and how many of these count
MOST_SEARCHED, MOST_EXTENSIONS = 200_000, 30
# minutes for which the clock's moment counts as just shown: what needs a person is found within two
JUST = 5
# an entry behind all
LAST = (1 << 63) - 1
# the key under which `roll` sends begins so
ROLL = "roll-"


class Told(NamedTuple):
    """What a journal has: changes of statuses, the keys of the last change of occurrences by the number of its entry,
    extensions of the plan (the latest first), when rows were added by hand, when rows were last deleted or planned
    anew, and how long applications take."""

    happened: list[StatusChange]
    keys: dict[int, str | None]
    extensions: list[Extension]
    added: dict[int, int]
    freed: int
    actual: Actual


def of_plan(plan: Plan, path: str | None, now: int, live: Live = Live(), upto: int = LAST,
            by_usual: bool = True) -> tuple[Facts, str]:
    """The facts of a plan at a moment, with the journal of its desk if one is named, up to the last entry that the plan
    has; and why the journal can't be read, empty if it can. `by_usual` has usual deadlines count for rows that were
    added by hand."""
    if not plan.is_created:
        return Facts(now, live=live), ""
    try:
        told, why = (told_by(path, plan, upto), "") if path is not None else (None, "there is no journal")
    except Unreadable as error:
        told, why = None, str(error)
    rows, pairs = waits.unfinished(plan)
    ends = Ends(plan.meta["first_day"], plan.meta["last_day"], plan.meta["plan_end"])
    defined = plan_definitions.of_plan(plan)
    shortfalls = horizons.shortfalls(defined, ends.plan_end // moments.DAY, ends.last_day)
    usual = waits.usual_deadlines(rows, defined) if by_usual else {}
    facts = Facts(now, rows=rows, pairs=pairs, ends=ends, shortfalls=shortfalls, live=live,
                  jump=jump_before(seconds_at(now)), usual=usual)
    return (facts if told is None else with_journal(facts, plan, told)), why


def of_file(plan: Plan, path: str, now: int, named: str | None = None, by_usual: bool = True) -> tuple[Facts, str]:
    """The facts of a plan in a file at a moment, without a desk; with the journal that is named, else with the one
    beside the file if there is one. And why no journal can be read, empty if one can."""
    beside = journal.beside(path)
    return of_plan(plan, named or (beside if os.path.isfile(beside) else None), now, by_usual=by_usual)


def seconds_at(now: int) -> float:
    """The seconds since 1970 of a moment. If the clock has just shown it, they are the clock's, because once a year it
    shows each moment of an hour twice."""
    clock = time.time()
    past = actual.moment(clock) - now
    return clock - 60 * past if 0 <= past <= JUST else (moments.EPOCH + datetime.timedelta(minutes=now)).timestamp()


def jump_before(seconds: float) -> Jump | None:
    """The change of the local clock within a day before a moment in seconds since 1970; None if there was none."""
    known, later = int(seconds // 60) - moments.DAY, int(seconds // 60)
    if not (shift := actual.shift(60 * known, 60 * later)):
        return None
    while later - known > 1:
        middle = (known + later) // 2
        known, later = (known, middle) if actual.shift(60 * known, 60 * middle) else (middle, later)
    after = actual.moment(60 * later)
    return Jump(after - shift, after)


def with_journal(facts: Facts, plan: Plan, told: Told) -> Facts:
    """Facts with what a journal has."""
    changes, done, shifts, clock = {}, {}, {}, seconds_at(facts.now)
    is_open = {row.serial for row in facts.rows}
    since = min((row.deadline for row in facts.by_usual().rows), default=facts.now)
    for one in told.happened:
        seconds = actual.seconds_of(one.at)
        at = actual.moment(seconds)
        if one.serial in is_open:
            changes[one.serial] = Change(one.seq, one.status, at + actual.shift(seconds, clock), told.keys.get(one.seq))
        elif one.status == "C":
            done[one.serial], shifts[one.serial] = at, actual.shift(seconds, clock)
    pairs = done_pairs(plan, is_open, {serial for serial, at in done.items() if at > since}, done)
    deadlines = deadlines_of(plan, {predecessor for _, predecessor in pairs})
    return facts._replace(
        is_told=True, changes=changes, done_pairs=pairs,
        done={serial: Done(deadline, done[serial], shifts[serial]) for serial, deadline in deadlines.items()},
        extensions=told.extensions, added=told.added, freed=told.freed,
        expected=forecast.of_rows(list(facts.rows), facts.pairs, told.actual, facts.now))


def done_pairs(
    plan: Plan, is_open: Iterable[int], late: Iterable[int], done: Iterable[int]
) -> list[tuple[int, int]]:
    """The pairs of rows that are open, or that ended after some deadline, with what they waited for and is done."""
    cursor = plan.db.cursor()
    cursor.row_factory = None
    for name, serials in (("later", {*is_open, *late}), ("earlier", set(done))):
        cursor.execute(f"DROP TABLE IF EXISTS temp.{name}")
        cursor.execute(f"CREATE TEMP TABLE {name} (serial INTEGER PRIMARY KEY)")
        cursor.executemany(f"INSERT INTO temp.{name} VALUES (?)", ((serial,) for serial in serials))
    found: list[tuple[int, int]] = cursor.execute(
        "SELECT successor, predecessor FROM temp.later CROSS JOIN dependency ON successor = later.serial "
        "WHERE predecessor IN (SELECT serial FROM temp.earlier)").fetchall()
    return found


def deadlines_of(plan: Plan, serials: Iterable[int]) -> dict[int, int]:
    """The deadlines of some rows of the current plan and of history."""
    cursor = plan.db.cursor()
    cursor.row_factory = None
    found = {}
    for serial in serials:
        for table in ("cp_row", "history_row"):
            row = cursor.execute(f"SELECT deadline FROM {table} WHERE serial = ?", (serial,)).fetchone()
            if row:
                found[serial] = row[0]
    return found


def told_by(path: str, plan: Plan, upto: int) -> Told:
    """What the journal of a plan has up to an entry. Raises Unreadable."""
    with journal.opened(path) as held:
        happened = [one for one in held.happened() if one.seq <= upto]
        asked_keys = """SELECT seq, key FROM entry
            WHERE seq IN (SELECT max(seq) FROM happened WHERE seq <= ? GROUP BY serial)"""
        keys = dict(held.reader.execute(asked_keys, (upto,)).fetchall())
        extensions, added, freed = of_entries(held, plan.meta["plan_end"], upto)
    actual.check(path, happened, plan)
    try:
        return Told(happened, keys, extensions, added, freed, Actual(happened))
    except (ValueError, AttributeError):
        raise Unreadable(f"{path}: it has an invalid time") from None


def of_entries(held: Journal, plan_end: int, upto: int) -> tuple[list[Extension], dict[int, int], int]:
    """The last extensions of a current plan with this end, the latest first (of one by days only the last is known);
    when rows were added to it by hand; and when rows were last deleted or planned anew, 0 if never; up to an entry."""
    extensions: list[Extension] = []
    added: dict[int, int] = {}
    freed = 0
    for at, text, reply, key in held.reader.execute(asked(), (MOST_SEARCHED, upto)):
        moment = moment_of(at)
        if text.startswith("dp-extend"):
            to = moments.moment_of(journal.options(text).get("to", "")) if extensions else plan_end
            if to is not None and len(extensions) < MOST_EXTENSIONS:
                extensions.append(Extension(moment, to, (key or "").startswith(ROLL)))
        elif text.startswith("cp-add"):
            added[int(reply.rpartition(" ")[2])] = moment
        else:
            freed = max(freed, moment)
    return extensions, added, freed


def asked() -> str:
    """The query for the last entries of some statements, the latest first."""
    statements = " OR ".join(f"text GLOB '{name} *'" for name in ("dp-extend", "cp-add", "cp-delete", "dp-replan"))
    return f"""SELECT at, text, reply, key FROM entry WHERE seq > (SELECT max(seq) FROM entry) - ? AND seq <= ?
        AND ({statements}) AND reply GLOB 'ok *' ORDER BY seq DESC"""


def moment_of(at: str) -> int:
    """The plan's moment of an entry. Raises DatabaseError if no desk wrote it."""
    try:
        return actual.moment(actual.seconds_of(at))
    except (ValueError, AttributeError):
        raise sqlite3.DatabaseError(f"{at!r} is no moment") from None
