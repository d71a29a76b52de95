"""The page's queries of a plan."""

import sqlite3
from operator import itemgetter
from typing import NamedTuple

from opcplan.plans import plan_definitions
from opcplan.plans.plan_file import Plan
from opcplan.plans.waits import Row
from opcplan.rules import moments
from opcplan.rules.definitions import Definitions
from opcplan.webpage.page_values import Difference, Job, Redefinition

Lists = dict[str, dict[str, int | None]]  # by application and predecessor the limit in hours, or None
MOST_JOBS = 3000


class Stand(NamedTuple):
    """An occurrence: its place as a Row has it, its deadline, and its key."""

    place: str
    due: int
    app: str
    ia: int


COLUMNS = "serial, app, ia, deadline, run_cycle"
CURRENT = f"SELECT {COLUMNS}, status FROM cp_row"
OTHERS = f"""SELECT {COLUMNS}, 'L' FROM ltp_row WHERE {{0}} UNION ALL
    SELECT {COLUMNS}, 'H' FROM history_row WHERE {{0}} UNION ALL
    SELECT {COLUMNS}, lower(reason) FROM deletion_row WHERE {{0}}"""


def plain_cursor(plan: Plan) -> sqlite3.Cursor:
    """A cursor whose rows are tuples."""
    cursor: sqlite3.Cursor = plan.db.cursor()
    cursor.row_factory = None
    return cursor


def occurrences(plan: Plan, first: int, last: int) -> tuple[list[Row], list[tuple[int, int]]]:
    """The rows of the whole current plan, those of the other sets on the days from first to last, and their
    predecessors, by input arrival and application; and the pairs of serials (successor, predecessor)."""
    ask = plain_cursor(plan).execute
    days = (first * moments.DAY, (last + 1) * moments.DAY)
    found = ask(f"{CURRENT} UNION ALL {OTHERS.format('ia >= ?1 AND ia < ?2')}", days).fetchall()
    shown = {row[0] for row in found}
    pairs = [pair for pair in ask("SELECT successor, predecessor FROM dependency") if pair[0] in shown]
    beyond = {predecessor for _, predecessor in pairs if predecessor not in shown}
    ask("CREATE TEMP TABLE beyond (serial INTEGER PRIMARY KEY)")
    plain_cursor(plan).executemany("INSERT INTO beyond VALUES (?)", ((serial,) for serial in beyond))
    found += ask(OTHERS.format("serial IN (SELECT serial FROM beyond)")).fetchall()
    found.sort(key=itemgetter(2, 1, 0))
    return list(map(Row._make, found)), pairs


def totals(plan: Plan) -> dict[str, int]:
    """How many occurrences each set has."""
    return {table: plan.db.execute(f"SELECT count(*) FROM {table}_row").fetchone()[0]
            for table in ("ltp", "cp", "history", "deletion")}


def journal(plan: Plan) -> tuple[list[Job], int]:
    """The jobs from the last daily plan on, by number, at most the last MOST_JOBS of them; and how many there are. A
    plan stores no times, so the numbers give the order in which jobs came."""
    jobs: list[Job] = []
    count = 0
    for number, text, reply in plain_cursor(plan).execute(
        "SELECT number, substr(body, 1, 1024), reply FROM job ORDER BY number DESC"
    ):
        statement = bytes(text).split(b"\n")[0].decode("ascii", "replace")
        count += 1
        if count <= MOST_JOBS:
            jobs.append(Job(number, statement, reply))
        if statement.startswith("dp-extend") and reply.startswith("ok"):
            break
    return jobs[::-1], count


def places(plan: Plan) -> dict[int, Stand]:
    """Each occurrence of a plan: by serial its place, deadline, application and input arrival."""
    asked = f"{CURRENT} UNION ALL {OTHERS.format('TRUE')}"
    return {serial: Stand(place, due, app, ia) for serial, app, ia, due, _, place in plain_cursor(plan).execute(asked)}


def difference(plan: Plan, old: Plan) -> list[Difference]:
    """Each occurrence that is new, has moved, or has another deadline than in an older copy of the plan, by input
    arrival, application and serial."""
    before = places(old)
    found = []
    for serial, (place, due, app, ia) in places(plan).items():
        was, was_due, *_ = before.get(serial, Stand("", due, app, ia))
        if (was, was_due) != (place, due) and (was, place) != ("C", "H"):
            found.append(Difference(serial, was, place, app, ia, was_due, due))
    return sorted(found, key=lambda one: (one.ia, one.app, one.serial))


KINDS = [("calendar", "calendars"), ("period", "periods"), ("application", "applications"),
         ("run cycles of", "run_cycles"), ("predecessors of", "predecessors")]


def redefined(new: Definitions, old: Definitions) -> list[Redefinition]:
    """Each definition that is new, gone or changed since an older copy."""
    found = []
    for what, field in KINDS:
        now, before = getattr(new, field), getattr(old, field)
        for name in sorted(set(now) | set(before)):
            if now.get(name) != before.get(name):
                how = "new" if name not in before else "gone" if name not in now else "changed"
                found.append(Redefinition(what, name, how))
    if (new.default_calendar, new.max_hours) != (old.default_calendar, old.max_hours):
        found.append(Redefinition("options", "", "changed"))
    return found


def applications(plan: Plan) -> tuple[Definitions, Lists]:
    """The definitions, and the lists of predecessors in force."""
    return plan_definitions.of_plan(plan), plan_definitions.lists_of(plan, "link_in_force")
