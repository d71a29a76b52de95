"""Occurrences of a plan, where they stand, and what they wait for. why, why-day and late stand on it."""

from __future__ import annotations

import itertools
from collections.abc import Iterable, Iterator
from typing import TYPE_CHECKING, NamedTuple

from opcplan.rules import moments, statuses, usual_due

if TYPE_CHECKING:
    from opcplan.plans.plan_file import Plan
    from opcplan.rules.definitions import Definitions

DAY = moments.DAY


class Row(NamedTuple):
    """An occurrence and where it stands: its status in the current plan (W S E C D), L in the long-term plan, H in
    history, and of the deletions o (by an operator), w (withdrawn) or p (in the current plan)."""

    serial: int
    app: str
    ia: int
    deadline: int
    cycle: str | None
    place: str

    @property
    def key(self) -> str:
        """`APP 2024-01-01 08.00`."""
        return f"{self.app} {moments.moment_text(self.ia)}"


class Job(NamedTuple):
    """A kept job: its number, the name of its statement, and its reply."""

    number: int
    name: str
    reply: str


Waits = dict[int, list[Row]]  # by serial: what it waits for
COLUMNS = "serial, app, ia, deadline, run_cycle"
TABLES = ("ltp_row", "history_row", "cp_row", "deletion_row")
SETS = (
    f"SELECT {COLUMNS}, status AS place FROM cp_row",
    f"SELECT {COLUMNS}, 'L' AS place FROM ltp_row",
    f"SELECT {COLUMNS}, 'H' AS place FROM history_row",
    f"SELECT {COLUMNS}, lower(reason) AS place FROM deletion_row",
)


def rows_where(plan: Plan, condition: str, *values: int | str | None) -> list[Row]:
    """The rows of all four sets that meet a condition, by input arrival, application and serial."""
    asked = " UNION ALL ".join(f"{text} WHERE {condition}" for text in SETS)
    names = {f"v{number}": value for number, value in enumerate(values)}
    found = plan.db.execute(f"SELECT * FROM ({asked}) ORDER BY ia, app, serial", names).fetchall()
    return [Row(*row) for row in found]


def is_of_a_row(plan: Plan, app: str) -> bool:
    """Whether an application has a row in one of the four sets."""
    asked = " OR ".join(f"EXISTS (SELECT 1 FROM {table} WHERE app = :app)" for table in TABLES)
    return bool(plan.db.execute(f"SELECT {asked}", {"app": app}).fetchone()[0])


def rows_of_set(plan: Plan, table: str, app: str | None, begin: int | None, end: int | None) -> Iterator[Row]:
    """The rows of one table, one at a time, by input arrival, application and serial: of an application, that arrive
    from a moment on up to another one, where these are named."""
    named = (("app = :app", "app", app), ("ia >= :begin", "begin", begin), ("ia <= :end", "end", end))
    where = " AND ".join(["1", *(text for text, _, value in named if value is not None)])
    cursor = plan.db.cursor()
    cursor.row_factory = None
    (text,) = (text for text in SETS if text.endswith(f" {table}"))
    asked = f"{text} WHERE {where} ORDER BY ia, app, serial"
    return itertools.starmap(Row, cursor.execute(asked, {name: value for _, name, value in named}))


def rows_of_current(plan: Plan, statuses: str) -> list[Row]:
    """The rows of the current plan that have one of the statuses, by input arrival, application and serial."""
    asked = f"{SETS[0]} WHERE instr(?, status) ORDER BY ia, app, serial"
    return [Row(*row) for row in plan.db.execute(asked, (statuses,))]


def added(plan: Plan) -> list[Row]:
    """The rows of the current plan that were added by hand and are neither complete nor deleted, by input arrival."""
    asked = f"{SETS[0]} WHERE run_cycle IS NULL AND instr(?, status) ORDER BY ia, app, serial"
    return [Row(*row) for row in plan.db.execute(asked, (statuses.UNFINISHED,))]


def unfinished(plan: Plan) -> tuple[list[Row], list[tuple[int, int]]]:
    """The rows of the current plan that are neither complete nor deleted, by input arrival, and pairs of these."""
    rows = rows_of_current(plan, statuses.UNFINISHED)
    cursor = plan.db.cursor()
    cursor.row_factory = None
    asked = """SELECT successor, predecessor FROM dependency JOIN cp_row AS later ON later.serial = successor
        JOIN cp_row AS earlier ON earlier.serial = predecessor
        WHERE instr(?1, later.status) AND instr(?1, earlier.status)"""
    return rows, cursor.execute(asked, (statuses.UNFINISHED,)).fetchall()


def usual_deadlines(rows: Iterable[Row], defined: Definitions) -> dict[int, int]:
    """By serial the usual deadline of those of some rows that were added by hand and have one."""
    added = ((row.serial, usual_due.of_run(defined, row.app, row.ia)) for row in rows if row.cycle is None)
    return {serial: usual for serial, usual in added if usual is not None}


def rows_of_key(plan: Plan, app: str, ia: int) -> list[Row]:
    """The rows of a key: the live one first, then the others, the latest serial first."""
    rows = rows_where(plan, "app = :v0 AND ia = :v1", app, ia)
    return sorted(rows, key=lambda row: (row.place in "Dowp", -row.serial))


def rows_of_day(plan: Plan, app: str, day: int) -> list[Row]:
    """The rows of an application that arrive on a day."""
    return rows_where(plan, "app = :v0 AND ia >= :v1 AND ia < :v2", app, day * DAY, (day + 1) * DAY)


def predecessors(plan: Plan, serial: int) -> list[Row]:
    """The rows that an occurrence has pairs with, by input arrival and application."""
    return rows_where(plan, "serial IN (SELECT predecessor FROM dependency WHERE successor = :v0)", serial)


def open_predecessors(plan: Plan, serial: int) -> list[Row]:
    """Those of its predecessors that aren't complete."""
    return [row for row in predecessors(plan, serial) if row.place not in statuses.COMPLETE]


LATE = """CREATE TEMP TABLE reached (serial INTEGER PRIMARY KEY);
    INSERT INTO temp.reached WITH RECURSIVE reached (serial) AS (
        SELECT serial FROM cp_row WHERE status IN ('W', 'S', 'E') AND deadline < :now
        UNION SELECT earlier.serial FROM reached
            CROSS JOIN cp_row AS later ON later.serial = reached.serial AND later.status = 'W'
            CROSS JOIN dependency AS pair ON pair.successor = later.serial
            CROSS JOIN cp_row AS earlier ON earlier.serial = pair.predecessor AND earlier.status IN ('W', 'S', 'E')
    ) SELECT serial FROM reached"""


def late_with_waits(plan: Plan, now: int) -> tuple[list[Row], list[tuple[int, int]]]:
    """The rows of the current plan that are late at a moment, with all of the current plan that they wait for, by input
    arrival, and the pairs of these."""
    cursor = plan.db.cursor()
    cursor.row_factory = None
    cursor.execute("DROP TABLE IF EXISTS temp.reached")
    for text in LATE.split(";"):
        cursor.execute(text, {"now": now})
    asked = f"{SETS[0]} WHERE serial IN (SELECT serial FROM temp.reached) ORDER BY ia, app, serial"
    rows = [Row(*row) for row in cursor.execute(asked)]
    asked = ("SELECT successor, predecessor FROM temp.reached CROSS JOIN dependency ON successor = serial "
             "WHERE +predecessor IN (SELECT serial FROM temp.reached)")
    return rows, cursor.execute(asked).fetchall()


OPEN_PAIRS = """reached CROSS JOIN dependency ON successor = reached.serial
    WHERE EXISTS (SELECT 1 FROM ltp_row WHERE serial = predecessor)
    OR EXISTS (SELECT 1 FROM cp_row WHERE serial = predecessor AND status IN ('W', 'S', 'E'))"""


def chain(plan: Plan, row: Row) -> Waits:
    """All that a row waits for: by serial the predecessors that aren't complete, down to rows that wait for none."""
    ask = plan.db.execute
    ask("DROP TABLE IF EXISTS temp.reached")
    ask("CREATE TEMP TABLE reached (serial INTEGER PRIMARY KEY)")
    ask(
        "INSERT INTO temp.reached WITH RECURSIVE reached (serial) AS "
        f"(VALUES (?) UNION SELECT predecessor FROM {OPEN_PAIRS}) SELECT serial FROM reached",
        (row.serial,),
    )
    rows = {other.serial: other for other in rows_where(plan, "serial IN (SELECT serial FROM temp.reached)")}
    waits: Waits = {serial: [] for serial in rows}
    for successor, predecessor in ask(f"SELECT successor, predecessor FROM temp.{OPEN_PAIRS}"):
        waits[successor].append(rows[predecessor])
    for others in waits.values():
        others.sort(key=lambda other: (other.ia, other.app, other.serial))
    return waits


def roots(waits: Waits, row: Row) -> list[Row]:
    """The rows at the end of a chain: they wait for nothing that isn't complete, and the others wait for them."""
    found = {other.serial: other for others in waits.values() for other in others if not waits[other.serial]}
    found.pop(row.serial, None)
    return sorted(found.values(), key=lambda other: (other.ia, other.app, other.serial))


def is_late(row: Row, now: int) -> bool:
    """Late: in the current plan, neither complete nor deleted, and past its deadline."""
    return row.place in statuses.UNFINISHED and row.deadline < now


def state(row: Row, is_blocked: bool, now: int) -> str:
    """How far a row is, as a word of STATES; one that waits is ready, blocked, or its time is to come."""
    if row.place != "W":
        return statuses.STATES[row.place]
    return statuses.STATES["F" if row.ia > now else "B" if is_blocked else "R"]


def length_text(minutes: int) -> str:
    """`45 min`, `2 h`, `2 h 05 min`, `3 days 4 h`."""
    days, hours, rest = minutes // DAY, minutes % DAY // 60, minutes % 60
    if days:
        return f"{days} day{'s' if days > 1 else ''}" + (f" {hours} h" if hours else "")
    if hours:
        return f"{hours} h" + (f" {rest:02} min" if rest else "")
    return f"{rest} min"


def late_text(row: Row, now: int) -> str:
    """`late by 2 h`, or nothing."""
    return f"late by {length_text(now - row.deadline)}" if is_late(row, now) else ""


def jobs_of_key(plan: Plan, app: str, ia: int) -> list[Job]:
    """The jobs that asked something of one key, by number, refused ones too: (number, statement's name, reply)."""
    arrival = moments.moment_word(ia)
    asked = "SELECT number, body, reply FROM job WHERE instr(body, ?1) AND instr(body, ?2) ORDER BY number"
    found = []
    for number, body, reply in plan.db.execute(asked, (app.encode(), arrival.encode())):
        name, *rest = bytes(body).decode("latin-1").replace("=", " ").split(" ")
        options = {option: value for option, value in zip(rest, rest[1:]) if option.startswith("--")}
        if name != "define" and (options.get("--app"), options.get("--ia")) == (app, arrival):
            found.append(Job(number, name, reply))
    return found


def notes_on(plan: Plan, now: int) -> list[str]:
    """What is to be said of the moment."""
    if not plan.is_created:
        return ["there is no long-term plan yet, so nothing can be late"]
    meta = plan.meta
    if meta["first_day"] * DAY <= now < (meta["last_day"] + 1) * DAY:
        return []
    first, last = moments.day_text(meta["first_day"]), moments.day_text(meta["last_day"])
    return [f"this is as of {moments.moment_text(now)}, but the plan goes from {first} to {last}; --now sets the "
            "moment"]
