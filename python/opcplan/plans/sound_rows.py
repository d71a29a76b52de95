"""The rules that the rows of a plan keep (docs/rules/TABLES.md), asked once where its file is read: forms and ranges of
values, and how rows refer to each other. Which keys, lists and pairs there may be, sound_pairs asks."""

import re
import sqlite3
from collections.abc import Iterable, Iterator, Mapping
from typing import NamedTuple

from opcplan.errors import Error
from opcplan.rules import definitions, printable

FIRST_MOMENT, LAST_MOMENT = definitions.FIRST_DAY * 1440, (definitions.LAST_DAY + 1) * 1440 - 1
LAST_KEPT_DAY = 36159  # 2068-12-31: a plan that was made earlier may reach so far
MOST_PLANNED, GREATEST = 200_000, 999_999_999
MOST_SHOWN = 40
# of the time that values take, how much more relations take
RELATIONS_SHARE = 0.3


class Rule(NamedTuple):
    """What a value has to be: a condition of SQL, `{0}` for the column, and in words. Names are asked once each, since
    most rows have one that others have too."""

    holds: str
    words: str
    is_name: bool = False

    def or_null(self) -> "Rule":
        """The same, or no value."""
        return Rule(f"({{0}} IS NULL OR {self.holds})", f"{self.words}, or NULL", self.is_name)

    def asked(self, column: str) -> str:
        """The condition on a column, which NULL doesn't meet."""
        return f"coalesce({self.holds.format(column)}, 0)"


def between(low: int, high: int, words: str = "a number") -> Rule:
    """An integer of a range."""
    return Rule(f"(typeof({{0}}) = 'integer' AND {{0}} BETWEEN {low} AND {high})", f"{words} from {low} to {high}")


def named(longest: int) -> Rule:
    """A name. What stands behind a zero byte neither GLOB sees, nor the length of a text."""
    size = "length(CAST({0} AS BLOB))"
    letters = "{0} NOT GLOB '*[^A-Z0-9@#$]*' AND {0} NOT GLOB '[0-9]*'"
    holds = f"(typeof({{0}}) = 'text' AND {size} BETWEEN 1 AND {longest} AND length({{0}}) = {size} AND {letters})"
    return Rule(holds, f"a name (1 to {longest} of A to Z, 0 to 9, @, # and $, the first no digit)", True)


def one_of(letters: Iterable[str]) -> Rule:
    """A text of one of these letters."""
    listed = ", ".join(f"'{letter}'" for letter in letters)
    return Rule(f"(typeof({{0}}) = 'text' AND {{0}} IN ({listed}))", f"one of {', '.join(letters)}")


NAME, SHORT_NAME, FLAG, PLACE, HOURS = named(16), named(8), between(0, 1), between(0, GREATEST), between(1, 9999)
SERIAL, MINUTE = between(1, GREATEST), between(0, 1439, "a minute")
DAY = between(definitions.FIRST_DAY, definitions.LAST_DAY, "a day")
MOMENT = between(FIRST_MOMENT, LAST_MOMENT, "a moment")
PLAN_DAY = Rule(f"CASE created WHEN 0 THEN {{0}} IS 0 ELSE {DAY.holds} END", f"{DAY.words}, or 0 without a plan")
PLAN_END = Rule(f"CASE created WHEN 0 THEN {{0}} IS 0 ELSE {MOMENT.holds} END", f"{MOMENT.words}, or 0 without a plan")
ENTRY = Rule(
    f"CASE kind WHEN 0 THEN {between(0, 6).holds} ELSE {DAY.holds} END", f"a weekday from 0 to 6, or {DAY.words}"
)
SECOND = Rule(
    f"CASE type WHEN 'N' THEN ({{0}} IS NULL OR {DAY.holds} AND {{0}} >= origin) ELSE {between(1, 1999).holds} END",
    "an interval from 1 to 1999, or for type N a day from the origin on or NULL",
)
OFFSET = Rule(f"({between(-1999, 1999).holds} AND {{0}} <> 0)", "a number from 1 to 1999, or from -1999 to -1")
# for type X both parts of a deadline may be missing, together
DUE = "CASE WHEN {{0}} IS NULL THEN type = 'X' AND {1} IS NULL ELSE {0} END"
DUE_DAY = Rule(
    DUE.format(between(0, 99).holds, "deadline_time"), "a number from 0 to 99, for type X or NULL, as the time"
)
DUE_TIME = Rule(DUE.format(MINUTE.holds, "deadline_day"), f"{MINUTE.words}, for type X or NULL, as the day")
BODY = Rule("typeof({0}) = 'blob'", "a BLOB")
TEXT = Rule("typeof({0}) = 'text'", "a text")

ROW = {"serial": SERIAL, "app": NAME, "ia": MOMENT, "deadline": MOMENT, "run_cycle": SHORT_NAME.or_null()}
LINK = {"app": NAME, "pred": NAME, "within": HOURS.or_null()}
LATER = "within"  # the column that tables of version 1 lack
Rules = Mapping[str, Rule]  # by column
RULES: dict[str, Rules] = {
    "plan_meta": {
        "id": between(1, 1),
        "version": between(1, 2),
        "created": FLAG,
        "first_day": PLAN_DAY,
        "last_day": PLAN_DAY,
        "plan_end": PLAN_END,
        "issued": between(0, GREATEST),
        "default_calendar": NAME,
        "max_hours": between(1, 504),
    },
    "calendar_entry": {"calendar": NAME, "kind": FLAG, "day": ENTRY, "work": FLAG},
    "plan_period": {"name": SHORT_NAME, "seq": PLACE, "type": one_of("AWN"), "origin": DAY, "second": SECOND},
    "application": {"name": NAME, "active": FLAG, "calendar": NAME.or_null()},
    "run_cycle": {
        "app": NAME,
        "name": SHORT_NAME,
        "type": one_of("NX"),
        "period": SHORT_NAME,
        "rule": one_of("E1234"),
        "in_effect": DAY,
        "out_effect": DAY.or_null(),
        "ia": MINUTE,
        "deadline_day": DUE_DAY,
        "deadline_time": DUE_TIME,
    },
    "run_cycle_offset": {"app": NAME, "name": SHORT_NAME, "seq": PLACE, "k": OFFSET},
    "predecessor": LINK,
    "link_in_force": LINK,
    "ltp_row": ROW,
    "cp_row": {**ROW, "status": one_of("WSECD")},
    "history_row": ROW,
    "deletion_row": {**ROW, "reason": one_of("OWP")},
    "dependency": {"successor": SERIAL, "predecessor": SERIAL},
    "job": {"number": between(1, GREATEST), "body": BODY, "reply": TEXT},
}
KEYS = {
    "plan_meta": ["id"],
    "calendar_entry": ["calendar", "kind", "day"],
    "plan_period": ["name", "seq"],
    "application": ["name"],
    "run_cycle": ["app", "name"],
    "run_cycle_offset": ["app", "name", "seq"],
    "predecessor": ["app", "pred"],
    "link_in_force": ["app", "pred"],
    "dependency": ["successor", "predecessor"],
    "job": ["number"],
    **dict.fromkeys(("ltp_row", "cp_row", "history_row", "deletion_row"), ["serial"]),
}
OF_PLANS = ["ltp_row", "cp_row", "history_row", "deletion_row", "dependency", "link_in_force"]
SERIALS = " UNION ALL ".join(f"SELECT serial FROM {table}" for table in OF_PLANS[:4])
FIRST, BEYOND = "(SELECT first_day * 1440 FROM plan_meta)", "(SELECT (last_day + 1) * 1440 FROM plan_meta)"
END, ISSUED = "(SELECT plan_end FROM plan_meta)", "(SELECT issued FROM plan_meta)"
# what rows have to do with each other: a question that shows something where it doesn't hold, and what is wrong then
RELATIONS = [
    (
        "SELECT 1 FROM plan_meta WHERE created = 0 AND (issued OR "
        + " OR ".join(f"EXISTS (SELECT 1 FROM {table})" for table in OF_PLANS)
        + ")",
        "there are rows of plans, but plan_meta says that there is no plan",
    ),
    (
        f"SELECT 1 FROM plan_meta WHERE created AND (first_day > last_day OR last_day > {LAST_KEPT_DAY} OR "
        f"plan_end NOT BETWEEN {FIRST} AND {BEYOND})",
        "first_day, last_day and plan_end of plan_meta don't follow on each other, or go past 2068-12-31",
    ),
    (
        "SELECT 1 FROM plan_period GROUP BY name HAVING min(seq) <> 0 OR max(seq) <> count(*) - 1 "
        "OR count(DISTINCT type) <> 1 OR max(type) <> 'N' AND count(*) > 1",
        "the entries of a period in plan_period have gaps in seq, several types, or are several of type A or W",
    ),
    (
        "SELECT 1 FROM plan_period AS one JOIN plan_period AS next ON next.name = one.name AND next.seq = one.seq + 1 "
        "WHERE next.origin <= one.origin",
        "an origin in plan_period isn't later than the one before it",
    ),
    (
        "SELECT 1 FROM run_cycle_offset GROUP BY app, name HAVING min(seq) <> 0 OR max(seq) <> count(*) - 1 "
        "OR count(*) > 64",
        "the offsets of a run cycle in run_cycle_offset have gaps in seq, or are more than 64",
    ),
    (
        "SELECT 1 FROM run_cycle_offset AS one WHERE NOT EXISTS (SELECT 1 FROM run_cycle AS other "
        "WHERE other.app = one.app AND other.name = one.name)",
        "run_cycle_offset has a row of a run cycle that isn't there",
    ),
    (
        "SELECT 1 FROM run_cycle AS one WHERE NOT EXISTS (SELECT 1 FROM run_cycle_offset AS other "
        "WHERE other.app = one.app AND other.name = one.name)",
        "a run cycle has no row in run_cycle_offset",
    ),
    (
        f"SELECT 1 WHERE (SELECT count(*) FROM ltp_row) + (SELECT count(*) FROM cp_row) > {MOST_PLANNED}",
        f"ltp_row and cp_row have more than {MOST_PLANNED} rows together",
    ),
    (
        f"SELECT 1 WHERE (SELECT count(*) FROM ({SERIALS})) <> {ISSUED} OR EXISTS (SELECT 1 FROM ({SERIALS}) "
        f"WHERE serial > {ISSUED})",
        "the serials of the four tables of rows aren't those from 1 to issued of plan_meta",
    ),
    *(
        (
            f"SELECT 1 FROM {one} AS one JOIN {other} AS other ON other.serial = one.serial",
            f"a serial is in both {one} and {other}",
        )
        for place, one in enumerate(OF_PLANS[:4])
        for other in OF_PLANS[place + 1 : 4]
    ),
    *(
        (f"SELECT 1 FROM {table} WHERE ia < {low} OR ia >= {high}", f"a row in {table} arrives outside its plan")
        for table, low, high in (("ltp_row", END, BEYOND), ("cp_row", FIRST, END), ("history_row", FIRST, END))
    ),
    (
        f"SELECT 1 FROM dependency WHERE successor > {ISSUED} OR predecessor > {ISSUED}",
        "dependency has a serial that no row has",
    ),
]
NUMBER, NAME_TEXT = "(?:0|[1-9][0-9]{0,8})", "[A-Z@#$][A-Z0-9@#$]{0,15}"
# what the answer to a kept job may be
REPLY = re.compile(
    (
        "ok (?:defined N|undefined|made N withdrawn N|serial N(?: status [WSECD])?"
        "|moved N carried N completed N deleted N)".replace("N", NUMBER)
        + f"|refused (?:13|2[0146789]|3[12]|2[235] {NAME_TEXT}|30 {NUMBER})"
    ).encode()
)


class Unsound(Error):
    """Which rule the rows of a plan don't keep."""


def ask_form(db: sqlite3.Connection, version: int) -> None:
    """Asks that each table has the columns and the key that it has in a plan. Raises Unsound."""
    for table, rules in RULES.items():
        there = db.execute(f"PRAGMA table_xinfo({table})").fetchall()
        columns = [column for column in rules if version > 1 or column != LATER]
        keys = [row["name"] for row in sorted(there, key=lambda row: int(row["pk"])) if row["pk"]]
        if [row["name"] for row in there if not row["hidden"]] != columns or len(there) > len(columns):
            raise Unsound(f"its table {table} isn't one of a plan: it has other columns")
        if keys != KEYS[table]:
            raise Unsound(f"its table {table} isn't one of a plan: it has another key")


def ask(db: sqlite3.Connection, version: int) -> None:
    """Asks that all tables are undamaged, and that their rows keep the rules. Raises Unsound."""
    ask_tables(db)
    for _ in asked(db, version):
        pass


def asked(db: sqlite3.Connection, version: int) -> Iterator[float]:
    """Asks that the rows of all tables keep the rules, step by step: each table, and then what they have to do with
    each other; each time the share that is done. Raises Unsound. Whoever asks asks for the tables themselves too."""
    sizes = {table: 1 + db.execute(f"SELECT count(*) FROM {table}").fetchone()[0] for table in RULES}
    whole, done = sum(sizes.values()) * (1 + RELATIONS_SHARE), 0.0
    for table, rules in RULES.items():
        ask_values(db, table, {column: rule for column, rule in rules.items() if version > 1 or column != LATER})
        done += sizes[table]
        yield done / whole
    for question, wrong in RELATIONS:
        if db.execute(f"{question} LIMIT 1").fetchone():
            raise Unsound(f"its rows are no sound plan: {wrong}")
        done += (whole - done) / 2
        yield done / whole
    ask_replies(db)


def ask_tables(db: sqlite3.Connection) -> None:
    """Asks that no table is damaged, and that its indexes have what it has. Raises Unsound."""
    for table in RULES:
        ask_table(db, table)


def ask_table(db: sqlite3.Connection, table: str) -> None:
    """Asks the same of one table. Raises Unsound."""
    (found,) = db.execute(f"PRAGMA integrity_check({table})").fetchone()
    if found != "ok":
        raise Unsound(f"its table {table} is damaged: {found}")


def ask_replies(db: sqlite3.Connection) -> None:
    """Asks that the jobs were answered as jobs are."""
    cursor = db.cursor()
    cursor.row_factory = None
    for number, reply in cursor.execute("SELECT number, CAST(reply AS BLOB) FROM job"):
        if not REPLY.fullmatch(reply):
            wrong = f"reply of job {number} is {shown(reply[:MOST_SHOWN], 'text')}, which isn't an answer to a job"
            raise Unsound(f"its rows are no sound plan: {wrong}")


def ask_values(db: sqlite3.Connection, table: str, rules: Rules) -> None:
    """Asks that all values of a table are such as they may be."""
    others = [rule.asked(column) for column, rule in rules.items() if not rule.is_name] or ["1"]
    is_clean = db.execute(f"SELECT 1 FROM {table} WHERE NOT ({' AND '.join(others)}) LIMIT 1").fetchone() is None
    for column, rule in rules.items():
        if rule.is_name or not is_clean:
            ask_column(db, table, column, rule)


def ask_column(db: sqlite3.Connection, table: str, column: str, rule: Rule) -> None:
    """Asks that all values of a column are such as they may be."""
    # a limit, so that SQLite asks after it has taken doubled names away
    source = f"(SELECT DISTINCT {column} COLLATE BINARY AS {column} FROM {table} LIMIT -1)" if rule.is_name else table
    # of no bytes `substr` gives NULL
    begin = f"coalesce(substr(CAST({column} AS BLOB), 1, {MOST_SHOWN}), x''), typeof({column})"
    found = db.execute(f"SELECT {begin} FROM {source} WHERE NOT {rule.asked(column)} LIMIT 1").fetchone()
    if found:
        wrong = f"{column} of {table} is {shown(*found)}, and has to be {rule.words}"
        raise Unsound(f"its rows are no sound plan: {wrong}")


def shown(begin: bytes, kind: str) -> str:
    """The begin of a value, as it is told."""
    if kind == "null":
        return "NULL"
    if kind == "blob":
        return f"x'{begin.hex()}'"
    text = printable.fit(begin.decode("utf-8", "surrogateescape"))
    return f"'{text}'" if kind == "text" else text
