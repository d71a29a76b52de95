"""What is known at a place of a job stream: definitions, lists in force, jobs, bounds, and where occurrences stand.

It is known by the statements up to there, and by the plan that the stream is run over where that is at hand. Without
it what isn't known may be there all the same: a stream that goes on with the plan of a file stands on more than it
says itself."""

import dataclasses
import re
from collections.abc import Callable, Mapping
from typing import NamedTuple

from opcplan.plans import plan_definitions, waits
from opcplan.plans.plan_file import Plan
from opcplan.rules import blocks, columns, definitions, moments, statements
from opcplan.rules.known import Lines, PlanBounds, Sizes
from opcplan.rules.statement_words import Statement, Values
from opcplan.rules.stream import Item

HELD = {kind: kind.replace("-", "_") for kind in ("calendars", "periods", "applications", "run-cycles", "predecessors")}

Lists = Mapping[str, Mapping[str, int | None]]  # of predecessors: by application and name the limit in hours


class Job(NamedTuple):
    """What a plan keeps of a job: its text, and its reply."""

    text: bytes
    reply: str


class Known:
    """What the statements up to here have made, as far as it can be told from them and from the plan before them."""

    def __init__(self, is_whole: bool = False) -> None:
        self.plan: Plan | None = None  # the plan before the stream (plan_file.Plan), where it is at hand
        self.is_whole = is_whole  # whether what isn't known isn't there
        self.defined = definitions.Definitions()
        self.in_force: Lists = {}  # the lists of predecessors that the plans go by
        self.lines: Lines = {}  # by kind and name: by the names of a record its line in the stream
        # by kind and name: the line on which it was taken away, unless it was defined again
        self.gone: dict[tuple[str, str], int] = {}
        self.jobs: dict[int, int] = {}  # by number: the line of the statement of this stream that was asked first
        self.bounds: PlanBounds | None = None
        self.created: int | None = None  # the line of the `ltp-create` that made the plan
        self.rows: dict[int, str] = {}  # by serial: application and arrival in words
        # by application and arrival: where it stands, a letter of statuses.WHERE, by these statements
        self.places: dict[tuple[str, int], str] = {}
        self.sizes: Sizes | None = Sizes(0, 0) if is_whole else None
        self.is_remade = self.is_daily = False  # whether these statements made or withdrew rows, or moved them
        # application and arrival, in words, of a serial that the stream gave, where its rows are at hand
        self.made: Callable[[int], str | None] | None = None

    def definitions_alone(self) -> "Known":
        """What is known here of definitions and bounds, as it is now."""
        found, defined = Known(self.is_whole), self.defined
        found.defined = dataclasses.replace(defined, indexes=defined.indexes, **{
            name: dict(getattr(defined, name)) for name in HELD.values()})
        found.bounds = self.bounds
        return found

    def is_repeated(self, item: Item) -> bool:
        """Whether the job of a statement was asked before, so that it isn't done again."""
        return item.statement is not None and (item.statement.job in self.jobs or self.kept(item) is not None)

    def kept(self, item: Item) -> Job | None:
        """Text and reply of the job that the plan before the stream keeps under a statement's number, or None."""
        if self.plan is None or item.statement is None or item.statement.job is None:
            return None
        asked = "SELECT body, reply FROM job WHERE number = ?"
        found = self.plan.db.execute(asked, (item.statement.job,)).fetchone()
        return None if found is None else Job(bytes(found["body"]), found["reply"])

    def place_of(self, app: str, ia: int) -> str | None:
        """Where the occurrence of a key stands, a letter of statuses.WHERE; nothing where there never was one; None
        where that isn't known."""
        if (app, ia) in self.places:
            return self.places[app, ia]
        if self.plan is None:
            return None
        found = waits.rows_of_key(self.plan, app, ia)[:1]
        place = found[0].place if found else ""
        if self.is_remade and place not in set("WSECDH"):
            return None
        return self.moved(place, ia) if self.is_daily else place

    def moved(self, place: str, ia: int) -> str | None:
        """Where what stood at a place stands after a daily plan, or None where its end isn't known."""
        if place == "L" and self.bounds is None:
            return None
        if place == "L" and self.bounds is not None and ia < self.bounds.plan_end:
            return "W"
        return {"C": "H", "D": "p"}.get(place, place)

    def key_of(self, serial: int) -> str | None:
        """Application and arrival of a serial, in words, or None."""
        if serial not in self.rows and self.plan is not None:
            self.rows |= {row.serial: row.key for row in waits.rows_where(self.plan, "serial = :v0", serial)}
        if serial not in self.rows and self.made is not None:
            found = self.made(serial)
            self.rows |= {serial: found} if found else {}
        return self.rows.get(serial)

    def times_of(self, app: str, day: int) -> list[tuple[int, str | None]]:
        """When an application arrives on a day and where that stands, of what the plan before the stream has, and of
        what the stream added."""
        rows = [] if self.plan is None else waits.rows_of_day(self.plan, app, day)
        times = {row.ia for row in rows} | {ia for name, ia in self.places if name == app and ia // moments.DAY == day}
        found = {ia: self.place_of(app, ia) for ia in times}
        return [(ia, place) for ia, place in sorted(found.items()) if place in set("LWSECH")]

    # What statements do to it.

    def take(self, item: Item, reply: str = "ok") -> None:
        """Takes a statement and what it was answered."""
        statement = item.statement
        if statement is None or reply.startswith(("refused 10", "refused 11", "refused 12")):
            return
        if self.is_repeated(item):
            return
        if statement.job is not None:
            self.jobs[statement.job] = item.line
        if reply.startswith("ok"):
            self.do(item, statement, reply)

    def see(self, line: str) -> None:
        """Takes a row that a listing or a trial shows."""
        if found := columns.occurrence_of(line):
            self.rows.setdefault(*found)

    def do(self, item: Item, statement: Statement, reply: str) -> None:
        """Takes a statement that was accepted."""
        values = statement.values
        if statement.name == "define":
            self.define(item)
        elif statement.name == "undefine":
            getattr(self.defined, HELD[statement.kind]).pop(values["name"], None)
            self.lines.pop((statement.kind, values["name"]), None)
            self.gone[statement.kind, values["name"]] = item.line
        elif statement.name == "ltp-create":
            self.bounds = PlanBounds(values["from"], values["to"], values["from"] * moments.DAY)
            self.created, self.sizes = item.line, Sizes(0, 0)
        elif statement.name == "ltp-extend" and self.bounds:
            self.bounds = self.bounds._replace(last_day=max(self.bounds.last_day, values["to"]))
        elif statement.name == "dp-extend" and self.bounds:
            self.bounds = self.bounds_after(values)
        if statement.job is not None:
            self.in_force = self.lists_after(statement)
            self.is_remade |= statement.name in statements.REMAKING
            self.count(reply)
            self.move(statement, reply)

    def lists_after(self, statement: Statement) -> Lists:
        """The lists in force as they would stand after a statement, or its trial."""
        name, lists = statement.tried, self.defined.predecessors
        if name == "ltp-modify-one":
            app = statement.values["app"]
            others = {other: listed for other, listed in self.in_force.items() if other != app}
            return {**others, app: lists[app]} if app in lists else others
        return dict(lists) if name in statements.REMAKING else self.in_force

    def count(self, reply: str) -> None:
        """Takes how many rows and serials there are after a reply."""
        if self.sizes is None:
            return
        number: dict[str, str] = dict(re.findall("(made|withdrawn|completed|deleted) ([0-9]+)", reply))
        made, gone = int(number.pop("made", 0)), sum(map(int, number.values()))
        self.sizes = Sizes(self.sizes.rows + made - gone, self.sizes.serials + made)

    def move(self, statement: Statement, reply: str) -> None:
        """Takes where a statement puts the occurrence of its key, or a daily plan those of all keys."""
        serial = re.match(r"ok serial ([0-9]+)(?: status ([WSECD]))?$", reply)
        if serial and "ia" in statement.values:
            app, ia = statement.values["app"], statement.values["ia"]
            self.rows[int(serial.group(1))] = f"{app} {moments.moment_text(ia)}"
            added, deleted = statement.name in ("ltp-add", "cp-add"), statement.name == "ltp-delete"
            places = {"ltp-add": "L", "cp-add": "W", "ltp-delete": "o"}
            self.places[app, ia] = serial.group(2) or places[statement.name]
            if self.sizes is not None:
                self.sizes = Sizes(self.sizes.rows + added - deleted, self.sizes.serials + added)
        elif statement.name in statements.DAILY:
            self.is_daily = True
            moved = {key: self.moved(place, key[1]) for key, place in self.places.items()}
            self.places = {key: place for key, place in moved.items() if place is not None}
        elif statement.name in statements.REMAKING:
            self.places = {key: place for key, place in self.places.items() if place != "L"}

    def bounds_after(self, values: Values) -> PlanBounds | None:
        """The bounds after a daily plan, or None where its end isn't known: days are counted by a calendar, which may
        be in the plan alone."""
        if self.bounds is None or "days" in values and not self.knows_days(values["count"]):
            return None
        end = values["to"] if "to" in values else self.end_by(values["days"], values["count"])
        return self.bounds._replace(plan_end=end)

    def knows_days(self, count: str) -> bool:
        """Whether it is known which days are counted."""
        name = self.defined.default_calendar
        is_reported = ("options", None) in self.lines and {("calendars", name)} & {*self.lines, *self.gone}
        return self.is_whole or count == "A" or bool(is_reported)

    def end_by(self, number: int, count: str) -> int:
        """The plan end that a number of days gives, all days or work days of the default calendar."""
        assert self.bounds is not None, "a plan without bounds has no end"
        day, minute = divmod(self.bounds.plan_end, moments.DAY)
        calendar = self.defined.calendars.get(self.defined.default_calendar, definitions.Calendar())
        while number and day <= definitions.LAST_DAY:
            number -= count == "A" or calendar.is_work(day)
            day += 1
        return day * moments.DAY + minute

    def define(self, item: Item) -> None:
        """Takes the definitions of a block."""
        if item.data is None:
            return
        block = blocks.read(item.asked.kind, item.data)
        if block.fault:
            return
        if block.kind == "options":
            self.defined.default_calendar = block.defined["default_calendar"]
            self.defined.max_hours = block.defined["max_extension_hours"]
            self.lines["options", None] = {(): item.line}
            return
        getattr(self.defined, HELD[block.kind]).update(block.defined)
        fresh: Lines = {(block.kind, name): {} for name in block.defined}
        for key, line in block.lines.items():
            fresh[block.kind, str(key[0])][key] = item.data_line + line
        self.lines.update(fresh)
        for name in block.defined:
            self.gone.pop((block.kind, name), None)

    def line_of(self, kind: str, *names: str) -> int | None:
        """The line of a record that stands, or None."""
        return self.lines.get((kind, names[0]), {}).get(names)

    def where(self, kind: str, *names: str) -> str:
        """Where a record that stands was given: `line 7`, or in the plan."""
        line = self.line_of(kind, *names)
        return f"line {line}" if line else "in the plan"


def of_plan(plan: Plan) -> Known:
    """What is known before the first statement of a stream that is run over a plan."""
    now = Known(is_whole=True)
    now.plan = plan
    now.defined = plan_definitions.of_plan(plan)
    now.in_force = plan_definitions.lists_of(plan, "link_in_force")
    if plan.is_created:
        now.bounds = PlanBounds(plan.meta["first_day"], plan.meta["last_day"], plan.meta["plan_end"])
    (rows,) = plan.db.execute("SELECT (SELECT count(*) FROM ltp_row) + (SELECT count(*) FROM cp_row)").fetchone()
    now.sizes = Sizes(rows, plan.meta["issued"])
    return now
