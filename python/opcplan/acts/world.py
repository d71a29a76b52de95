"""A plan as the statements of acts change it: rows, pairs, lists in force, definitions. No I/O.

The rows of an application are asked of a `Source` once, and nothing is written back: a `World` is what the plan would
be. By the rules (docs/rules/PLANS.md, DEPENDENCIES.md) the pairs of an open row are those with its nearest
predecessors, whatever happened before, and those of any other row are the ones that it had when it stopped waiting. So
only the latter are asked of the source.

What always holds (tests/test_acts.py compares it with the plain planner over random plans): `apply` answers as the
planner does, and after it each row, each pair, the lists in force and the definitions are those of the planner."""

import bisect
import dataclasses
from collections.abc import Iterable, Iterator, Mapping
from typing import Protocol

from opcplan.acts.steps import Step
from opcplan.plans.waits import Row
from opcplan.rules import blocks, loops, moments, naming, statements
from opcplan.rules.definitions import Definitions
from opcplan.rules.known import PlanBounds, Sizes

OPEN, CLOSED, GONE = "LW", "SECH", "Dowp"  # places as a Row has them
MOST_ROWS, GREATEST_SERIAL = 200_000, 999_999_999
HELD = {"calendars": "calendars", "periods": "periods", "applications": "applications", "run-cycles": "run_cycles",
        "predecessors": "predecessors"}
Lists = Mapping[str, Mapping[str, int | None]]
Pair = tuple[int, int]  # a successor and its predecessor, by serial


class Source(Protocol):
    """A plan that is asked for rows and pairs."""

    defined: Definitions
    in_force: Lists
    bounds: PlanBounds | None
    sizes: Sizes

    def rows(self, app: str) -> Iterable[Row]:
        """All rows of an application."""

    def row(self, serial: int) -> Row | None:
        """The row of a serial."""

    def before(self, serial: int) -> Iterable[int]:
        """The serials of the predecessors that a row has."""

    def behind(self, serial: int) -> Iterable[int]:
        """The serials of the successors that a row has."""

    def statuses(self, serial: int) -> Iterable[str]:
        """The letters of the statuses that statements gave a row, by the jobs that the plan keeps, in any order."""


class World:
    """What a plan would be after some statements."""

    def __init__(self, source: Source) -> None:
        self.source = source
        self.defined, self.in_force = source.defined, source.in_force
        self.bounds, self.sizes = source.bounds, source.sizes
        self.apps: dict[str, dict[int, Row]] = {}  # the rows of each application, by serial; never changed in place
        self.changed: dict[int, Row] = {}  # the rows that the source lacks, or has otherwise
        self.kept: dict[int, tuple[int, ...]] = {}  # the predecessors of rows that closed here
        self.arrived: dict[str, tuple[dict[int, Row], list[tuple[int, int]]]] = {}

    def copy(self) -> "World":
        """One that goes its own way from here."""
        other = World(self.source)
        other.defined, other.in_force = self.defined, self.in_force
        other.bounds, other.sizes = self.bounds, self.sizes
        other.apps, other.changed, other.kept = dict(self.apps), dict(self.changed), dict(self.kept)
        other.arrived = dict(self.arrived)
        return other

    # Rows and pairs.

    def rows(self, app: str) -> dict[int, Row]:
        """The rows of an application by serial, in all places."""
        if app not in self.apps:
            self.apps[app] = {row.serial: row for row in self.source.rows(app)}
        return self.apps[app]

    def row(self, serial: int) -> Row | None:
        """The row of a serial."""
        return self.changed.get(serial) or self.source.row(serial)

    def live(self, app: str, ia: int) -> Row | None:
        """The live row of a key."""
        return next((row for row in self.rows(app).values() if row.ia == ia and row.place not in GONE), None)

    def in_order(self, app: str) -> list[Row]:
        """The live rows of an application by input arrival."""
        rows = self.rows(app)
        return [rows[serial] for _, serial in self.arrivals(app)]

    def arrivals(self, app: str) -> list[tuple[int, int]]:
        """Input arrival and serial of each live row of an application, in order."""
        rows = self.rows(app)
        known = self.arrived.get(app)
        if known is None or known[0] is not rows:
            found = sorted((row.ia, row.serial) for row in rows.values() if row.place not in GONE)
            known = self.arrived[app] = (rows, found)
        return known[1]

    def nearest(self, app: str, ia: int, other: str, within: int | None) -> int | None:
        """The serial of the nearest predecessor in another application of a row that arrives at a moment."""
        found = self.arrivals(other)
        place = bisect.bisect_left(found, (ia + (other != app), 0))
        if not place or within is not None and found[place - 1][0] + within * 60 < ia:
            return None
        return found[place - 1][1]

    def before(self, row: Row) -> tuple[int, ...]:
        """The serials of a row's predecessors, in order."""
        if row.place in GONE:
            return ()
        if row.place in CLOSED:
            return self.kept[row.serial] if row.serial in self.kept else tuple(sorted(self.source.before(row.serial)))
        listed = self.in_force.get(row.app, {})
        found = (self.nearest(row.app, row.ia, other, within) for other, within in listed.items())
        return tuple(sorted(serial for serial in found if serial is not None))

    def users(self, app: str) -> list[str]:
        """The applications that have another one in their list in force."""
        return [user for user, listed in self.in_force.items() if app in listed]

    def behind(self, row: Row) -> list[Row]:
        """The live rows that have a row as a predecessor, by input arrival and application."""
        found = {}
        for user in self.users(row.app):
            for other in self.rows(user).values():
                if other.place in OPEN and other.ia >= row.ia and row.serial in self.before(other):
                    found[other.serial] = other
        closed = [serial for serial in self.source.behind(row.serial) if serial not in self.kept]
        closed += [serial for serial, before in self.kept.items() if row.serial in before]
        for serial in closed:
            successor = self.row(serial)
            if successor is not None and successor.place in CLOSED:
                found[serial] = successor
        return sorted(found.values(), key=in_order)

    def open_before(self, row: Row) -> list[Row]:
        """The predecessors of a row that aren't complete."""
        found = (self.row(serial) for serial in self.before(row))
        return sorted((one for one in found if one is not None and one.place not in "CH"), key=in_order)

    # Statements.

    def apply(self, step: Step) -> str:
        """Does a statement: its reply, `ok ..` or `refused ..`, where nothing is changed."""
        number = self.why_not(step)
        if number:
            return f"refused {number}"
        if step.name == "define":
            return self.define(step)
        if step.name == "undefine":
            held = HELD[step.kind]
            names = {name: value for name, value in getattr(self.defined, held).items() if name != step.app}
            self.defined = dataclasses.replace(self.defined, **{held: names})
            return "ok undefined"
        if step.name == "ltp-modify-one":
            return self.modify(step.app)
        assert step.ia is not None, "the others are on a key"
        if statements.KINDS[step.name].makes_row:
            serial = self.sizes.serials + 1
            place = "W" if step.name == "cp-add" else "L"
            self.put(Row(serial, step.app, step.ia, step.ia + moments.DAY, None, place))
            self.sizes = Sizes(self.sizes.rows + 1, serial)
            return f"ok serial {serial}"
        row = self.live(step.app, step.ia)
        assert row is not None, "else it is refused"
        if step.name == "ltp-delete":
            self.put(row._replace(place="o"))
            self.sizes = self.sizes._replace(rows=self.sizes.rows - 1)
            return f"ok serial {row.serial}"
        return self.act(step, row)

    def act(self, step: Step, row: Row) -> str:
        """Does a change of a status."""
        act = statements.KINDS[step.name].act
        assert act is not None, "no other statement is left"
        if row.place == "W":
            self.kept[row.serial] = self.before(row)
        self.put(row._replace(place=act.after))
        return f"ok serial {row.serial} status {act.after}"

    def put(self, row: Row) -> None:
        """Puts a row in its place."""
        self.apps[row.app] = {**self.rows(row.app), row.serial: row}
        self.changed[row.serial] = row

    def define(self, step: Step) -> str:
        """Takes the definitions of a block."""
        block = blocks.read(step.kind, step.data.encode())
        if step.kind == "options":
            name, hours = block.defined["default_calendar"], block.defined["max_extension_hours"]
            self.defined = dataclasses.replace(self.defined, default_calendar=name, max_hours=hours)
            return "ok defined 1"
        held = HELD[step.kind]
        defined = {**getattr(self.defined, held), **block.defined}
        self.defined = dataclasses.replace(self.defined, **{held: defined})
        return f"ok defined {len(block.defined)}"

    def why_not(self, step: Step) -> str:
        """The number of the refusal that a statement gets, with its detail; empty if it is accepted."""
        if step.name == "define":
            fault = blocks.read(step.kind, step.data.encode()).fault
            return f"11 {fault.record}" if fault else ""
        if step.name == "undefine":
            return "" if step.app in getattr(self.defined, HELD[step.kind]) else "13"
        if self.bounds is None:
            return "20"
        if step.name == "ltp-modify-one":
            return self.why_not_modified(step.app)
        assert step.ia is not None, "the others are on a key"
        if statements.KINDS[step.name].makes_row:
            return self.why_not_added(step.app, step.ia, step.name == "cp-add")
        row = self.live(step.app, step.ia)
        if row is None or row.place not in ("L" if step.name == "ltp-delete" else "WSEC"):
            return "28"
        act = statements.KINDS[step.name].act
        if act is not None and row.place not in act.before:
            return "29"
        left = self.open_before(row) if step.name == "cp-start" else []
        return f"30 {min(one.serial for one in left)}" if left else ""

    def why_not_added(self, app: str, ia: int, is_current: bool) -> str:
        """The number of the refusal that an addition gets."""
        first, last, end = self.bounds or (0, 0, 0)
        begin, stop = (first * moments.DAY, end) if is_current else (end, (last + 1) * moments.DAY)
        if not begin <= ia < stop:
            return "24"
        known = self.defined.applications.get(app)
        if known is None or not known.is_active:
            return "26"
        if self.live(app, ia) is not None:
            return "27"
        is_full = self.sizes.rows >= MOST_ROWS or self.sizes.serials >= GREATEST_SERIAL
        return "31" if is_full else ""

    def why_not_modified(self, app: str) -> str:
        """The number of the refusal that `ltp-modify-one` gets. It also tests the sizes, which is done last."""
        obstacle = naming.obstacle_of(self.defined, app)
        number = {"calendar": "22", "periods": "23"}.get(obstacle or "", "")
        is_active = app in self.defined.applications and self.defined.applications[app].is_active
        if number and is_active:
            return f"{number} {app}"
        lists = self.lists_after(app)
        if loops.is_on_one(lists, app):
            members = next(members for members, _ in loops.all_of(lists) if app in members)
            return f"25 {members[0]}"
        if not is_active:
            return "26"
        named = self.named(app)
        held = [row for row in self.rows(app).values() if row.place == "L"]
        made = len(self.made_keys(app, named))
        gone = sum(row.cycle is not None and row.ia not in named for row in held)
        is_full = self.sizes.rows + made - gone > MOST_ROWS or self.sizes.serials + made > GREATEST_SERIAL
        return "31" if is_full else ""

    # The long-term plan.

    def lists_after(self, app: str) -> Lists:
        """The lists in force once that of an application is the one that is defined."""
        others = {other: listed for other, listed in self.in_force.items() if other != app}
        listed = self.defined.predecessors.get(app)
        return {**others, app: dict(sorted(listed.items()))} if listed else others

    def named(self, app: str) -> dict[int, tuple[str, int]]:
        """By input arrival from the plan end on: the run cycle that names an active application, and its deadline."""
        assert self.bounds is not None, "there is a plan"
        found = {}
        for day in range(self.bounds.plan_end // moments.DAY, self.bounds.last_day + 1):
            for one in naming.names(self.defined, app, day).times:
                ia = day * moments.DAY + one.time
                if not one.excluded_by and ia >= self.bounds.plan_end:
                    found[ia] = (one.cycle.name, one.deadline)
        return found

    def made_keys(self, app: str, named: Iterable[int]) -> list[int]:
        """The input arrivals of rows that a modification makes, in order."""
        rows = self.rows(app).values()
        taken = {row.ia for row in rows if row.place in "Lo"}
        return sorted(ia for ia in named if ia not in taken)

    def modify(self, app: str) -> str:
        """Does `ltp-modify-one`."""
        named, withdrawn = self.named(app), 0
        made = self.made_keys(app, named)
        for row in [row for row in self.rows(app).values() if row.place == "L" and row.cycle is not None]:
            if row.ia not in named:
                self.put(row._replace(place="w"))
                withdrawn += 1
            elif named[row.ia] != (row.cycle, row.deadline):
                cycle, deadline = named[row.ia]
                self.put(row._replace(cycle=cycle, deadline=deadline))
        for serial, ia in enumerate(made, self.sizes.serials + 1):
            self.put(Row(serial, app, ia, named[ia][1], named[ia][0], "L"))
        self.in_force = self.lists_after(app)
        self.sizes = Sizes(self.sizes.rows + len(made) - withdrawn, self.sizes.serials + len(made))
        return f"ok made {len(made)} withdrawn {withdrawn}"


class Difference:
    """What is different between two states of a plan: rows by serial (None where there is none), and the predecessors
    of rows."""

    def __init__(self, old: World, new: World) -> None:
        self.old, self.new = old, new
        self.rows: dict[int, tuple[Row | None, Row]] = {}
        for serial, row in new.changed.items():
            was = old.row(serial)
            if was != row:
                self.rows[serial] = (was, row)
        self.pairs = {serial: (was, now) for serial, was, now in self.changed_pairs() if was != now}

    def changed_pairs(self) -> Iterator[tuple[int, tuple[int, ...], tuple[int, ...]]]:
        """Serials of rows whose predecessors may differ, with those before and now."""
        old, new = self.old, self.new
        touched = {row.app for row in new.changed.values()}  # a row may be as before, and have closed anew
        touched |= {app for app in {*old.in_force, *new.in_force} if old.in_force.get(app) != new.in_force.get(app)}
        near = touched | {user for app in touched for user in (*old.users(app), *new.users(app))}
        for app in sorted(near):
            before = old.rows(app)
            for serial, row in new.rows(app).items():
                was = before.get(serial)
                if row.place in OPEN or was is not None and was.place in OPEN or serial in new.changed:
                    yield serial, () if was is None else old.before(was), new.before(row)


def in_order(row: Row) -> tuple[int, str, int]:
    """By what rows are ordered."""
    return row.ia, row.app, row.serial
