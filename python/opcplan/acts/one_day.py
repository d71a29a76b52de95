"""A deadline that a run in the long-term plan gets, or keeps, by run cycles of one day. No I/O.

A run that is added by hand is due a day after it arrives, and nothing changes that. A run that a run cycle names is due
as the run cycle says. So one more run cycle, in effect on one day only, names the run with its deadline; one that
excludes takes away the run that it replaces; and `ltp-modify-one` takes both into the long-term plan. All other run
cycles stay, and so do all other runs of the application: if the modification would change one of them, the way isn't
taken."""

import dataclasses
import re
from typing import NamedTuple

from opcplan.acts.steps import Step
from opcplan.acts.world import Difference, World
from opcplan.errors import Error
from opcplan.plans.waits import Row
from opcplan.rules import moments, naming, record_texts
from opcplan.rules.definitions import FIRST_DAY, Due, Period, RunCycle

ADDED, TAKEN = "ONCE", "NOT"
OWN = re.compile(f"(?:{ADDED}|{TAKEN})([1-9][0-9]{{0,3}})")
MOST_NUMBER, MOST_OFFSET, MOST_DAYS = 9999, 1999, 99
EVERY_DAY = "EACHDAY"  # the name of a period that is defined if none gives the day


class NoWay(Error):
    """Why a run can't get the deadline."""


class Place(NamedTuple):
    """How a period names a day: its name, the offset of the day, and the period if it has to be defined."""

    period: str
    offset: int
    added: Period | None = None


def steps(world: World, app: str, ia: int, deadline: int, old: Row | None) -> list[Step]:
    """The statements that make a run with a deadline in the long-term plan, and take away the one that it replaces, if
    that is generated there. Raises NoWay."""
    check(world, app, ia, deadline)
    place = place_of(world, ia // moments.DAY)
    cycles = changed_cycles(world, app, ia, deadline, old, place)
    found = []
    if place.added is not None and any(cycle.period == place.period for cycle in cycles.values()):
        records = record_texts.period_records(place.period, place.added)
        found.append(Step("define", place.period, None, "periods", "".join(f"{one}\n" for one in records)))
    found += [define(app, cycles), Step("ltp-modify-one", app)]
    check_alone(world, found, app, ia, deadline, old)
    return found


def define(app: str, cycles: dict[str, RunCycle]) -> Step:
    """The statement that gives an application its run cycles."""
    records = record_texts.run_cycle_records(app, dict(sorted(cycles.items())))
    return Step("define", app, None, "run-cycles", "".join(f"{one}\n" for one in records))


def check(world: World, app: str, ia: int, deadline: int) -> None:
    """Asks that a run may get a deadline at all. Raises NoWay."""
    assert world.bounds is not None, "there is a plan"
    if ia < world.bounds.plan_end:
        raise NoWay("in the current plan a run that is added by hand is due a day after it arrives")
    days = deadline // moments.DAY - ia // moments.DAY
    if not 0 <= days <= MOST_DAYS:
        raise NoWay(f"a deadline is 0 to {MOST_DAYS} days after the day of the arrival")
    if any(row.ia == ia and row.place == "o" for row in world.rows(app).values()):
        raise NoWay(f"an operator deleted {moments.key_text(app, ia)}, so no run cycle makes it again")
    trial = world.copy()
    reply = trial.apply(Step("ltp-modify-one", app))
    if not reply.startswith("ok"):
        raise NoWay(f"`ltp-modify-one` would be refused with {reply.removeprefix('refused ')}")
    if Difference(world, trial).rows or trial.in_force != world.in_force:
        raise NoWay(f"the definitions of {app} have changed since they were taken into the long-term plan, and "
                    "`ltp-modify-one` would take all of that in")


def place_of(world: World, day: int) -> Place:
    """How a period names a day, by rule 3."""
    found = []
    for name, period in sorted(world.defined.periods.items()):
        if period.kind == "W" or period.kind == "A" and not 0 < period.interval <= MOST_OFFSET:
            continue
        for first, _ in period.intervals_of(day):
            if day - first < MOST_OFFSET:
                found.append(Place(name, day - first + 1))
    if found:
        return min(found, key=lambda one: (one.offset, one.period))
    names = (f"{EVERY_DAY}{number or ''}" for number in range(10))
    free = next((name for name in names if name not in world.defined.periods), None)
    if free is None:
        raise NoWay("no period gives the day; define one of type A with the interval 1")
    return Place(free, 1, Period("A", FIRST_DAY, 1))


def is_of_one_day(cycle: RunCycle, ia: int, kind: str) -> bool:
    """Whether a run cycle of a kind is in effect on the day of a moment only, for its minute."""
    day, minute = divmod(ia, moments.DAY)
    return (cycle.kind, cycle.in_effect, cycle.out_effect, cycle.time) == (kind, day, day + 1, minute)


def changed_cycles(world: World, app: str, ia: int, deadline: int, old: Row | None, place: Place
                   ) -> dict[str, RunCycle]:
    """The run cycles of an application with those of one day. Those that a new one would only undo are left out."""
    cycles = {name: cycle for name, cycle in world.defined.run_cycles.get(app, {}).items()
              if not is_of_one_day(cycle, ia, "X") and not (old and is_of_one_day(cycle, old.ia, "N"))}
    numbers = [int(found[1]) for name in world.defined.run_cycles.get(app, {}) if (found := OWN.fullmatch(name))]
    number = max(numbers, default=0) + 1
    if number > MOST_NUMBER:
        raise NoWay(f"{app} has too many run cycles of one day; remove those that are out of effect")
    day, minute = divmod(ia, moments.DAY)
    if deadline_of(world, app, cycles, ia) != deadline:
        due = Due(deadline // moments.DAY - day, deadline % moments.DAY)
        name = f"{ADDED}{number}"
        cycles[name] = RunCycle(name, "N", place.period, "3", [place.offset], day, day + 1, minute, due)
    if old is not None and deadline_of(world, app, cycles, old.ia) is not None:
        day, minute = divmod(old.ia, moments.DAY)
        name, at = f"{TAKEN}{number}", place_of(world, day)
        cycles[name] = RunCycle(name, "X", at.period, "3", [at.offset], day, day + 1, minute, None)
    return cycles


def deadline_of(world: World, app: str, cycles: dict[str, RunCycle], ia: int) -> int | None:
    """The deadline that run cycles give a moment, or None if they don't name it."""
    defined = dataclasses.replace(world.defined, run_cycles={**world.defined.run_cycles, app: cycles})
    for one in naming.names(defined, app, ia // moments.DAY).times:
        if one.time == ia % moments.DAY and not one.excluded_by:
            return one.deadline
    return None


def check_alone(world: World, found: list[Step], app: str, ia: int, deadline: int, old: Row | None) -> None:
    """Asks that statements make the run with its deadline, take away the old one, and change no other run. Raises
    NoWay."""
    trial = world.copy()
    for step in found:
        reply = trial.apply(step)
        if not reply.startswith("ok"):
            raise NoWay(f"`{step.line}` would be refused with {reply.removeprefix('refused ')}")
    row = trial.live(app, ia)
    if row is None or row.deadline != deadline:
        raise NoWay("another run cycle gives the run its deadline")
    rows = {serial for serial in Difference(world, trial).rows}
    wanted = {row.serial} | ({old.serial} if old else set())
    if rows != wanted or old and trial.live(app, old.ia):
        raise NoWay("its run cycles would change other runs too")
