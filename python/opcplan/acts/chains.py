"""The order in which a chain of runs is completed, and in which runs run again. No I/O."""

from collections.abc import Iterator
from typing import NamedTuple

from opcplan.acts.steps import Step
from opcplan.acts.world import World, in_order
from opcplan.errors import Error
from opcplan.plans.waits import Row
from opcplan.rules import moments

MOST = 5000  # runs that are looked at


class NoRoom(Error):
    """Why a run can't run again."""


class Again(NamedTuple):
    """The statements by which runs run again, and what doesn't run again, in sentences."""

    steps: list[Step]
    notes: list[str]


def completed(world: World, row: Row) -> Iterator[Step]:
    """The statements that complete all that a row waits for, each after what it waits for, and then the row."""
    for one in chain_of(world, row):
        if one.place == "W":
            yield Step("cp-start", one.app, one.ia)
        yield Step("cp-complete", one.app, one.ia)


def chain_of(world: World, row: Row) -> list[Row]:
    """The rows that aren't complete of all that a row waits for, each after what it waits for; and the row."""
    found: dict[int, Row] = {}
    left = [(row, False)]
    while left:
        here, is_done = left.pop()
        if is_done:
            found.setdefault(here.serial, here)
        elif here.serial not in found:
            left.append((here, True))
            left += [(other, False) for other in reversed(world.open_before(here)) if here.place == "W"]
    return list(found.values())


def waiting(world: World, row: Row, most: int = MOST) -> list[Row]:
    """The rows of the current plan that wait for a row, also through others, by input arrival."""
    seen, left = {row.serial: row}, [row]
    while left and len(seen) <= most:
        for other in world.behind(left.pop()):
            if other.place == "W" and other.serial not in seen:
                seen[other.serial] = other
                left.append(other)
    del seen[row.serial]
    return sorted(seen.values(), key=in_order)


def followers(world: World, row: Row) -> list[Row]:
    """The live rows that had, or have, a row as a predecessor, also through others; each after those that it follows,
    apart from those that are planned for later than the current plan."""
    seen, left = {row.serial: row}, [row]
    while left and len(seen) <= MOST:
        for other in world.behind(left.pop()):
            if other.place != "L" and other.serial not in seen:
                seen[other.serial] = other
                left.append(other)
    del seen[row.serial]
    found: dict[int, Row] = {}
    for one in sorted(seen.values(), key=in_order):
        put_after(world, one, seen, found)
    return list(found.values())


def put_after(world: World, row: Row, among: dict[int, Row], found: dict[int, Row]) -> None:
    """Puts a row, and before it those of its predecessors that are among some rows."""
    left = [(row, False)]
    while left:
        here, is_done = left.pop()
        if is_done:
            found.setdefault(here.serial, here)
        elif here.serial not in found:
            left.append((here, True))
            left += [(among[serial], False) for serial in reversed(world.before(here)) if serial in among]


def again(world: World, row: Row, with_followers: bool) -> Again:
    """How a row that ended runs again, and perhaps all that followed it. Raises NoRoom."""
    steps: list[Step] = []
    notes: list[str] = []
    trial = world.copy()
    if row.place == "E":
        steps.append(Step("cp-reset", row.app, row.ia))
        trial.apply(steps[0])
        return Again(steps, notes)
    new = new_run(trial, row, row.ia + 1)
    steps.append(Step("cp-add", row.app, new))
    trial.apply(steps[-1])
    times = {row.serial: new}  # by serial of a row that runs again: when
    for one in followers(world, row):
        before = [times[serial] + (one.app == other.app) for serial in world.before(one) if serial in times
                  for other in [world.row(serial)] if other is not None]
        if not before:
            continue  # what it followed doesn't run again
        if not with_followers:
            notes += [text for text in [follower_text(trial, one, max(before))] if text]
            continue
        more, text = follower(trial, one, max(before), times)
        steps += more
        notes += [text] if text else []
    return Again(steps, notes)


def new_run(world: World, row: Row, least: int) -> int:
    """The first minute from one on at which a row can run again. Raises NoRoom."""
    assert world.bounds is not None, "there is a plan"
    taken = {one.ia for one in world.in_order(row.app)}
    ia = next((ia for ia in range(least, world.bounds.plan_end) if ia not in taken), None)
    if ia is None:
        end = moments.moment_text(world.bounds.plan_end)
        raise NoRoom(f"{row.key} can't run again: no minute is free after it before the current plan ends, {end}")
    reason = world.why_not_added(row.app, ia, True)
    if reason:
        known = world.defined.applications.get(row.app)
        why = "is pending" if known else "isn't defined any more"
        raise NoRoom(f"{row.key} can't run again: " + (
            f"the application {row.app} {why}" if reason == "26" else f"`cp-add` would be refused with {reason}"))
    return ia


def follower_text(world: World, row: Row, least: int) -> str:
    """What is to be said of a follower that doesn't run again."""
    if row.place == "W":
        return "" if row.ia >= least else f"{row.key} doesn't wait for it, because it arrives before it"
    return f"{row.key} is {WORDS[row.place]}, and doesn't run again; `--with-followers` runs it too"


WORDS = {"S": "started", "E": "in error", "C": "complete", "H": "complete"}


def follower(world: World, row: Row, least: int, times: dict[int, int]) -> tuple[list[Step], str]:
    """How a follower runs again, not before a minute, and what is to be said of it. Raises NoRoom."""
    if row.place == "S":
        return [], f"{row.key} is started, and doesn't run again; `fail` it, once its job is stopped, and rerun it"
    if row.place in "WE" and row.ia >= least:
        times[row.serial] = row.ia
        steps = [Step("cp-reset", row.app, row.ia)] if row.place == "E" else []
        for step in steps:
            world.apply(step)
        return steps, ""
    new = new_run(world, row, max(row.ia + 1, least))
    times[row.serial] = new
    steps = [Step("cp-add", row.app, new)]
    text = ""
    if row.place in "WE":
        steps.append(Step("cp-delete", row.app, row.ia))
        text = f"{row.key} arrives before the new run, so a new one takes its place"
    for step in steps:
        world.apply(step)
    return steps, text
