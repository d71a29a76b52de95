"""What is wanted of several occurrences at once, as one act. No I/O.

What always holds (tests/test_acts_several.py goes through random plans and states, with the plain planner):

- Each occurrence that is named is in one part.
- The statements of a part are those that its verb has in the plan that the parts before it leave. So all statements of
  the act are accepted, one after the other.
- A part without statements says why. What an earlier part does with an occurrence isn't done a second time."""

import dataclasses
from collections.abc import Iterator

from opcplan.acts import chains, resolver, verbs
from opcplan.acts.steps import Step
from opcplan.acts.verbs import Act, Ambiguous, Intention, NotDoable, Part
from opcplan.acts.world import World, in_order
from opcplan.plans.waits import Row

MOST_REASONS = 3


def act_of(world: World, wanted: Intention, near: int | None = None) -> Act:
    """The act of what is wanted of each occurrence. Raises UsageError, and NotDoable if nothing can be done with any of
    them."""
    verbs.check(wanted)
    if world.bounds is None:
        raise NotDoable("there is no long-term plan yet; `ltp-create` makes one")
    rows, parts = found_rows(world, wanted, near)
    notes: list[str] = []
    trial = world.copy()
    again: dict[int, Row] = {}  # by serial of a row that runs again with another one: that one
    for of, row in rows:
        part, own_notes = part_of(world, trial, wanted, of, row, again)
        for step in part.steps:
            trial.apply(step)
        if part.steps and wanted.verb == "rerun" and wanted.followers:
            again |= {one.serial: row for one in chains.followers(world, row) if one.serial not in again}
        parts.append(part)
        notes += own_notes
    if not any(part.steps for part in parts):
        reasons = list(dict.fromkeys(part.why_not.removesuffix(".") for part in parts))
        more = f", and {len(reasons) - MOST_REASONS} more reasons" if len(reasons) > MOST_REASONS else ""
        raise NotDoable("; ".join(reasons[:MOST_REASONS]) + more)
    return Act(wanted, None, tuple(all_steps(parts)), tuple(without(notes, parts)), tuple(parts))


def found_rows(world: World, wanted: Intention, near: int | None) -> tuple[list[tuple[str, Row]], list[Part]]:
    """The row of each text with the text, in the order of their arrivals, each once; and parts for the texts that name
    none, or several. Raises UsageError."""
    found: dict[int, tuple[str, Row]] = {}
    others = []
    for of in dict.fromkeys(wanted.each):
        one = resolver.resolve(world, resolver.read(of), wanted.places, near)
        if one.row is None:
            why = f"{len(one.several)} runs fit {of}" if one.several else verbs.explained(one, wanted).why
            others.append(Part(of, None, (), why))
        else:
            found.setdefault(one.row.serial, (of, one.row))
    return sorted(found.values(), key=lambda one: in_order(one[1])), others


def part_of(
    world: World, trial: World, wanted: Intention, of: str, row: Row, again: dict[int, Row],
) -> tuple[Part, tuple[str, ...]]:
    """What is done with a row in a world that the parts before leave, and what can't be kept."""
    if row.serial in again:
        return Part(of, row, (), f"it runs again with {again[row.serial].key}"), ()
    if trial.row(row.serial) != world.row(row.serial):
        return Part(of, row, (), "it is done with the runs before it"), ()
    try:
        act = verbs.act_of(trial, dataclasses.replace(wanted, of=str(row.serial), each=()))
    except (NotDoable, Ambiguous) as why:
        return Part(of, row, (), str(why).removeprefix(f"{row.key} ")), ()
    return Part(of, row, act.steps), act.notes


def all_steps(parts: list[Part]) -> Iterator[Step]:
    """The statements of all parts."""
    for part in parts:
        yield from part.steps


def without(notes: list[str], parts: list[Part]) -> Iterator[str]:
    """Notes without those on a row that has statements of its own."""
    keys = tuple(f"{part.row.key} " for part in parts if part.row is not None and part.steps)
    yield from (note for note in notes if not note.startswith(keys))
