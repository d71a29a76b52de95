"""What an act does, before it is done: as data for programs and as lines for people. No I/O.

What always holds (tests/test_acts.py goes through random plans and states): by the plain planner, the statements of an
act change exactly the rows in `changes`, so, and exactly the predecessors in `waits`, so."""

from collections.abc import Iterable, Mapping, Sequence
from typing import Any, NamedTuple

from opcplan.acts import chains, inverses, resolver, steps
from opcplan.acts.inverses import Inverse
from opcplan.acts.steps import Step
from opcplan.acts.verbs import Act, Intention, Part
from opcplan.acts.world import CLOSED, GONE, Difference, World, in_order
from opcplan.plans.waits import Row
from opcplan.rules import moments, statuses, usual_due
from opcplan.rules.naming_words import count_text

MOST_LINES, MOST_NOTES = 20, 10
TAKES_BACK = "`undo` takes it back."
LISTS = {**dict.fromkeys("WSECD", "cp"), "L": "ltp", "H": "history", **dict.fromkeys("owp", "deletions")}


class Change(NamedTuple):
    """A row that is changed: as it was (None if it is made), and as it is then."""

    was: Row | None
    row: Row


class Waits(NamedTuple):
    """A row whose predecessors are others then: those of before, and those of then."""

    row: Row
    was: tuple[Row, ...]
    now: tuple[Row, ...]


class Preview(NamedTuple):
    """What an act does. `replies` are those of its statements; `waiting` has the rows of the current plan that wait for
    the row that it is about; `notes` say what it can't keep, and `lines` say all of it."""

    act: Act
    replies: tuple[str, ...]
    changes: tuple[Change, ...]
    waits: tuple[Waits, ...]
    waiting: tuple[Row, ...]
    inverse: Inverse
    notes: tuple[str, ...]
    lines: tuple[str, ...]

    @property
    def stream(self) -> str:
        """The statements, without job numbers."""
        return steps.text_of(self.act.steps)

    def values(self) -> dict[str, Any]:
        """As JSON has it."""
        inverse = steps.text_of(self.inverse.steps) if self.inverse.steps else None
        return {
            "verb": self.act.intention.verb, "row": None if self.act.row is None else row_values(self.act.row),
            "stream": self.stream, "role": steps.role_of(self.act.steps).name.lower(),
            "statements": [step.line for step in self.act.steps], "replies": list(self.replies),
            "parts": [part_values(part) for part in self.act.parts or (Part("", self.act.row, self.act.steps),)],
            "changes": [{"was": None if one.was is None else row_values(one.was), "row": row_values(one.row)}
                        for one in self.changes],
            "waits": [{"row": row_values(one.row), "was": [*map(row_values, one.was)],
                       "now": [*map(row_values, one.now)]} for one in self.waits],
            "waiting": len(self.waiting), "notes": list(self.notes), "lines": list(self.lines),
            "inverse": inverse, "why_not": self.inverse.why_not,
        }


def part_values(part: Part) -> dict[str, Any]:
    """What is done with one of the rows, as JSON has it."""
    return {"of": part.of, "row": None if part.row is None else row_values(part.row),
            "texts": [step.text for step in part.steps], "why_not": part.why_not}


def row_values(row: Row) -> dict[str, Any]:
    """A row as JSON has it; `place` is its status, or L, H, o, w, p for the other lists."""
    return {"serial": row.serial, "app": row.app, "ia": moments.moment_word(row.ia),
            "deadline": moments.moment_word(row.deadline), "run_cycle": row.cycle, "list": LISTS[row.place],
            "place": row.place}


def of_act(world: World, act: Act, inverse: Inverse | None = None) -> Preview:
    """The preview of an act in a world; its inverse is found, unless it is given."""
    after, replies = world.copy(), []
    for step in act.steps:
        replies.append(after.apply(step))
    difference = Difference(world, after)
    changes = tuple(sorted((Change(was, row) for was, row in difference.rows.values()),
                           key=lambda one: in_order(one.row)))
    waits = tuple(waits_of(difference))
    waiting = tuple(waiting_for(world, act))
    if inverse is None:
        inverse = inverses.of_steps(world, act.steps)
    notes = (*act.notes, *refused(act, replies), *due_notes(world, changes))
    found = Preview(act, tuple(replies), changes, waits, waiting, inverse, notes, ())
    return found._replace(lines=tuple(lines_of(found)))


def of_rest(world: World, left: tuple[Step, ...]) -> Preview:
    """The preview of the last statements of an act, in the world that others left. Some may be refused there."""
    trial = world.copy()
    accepted = [step for step in left if trial.apply(step).startswith("ok")]
    return of_act(world, Act(Intention(REST), None, left), inverses.of_steps(world, accepted))


REST = "rest"  # the verb of what is left of an act


def waiting_for(world: World, act: Act) -> list[Row]:
    """The rows of the current plan that wait for those that an act is about, apart from these."""
    about = [part.row for part in act.parts if part.steps] or [act.row]
    rows = {row.serial: row for row in about if row is not None}
    found = {one.serial: one for row in rows.values() for one in chains.waiting(world, row)}
    return sorted((row for serial, row in found.items() if serial not in rows), key=in_order)


def waits_of(difference: Difference) -> Iterable[Waits]:
    """The rows whose predecessors change, in order."""
    found = []
    for serial, (was, now) in difference.pairs.items():
        row = difference.new.row(serial)
        assert row is not None, "it has pairs"
        found.append(Waits(row, rows_of(difference.old, was), rows_of(difference.new, now)))
    return sorted(found, key=lambda one: in_order(one.row))


def rows_of(world: World, serials: Sequence[int]) -> tuple[Row, ...]:
    """The rows of serials, in order."""
    found = (world.row(serial) for serial in serials)
    return tuple(sorted((row for row in found if row is not None), key=in_order))


def refused(act: Act, replies: Sequence[str]) -> Iterable[str]:
    """The statements that are refused."""
    for step, reply in zip(act.steps, replies):
        if not reply.startswith("ok"):
            yield f"`{step.line}` is refused with {reply.removeprefix('refused ')}"


def due_notes(world: World, changes: Sequence[Change]) -> Iterable[str]:
    """When runs that are added by hand are due, and usually are."""
    for was, row in changes:
        if was is not None or row.cycle is not None:
            continue
        usual = usual_due.of_run(world.defined, row.app, row.ia)
        if usual is not None and usual != row.deadline:
            yield (f"{row.key} is added by hand, so it is due {moments.moment_text(row.deadline)}; it is usually due "
                   f"{usual_due.text(usual, row.ia)}")


# Lines.


def lines_of(found: Preview) -> list[str]:
    """All that is to be said of an act."""
    row, parts = found.act.row, found.act.parts
    lines = [] if row is None else [f"{row.key} {statuses.WHERE[row.place]} (serial {row.serial})."]
    lines += part_lines(parts)
    if found.waiting:
        more = "+" if len(found.waiting) > chains.MOST else ""
        lines.append(f"{count_text(len(found.waiting), 'run')}{more} wait{'s' * (len(found.waiting) == 1)} for "
                     f"{'them' if len([part for part in parts if part.steps]) > 1 else 'it'}.")
    lines += change_lines(found.changes)
    lines += wait_lines(found.waits)
    lines += few([f"Note: {note}." for note in found.notes], MOST_NOTES)
    count = len(found.act.steps)
    lines.append(f"{count_text(count, 'statement')}: {', '.join(few([one.line for one in found.act.steps], 3))}.")
    if found.inverse.steps:
        return [*lines, TAKES_BACK]
    return [*lines, f"It can't be undone: {found.inverse.why_not}."] if found.inverse.why_not else lines


def part_lines(parts: Sequence[Part]) -> list[str]:
    """Of how many rows an act is, and which of those that were named it leaves out."""
    if not parts:
        return []
    out = [part for part in parts if not part.steps]
    count = len(parts) - len(out)
    head = f"{count_text(count, 'run')}." if not out else f"{count} of {count_text(len(parts), 'run')}."
    return [head, *few([f"  Left out: {part.row.key + ': ' if part.row else ''}{part.why_not.removesuffix('.')}."
                        for part in out], MOST_NOTES)]


def change_lines(changes: Sequence[Change]) -> list[str]:
    """A line for each change."""
    return few([f"  {change_text(one)}" for one in changes], MOST_LINES)


def change_text(one: Change) -> str:
    """A change in words."""
    was, row = one
    due = f"due {moments.moment_text(row.deadline)}"
    by = "added by hand" if row.cycle is None else f"by {row.cycle}"
    if was is None:
        return f"{row.key} is made, in the {PLANS.get(row.place, 'current plan')}, {by}, {due}"
    if was.place == row.place:
        return f"{row.key} gets another deadline or run cycle: {by}, {due}"
    return f"{row.key}: {resolver.STATES[was.place]}, then {resolver.STATES[row.place]}"


PLANS = {"L": "long-term plan"}


def wait_lines(waits: Sequence[Waits]) -> list[str]:
    """A line for each row that waits for others then."""
    found = []
    for one in waits:
        if one.row.place in GONE or one.row.place in CLOSED and not one.now:
            continue
        names = ", ".join(row.key for row in one.now) or "nothing"
        has = "waits for" if one.row.place in "LW" else "had waited for"
        found.append(f"  {one.row.key} {has} {names}")
    return few(found, MOST_LINES)


def few(lines: Sequence[str], most: int) -> list[str]:
    """The first lines, and how many more there are."""
    if len(lines) <= most:
        return list(lines)
    return [*lines[:most], f"{'  ' if lines[0].startswith(' ') else ''}and {len(lines) - most:,} more"]


def of_resolved(found: resolver.Resolved) -> Mapping[str, Any]:
    """Several rows, or why none fits, as JSON has it."""
    one = {name: None if row is None else row_values(row) for name, row in (
        ("row", found.row), ("before", found.before), ("after", found.after))}
    return {"choices": [*map(row_values, found.several)], "why": found.why, **one, "lines": resolver.lines_of(found)}
