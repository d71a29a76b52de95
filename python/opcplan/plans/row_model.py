"""What the rows of a plan mean at a moment: states, what is late, roots, what is held up. No SQL and no HTML."""

from collections import defaultdict
from collections.abc import Callable, Iterable, Mapping, Sequence
from dataclasses import dataclass, field
from typing import NamedTuple

from opcplan.plans.waits import Row

OPEN = "WSE"  # places in the current plan that are neither complete nor deleted
COMPLETE = "CH"
# the rank of a root by its state, the worst first
RANK = {"E": 0, "S": 1, "R": 2, "B": 3, "F": 4}
MOST_HELD, MOST_HEADS = 5000, 300


class Hold(NamedTuple):
    """A row that holds others up, by its place: how many, how many of these are late, and which of them is due
    first."""

    place: int
    held: int
    late: int
    first: int


@dataclass
class Model:
    """The model of rows, by place in their list. A state is E in error, S started, R ready, B blocked, F its time is to
    come, C complete, D deleted, and L, H, o, w, p as a Row's place."""

    states: list[str]
    is_late: list[bool]
    before: dict[int, list[int]]  # the predecessors of a row, complete or not
    waits: dict[int, list[int]] = field(default_factory=dict)  # those of them in the current plan that aren't complete
    behind: dict[int, list[int]] = field(default_factory=dict)  # the rows of the current plan that wait for a row
    roots: dict[int, int] = field(default_factory=dict)  # the worst row at the beginning of what a row waits for
    at_risk: list[int] = field(default_factory=list)
    holds: list[Hold] = field(default_factory=list)
    hold_count: int = 0  # how many there are; `holds` has the first ones


def is_late(row: Row, now: int) -> bool:
    """Whether a row isn't complete and is past its deadline."""
    return row.place in OPEN and row.deadline < now


def of_rows(rows: Sequence[Row], pairs: Iterable[tuple[int, int]], now: int) -> Model:
    """The model of rows, sorted by input arrival, and of their pairs of serials; without what holds others up."""
    model = of_waits(rows, pairs, now)
    model.at_risk = sorted(
        place for place, root in model.roots.items()
        if not model.is_late[place] and (model.states[root] == "E" or model.is_late[root])
    )
    return model


def of_waits(rows: Sequence[Row], pairs: Iterable[tuple[int, int]], now: int) -> Model:
    """The model without what is at risk and what holds others up."""
    index = {row.serial: place for place, row in enumerate(rows)}
    before: defaultdict[int, list[int]] = defaultdict(list)
    for successor, predecessor in pairs:
        before[index[successor]].append(index[predecessor])
    model = Model([row.place for row in rows], [is_late(row, now) for row in rows], before)
    find_waits(model)
    for place, row in enumerate(rows):
        if row.place == "W":
            model.states[place] = "F" if row.ia > now else "B" if place in model.waits else "R"
    find_roots(model, rows)
    return model


def find_waits(model: Model) -> None:
    """Finds the incomplete rows for which each row of the current plan waits, and the rows that wait for each."""
    is_open = [state in OPEN for state in model.states]
    behind: defaultdict[int, list[int]] = defaultdict(list)
    for later, others in model.before.items():
        left = [earlier for earlier in others if is_open[earlier]] if model.states[later] == "W" else []
        if left:
            model.waits[later] = left
            for earlier in left:
                behind[earlier].append(later)
    model.behind = dict(behind)


def find_roots(model: Model, rows: Sequence[Row]) -> None:
    """Gives each waiting row the worst of its roots: first those in error, then those started, then by deadline."""
    model.roots = worst_roots(model, lambda place: (RANK[model.states[place]], rows[place].deadline, place))


def worst_roots(model: Model, rank: Callable[[int], tuple[int, ...]]) -> dict[int, int]:
    """By waiting row the worst of its roots: the one with the least rank."""
    roots: dict[int, int] = {}
    left = {place: len(waits) for place, waits in model.waits.items()}
    done = [place for place in model.behind if place not in model.waits]
    while done:
        for later in model.behind.get(done.pop(), ()):
            left[later] -= 1
            if not left[later]:
                found = {roots.get(place, place) for place in model.waits[later]}
                roots[later] = min(found, key=rank) if len(found) > 1 else found.pop()
                done.append(later)
    return roots


def reached(start: int, steps: Mapping[int, Sequence[int]], most: int) -> set[int]:
    """The places that steps reach from a place, without itself; cut soon after `most`."""
    seen, left = {start}, [start]
    while left and len(seen) <= most:
        for place in steps.get(left.pop(), ()):
            if place not in seen:
                seen.add(place)
                left.append(place)
    seen.discard(start)
    return seen


def find_holds(model: Model, rows: Sequence[Row]) -> None:
    """Finds the rows that have arrived, wait for nothing, and hold others up."""
    states = model.states
    heads = [place for place in model.behind if place not in model.waits and states[place] in "ESR"]
    heads.sort(key=lambda place: (states[place] != "E", rows[place].deadline, place))
    model.hold_count = len(heads)
    for place in heads[:MOST_HEADS]:
        held = reached(place, model.behind, MOST_HELD)
        late = sum(model.is_late[other] for other in held)
        first = min(held, key=lambda other: (rows[other].deadline, other))
        model.holds.append(Hold(place, len(held), late, first))
    model.holds.sort(key=lambda one: (states[one.place] != "E", -one.late, -one.held, rows[one.place].deadline))
