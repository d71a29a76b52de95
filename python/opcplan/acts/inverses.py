"""The stream that takes an act back, where there is one. No I/O.

What always holds (tests/test_acts.py goes through random plans and states, with the plain planner): where an inverse is
offered, the act and its inverse leave the live runs of both plans, with input arrival, deadline, run cycle and status,
and all their pairs, as they were; runs that were made anew have other serials, and what was deleted stays in the
deletions. So it is not guessed: it is tried, and offered only if that comes out. Else there is a reason."""

from collections.abc import Iterator, Sequence
from typing import NamedTuple

from opcplan.acts import one_day
from opcplan.acts.steps import Step
from opcplan.acts.world import CLOSED, GONE, Difference, World
from opcplan.errors import Error
from opcplan.plans.waits import Row
from opcplan.rules import moments

FINAL = "what is complete stays complete"
Key = tuple[str, int]  # application and input arrival


class Inverse(NamedTuple):
    """The statements that take an act back; or none, and why not."""

    steps: tuple[Step, ...] = ()
    why_not: str = ""


class NoInverse(Error):
    """Why a statement can't be undone."""


def of_steps(world: World, steps: Sequence[Step]) -> Inverse:
    """The inverse of accepted statements that are done in a world."""
    if not steps:
        return Inverse()
    states = [world]
    for step in steps:
        states.append(states[-1].copy())
        states[-1].apply(step)
    try:
        found = tuple(candidate(states, steps))
    except NoInverse as why:
        return Inverse(why_not=str(why))
    back = states[-1].copy()
    for step in found:
        reply = back.apply(step)
        if not reply.startswith("ok"):
            return Inverse(why_not=f"`{step.line}` would be refused with {reply.removeprefix('refused ')}")
    lack = lack_of(world, back)
    return Inverse(why_not=lack) if lack else Inverse(found)


def candidate(states: Sequence[World], steps: Sequence[Step]) -> Iterator[Step]:
    """The statements that may take others back, the last one first. Definitions go back before the modification that
    takes them in. Raises NoInverse."""
    late: list[Step] = []
    for before, step in reversed([*zip(states, steps)]):
        if step.name == "ltp-modify-one":
            late.append(step)
        elif step.name == "define":
            if step.kind == "run-cycles":
                yield defined_before(before, step)
                yield from late
                late = []
            else:
                yield Step("undefine", step.app, None, step.kind)
        else:
            yield from of_key(before, step)


def defined_before(before: World, step: Step) -> Step:
    """The statement that gives an application the run cycles of before."""
    cycles = before.defined.run_cycles.get(step.app)
    return one_day.define(step.app, cycles) if cycles else Step("undefine", step.app, None, "run-cycles")


def of_key(before: World, step: Step) -> Iterator[Step]:
    """The statements that may take one on an occurrence back. Raises NoInverse."""
    assert step.ia is not None, "it is on a key"
    row = before.live(step.app, step.ia)
    yield from (Step(name, step.app, step.ia) for name in names_of(step.name, row.place if row else ""))


def names_of(name: str, place: str) -> tuple[str, ...]:
    """The names of the statements that may take one back, by the place of the row before it. Raises NoInverse."""
    if name == "cp-complete":
        raise NoInverse(FINAL)
    if name == "cp-delete" and place == "E":
        return "cp-add", "cp-start", "cp-fail"
    return {"cp-add": ("cp-delete",), "ltp-add": ("ltp-delete",), "cp-delete": ("cp-add",), "ltp-delete": ("ltp-add",),
            "cp-start": ("cp-fail", "cp-reset"), "cp-fail": ("cp-reset", "cp-start"),
            "cp-reset": ("cp-start", "cp-fail")}[name]


def lack_of(old: World, new: World) -> str:
    """What isn't as it was, in a sentence; empty if all is."""
    difference = Difference(old, new)
    apps = {row.app for _, row in difference.rows.values()}
    was, now = ({(row.app, row.ia): row for app in apps for row in world.in_order(app)} for world in (old, new))
    for key in sorted({*was, *now}, key=lambda one: (one[1], one[0])):
        if text := row_lack(key, was.get(key), now.get(key)):
            return text
    if old.in_force != new.in_force:
        return "another list of predecessors would be in force"
    for serial in difference.pairs:
        row = new.row(serial)
        if row is None or row.place in GONE:
            continue
        before = old.live(row.app, row.ia)
        assert before is not None, "its row is as it was"
        if keys_of(old, old.before(before)) != keys_of(new, new.before(row)):
            return f"{row.key} would {'have other predecessors' if row.place in CLOSED else 'wait for others'}"
    return ""


def row_lack(key: Key, was: Row | None, now: Row | None) -> str:
    """What isn't as it was of a key; empty if all is."""
    name = f"{key[0]} {moments.moment_text(key[1])}"
    if was is None or now is None:
        return f"{name} would {'be there' if now else 'not come back'}"
    if was.deadline != now.deadline:
        return (f"{name} would be due {moments.moment_text(now.deadline)}, because it would be added by hand, and was "
                f"due {moments.moment_text(was.deadline)}")
    if was.cycle != now.cycle:
        return f"{name} would be added by hand, and was named by {was.cycle}"
    return "" if was.place == now.place else f"{name} would have another status"


def keys_of(world: World, serials: Sequence[int]) -> set[Key]:
    """The keys of serials."""
    rows = (world.row(serial) for serial in serials)
    return {(row.app, row.ia) for row in rows if row is not None}
