"""What is left of an act that was stopped: whether it can still be done, and what it does now. No I/O.

The statements of an act are done in their order, each once, under its key or its job numbers. So what is done of it is
always a beginning, and the same call goes on with the rest. Somebody else may have changed the plan meanwhile.

What always holds (tests/test_act_stops.py goes through each stop, each change of somebody else, and each repetition):
the rest is offered only if what was done of it was accepted, if each of its statements would be accepted now, one
after the other, and if no run that the beginning made is gone. Else nothing more is done, with the reason in words."""

import dataclasses
from collections.abc import Iterable, Sequence

from opcplan.acts import previews, steps, undoing
from opcplan.acts.previews import Preview
from opcplan.acts.undoing import Done
from opcplan.acts.verbs import Act, Intention, NotDoable
from opcplan.acts.world import GONE, World
from opcplan.rules import refusals
from opcplan.rules.known import Known
from opcplan.rules.stream import Item


def preview(world: World, items: Sequence[Item], done: Sequence[Done], known: Known) -> Preview:
    """What the rest of an act, whose beginning is done, does now. Raises NotDoable."""
    if why := refused_of(done) or taken_back(world, done):
        raise NotDoable(why)
    trial, left = world.copy(), []
    for item in items:
        try:
            step, item = steps.of_item(item), without_job(item)
        except steps.NoSteps as why:
            raise NotDoable(str(why)) from None
        reply = trial.apply(step)
        if not reply.startswith("ok"):
            raise NotDoable(f"`{step.line}` would be {reply} now: {means(item, reply, known)}")
        known.take(item, reply)
        left.append(step)
    return previews.of_act(world, Act(Intention(previews.REST), None, tuple(left)))


def refused_of(done: Iterable[Done]) -> str:
    """That a statement was refused, in a sentence; empty if none was."""
    for one in done:
        if not one.reply.startswith("ok"):
            return f"`{one.line.partition(' --job')[0]}` was {one.reply}"
    return ""


def taken_back(world: World, done: Iterable[Done]) -> str:
    """That a run which statements made is gone, in a sentence; empty if none is."""
    for one in done:
        if one.reply.startswith("ok") and undoing.is_making(one):
            row = world.row(undoing.serial_of(one))
            if row is None or row.place in GONE:
                return f"what was done of it has been taken back since: `{one.line.partition(' --job')[0]}`"
    return ""


def means(item: Item, reply: str, known: Known) -> str:
    """What a refusal means in words; empty if the statement was accepted. `known` is what was known before it."""
    if not reply.startswith("refused"):
        return ""
    _, number, *detail = reply.split()
    return "; ".join(refusals.sentences(item, int(number), detail[0] if detail else "", known))


def without_job(item: Item) -> Item:
    """A statement without its job number, so that it is taken for one that is done for the first time."""
    assert item.statement is not None, "it has a step"
    values = {name: value for name, value in item.statement.values.items() if name != "job"}
    return dataclasses.replace(item, statement=dataclasses.replace(item.statement, values=values))
