"""Edits of a list of predecessors: what an application waits for. No I/O."""

import dataclasses
from collections.abc import Sequence

from opcplan.acts.world import World
from opcplan.edits import words
from opcplan.edits.changes import Change, ChangeRefused
from opcplan.plans import stream_state
from opcplan.rules import lint_checks, loops
from opcplan.rules.definitions import Definitions
from opcplan.rules.naming_words import count_text, few, meant_text

ADD, REMOVE = "add", "remove"
Limits = dict[str, int | None]  # by predecessor: the hours of its limit, or None


@dataclasses.dataclass(frozen=True)
class Settings:
    """Two applications, of which one waits for the other, what is done with that, and a limit."""

    app: str
    verb: str
    other: str
    hours: int | None


def read(typed: Sequence[str]) -> Settings:
    """Words as Settings. Raises ChangeRefused."""
    if len(typed) not in (3, 4):
        raise ChangeRefused("`predecessor` needs the application that waits, `add` or `remove`, the one that it waits "
                            "for, and perhaps hours", 2)
    app, verb, other, *more = typed
    if verb not in (ADD, REMOVE):
        raise ChangeRefused(f"{verb!r} is neither add nor remove", 2)
    return Settings(words.name(app), verb, words.name(other), words.hours(more[0]) if more else None)


def change(world: World, found: Definitions, given: Settings) -> Change:
    """The change that is asked for."""
    before = found.predecessors.get(given.app, {})
    if given.verb == ADD:
        after, sentences = added(found, given.app, given.other, given.hours, before)
    else:
        after, sentences = removed(given.app, given.other, given.hours, before)
    others = [name for name in before if name != given.other]
    sentences.append(f"{given.app} still waits for {few(others)}." if others
                     else f"{given.app} waited for nothing else." if given.other in before
                     else f"{given.app} waits for nothing else.")
    sentences.append("An occurrence that has started by then keeps what it waited for.")
    is_active = given.app in found.applications and found.applications[given.app].is_active
    return Change("predecessors", {given.app: after or None}, sentences, given.app if is_active else None)


def added(found: Definitions, app: str, other: str, hours: int | None, before: Limits) -> tuple[Limits, list[str]]:
    """The list with a further name or another limit, and what changes."""
    for name in (app, other):
        if name not in found.applications:
            raise ChangeRefused(f"there is no application {name}{meant_text(name, found.applications)}")
    if before.get(other, 0) == hours:
        raise ChangeRefused(f"{app} waits for {other} already, {limit_text(hours)}; nothing would change")
    ring = loops.ring_of({**found.predecessors, app: {other: hours}}, app)
    if other not in before and ring:
        raise ChangeRefused(f"that makes a loop, {' waits for '.join(ring)}, so planning statements would be refused "
                            "(25)")
    if other in before:
        sentences = [f"{app} waits for {other}: {limit_text(before[other])} -> {limit_text(hours)}."]
    else:
        sentences = [f"{app} waits for {other}{' too' if before else ''}, {limit_text(hours)}."]
    after = dict(sorted({**before, other: hours}.items()))
    return after, sentences + slips(found, app, {other: hours})


def removed(app: str, other: str, hours: int | None, before: Limits) -> tuple[Limits, list[str]]:
    """The list without a name, and what changes."""
    if hours is not None:
        raise ChangeRefused("only `add` takes hours", 2)
    if other not in before:
        raise ChangeRefused(f"{app} doesn't wait for {other}{meant_text(other, before)}: its list has "
                            f"{few(before) or 'nothing'}")
    after = {name: within for name, within in before.items() if name != other}
    return after, [f"{app} no longer waits for {other} ({limit_text(before[other])})."]


def limit_text(hours: int | None) -> str:
    """A limit in words."""
    return "without a limit" if hours is None else f"within {count_text(hours, 'hour')}"


def slips(found: Definitions, app: str, listed: Limits) -> list[str]:
    """What is likely a slip in a list, in sentences."""
    now = stream_state.Known(is_whole=True)
    now.defined = dataclasses.replace(found, predecessors={app: listed})
    return [f"Likely a mistake: {finding.text}." for finding in lint_checks.predecessors(now)]
