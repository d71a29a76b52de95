"""Intentions and previews as JSON has them. No I/O."""

import dataclasses
import re
from collections.abc import Mapping, Sequence
from typing import Any

from opcplan.acts import previews, resolver, rest, several, steps, undoing, verbs
from opcplan.acts.undoing import Done
from opcplan.acts.verbs import Ambiguous, Intention, InvalidIntention, NotDoable
from opcplan.acts.world import World
from opcplan.errors import UsageError
from opcplan.rules.known import Known
from opcplan.rules.stream import Item

MOST_TEXT, MOST_ENTRY, MOST_DONE = 100, 999_999_999_999_999, 100_000
FIELDS = {"verb": str, "of": str, "to": str, "due": str, "chain": bool, "followers": bool, "entry": int, "each": list}
PRINTABLE = re.compile(f"[ -~]{{0,{MOST_TEXT}}}")


def of_values(found: Mapping[str, Any]) -> Intention:
    """The Intention that JSON has. Raises InvalidIntention."""
    for name, value in found.items():
        if name not in FIELDS:
            raise InvalidIntention(f"an act has no field `{str(name)[:40]}`; its fields are {', '.join(FIELDS)}")
        if type(value) is not FIELDS[name]:
            raise InvalidIntention(f"`{name}` must be a value of another type")
        texts = value if isinstance(value, list) else [value] if isinstance(value, str) else []
        if not all(isinstance(text, str) and PRINTABLE.fullmatch(text) for text in texts):
            raise InvalidIntention(f"`{name}` must be a text of at most {MOST_TEXT} printable characters" +
                                   (", or a list of them" if isinstance(value, list) else ""))
    entry = found.get("entry")
    if entry is not None and not 1 <= entry <= MOST_ENTRY:
        raise InvalidIntention("`entry` must be the number of an entry")
    if "verb" not in found:
        raise InvalidIntention(f"`verb` is missing; it is one of {', '.join(verbs.VERBS)}")
    wanted = dataclasses.replace(Intention(**{name: value for name, value in found.items() if name != "each"}),
                                 each=tuple(found.get("each", ())))
    verbs.check(wanted)
    return wanted


def check(found: Mapping[str, Any]) -> None:
    """Checks what asks for a preview: an intention, or `of` alone, which asks which occurrence is meant. Raises
    InvalidIntention."""
    if found.keys() == {"of"}:
        of_values({"verb": "start", **found})
    else:
        of_values(found)


def check_done(done: Any) -> None:
    """Checks the number of statements that are done. Raises InvalidIntention."""
    if type(done) is not int or not 0 <= done <= MOST_DONE:
        raise InvalidIntention(f"`done` must be the number of statements that are done, at most {MOST_DONE:,}")


def values_of(wanted: Intention) -> dict[str, Any]:
    """An Intention as JSON has it."""
    found = {name: getattr(wanted, name) for name in FIELDS}
    found["each"] = list(wanted.each)
    return {name: value for name, value in found.items() if value not in (None, "", False, [])}


def answer_to(world: World, look: Mapping[str, Any], near: int, entries: list[Done], who: str | None) -> dict[str, Any]:
    """The answer to what `check` and `check_done` passed, as JSON has it."""
    if "done" in look:
        return rest_of(world, look["stream"], look["done"])
    if "verb" not in look:
        return found_of(world, look["of"], near)
    return answer(world, of_values(look), near, entries, who)


def answer(world: World, wanted: Intention, near: int, entries: list[Done], who: str | None) -> dict[str, Any]:
    """The preview of an intention as JSON has it: `act`; or `found` with several rows or none; or `why_not`. `entries`
    are those of the journal, which `undo` looks at, and `who` asks."""
    try:
        if wanted.verb == "undo":
            done = undoing.last_of(entries, who) if wanted.entry is None else undoing.of_entry(entries, wanted.entry)
            act = undoing.act_of(world, wanted, done, entries)
        elif wanted.each:
            act = several.act_of(world, wanted, near)
        else:
            act = verbs.act_of(world, wanted, near)
    except Ambiguous as why:
        return {"act": None, "found": previews.of_resolved(why.found), "why_not": ""}
    except (NotDoable, UsageError) as why:
        return {"act": None, "found": None, "why_not": str(why)}
    return {"act": previews.of_act(world, act).values(), "found": None, "why_not": ""}


def found_of(world: World, of: str, near: int) -> dict[str, Any]:
    """Which occurrence a text names, as JSON has it: `found`, or `why_not` if it names none."""
    try:
        found = resolver.resolve(world, resolver.read(of), near=near)
    except UsageError as why:
        return {"act": None, "found": None, "why_not": str(why)}
    return {"act": None, "found": previews.of_resolved(found), "why_not": ""}


def rest_of(world: World, stream: str, done: int) -> dict[str, Any]:
    """The preview of what is left of an act, of whose statements some are done, as JSON has it."""
    try:
        left = steps.of_text(stream)[done:]
    except steps.NoSteps as why:
        return {"act": None, "found": None, "why_not": str(why)}
    if not left:
        return {"act": None, "found": None, "why_not": "nothing of it is left"}
    return {"act": previews.of_rest(world, tuple(left)).values(), "found": None, "why_not": ""}


def answer_of_rest(world: World, items: Sequence[Item], done: Sequence[Done], known: Known) -> dict[str, Any]:
    """What is left of an act as JSON has it: `act`, or `why_not` if it can't be done any more; neither if nothing is
    left."""
    if not items:
        return {"act": None, "found": None, "why_not": ""}
    try:
        return {"act": rest.preview(world, items, done, known).values(), "found": None, "why_not": ""}
    except NotDoable as why:
        return {"act": None, "found": None, "why_not": str(why)}


def lines_of(found: Mapping[str, Any]) -> list[str]:
    """What is to be said of an answer that has no act."""
    return [str(line) for line in found["found"]["lines"]] if found["found"] else [str(found["why_not"])]
