"""What an edit does, before it is done: as data for programs and as sentences for people. No I/O."""

from collections.abc import Mapping, Sequence
from typing import Any, NamedTuple

from opcplan.acts import steps
from opcplan.acts.steps import Step
from opcplan.acts.world import World
from opcplan.edits import changes, days, edit, inverses
from opcplan.edits.changes import ChangeRefused
from opcplan.edits.days import AppDays, Span
from opcplan.errors import UsageError
from opcplan.rules import moments

MOST_WORDS, MOST_TEXT = 1_000, 1_000
FIELDS = ("edit", "from", "to")


class InvalidEdit(UsageError):
    """What is wrong with what a caller sends."""


class Asked(NamedTuple):
    """What a caller asks for: the words of an edit, and the days to look at, None for the usual ones."""

    words: tuple[str, ...]
    first: int | None = None
    last: int | None = None


class Preview(NamedTuple):
    """What an edit does: its statements, sentences on what changes and stays, and how it gets into the long-term plan;
    the days of each application that it concerns; and what takes it back, as statements and, where there is one, as an
    edit."""

    words: tuple[str, ...]
    steps: tuple[Step, ...]
    sentences: tuple[str, ...]
    modify: str | None
    span: Span
    apps: tuple[AppDays, ...]
    inverse: tuple[Step, ...]
    edit_back: tuple[str, ...] | None

    @property
    def stream(self) -> str:
        """The statements, without job numbers."""
        return steps.text_of(self.steps)

    def values(self) -> dict[str, Any]:
        """As JSON has it."""
        begin = self.span.begin
        return {
            "edit": list(self.words), "stream": self.stream, "role": steps.role_of(self.steps).name.lower(),
            "statements": [step.line for step in self.steps], "sentences": list(self.sentences),
            "modify": self.modify, "first": moments.day_text(self.span.first), "last": moments.day_text(self.span.last),
            "begin": moments.moment_word(begin) if begin else None,
            "apps": [one.values(days.MOST_SHOWN if place < days.MOST_APPS else 0)
                     for place, one in enumerate(self.apps)],
            "inverse": steps.text_of(self.inverse),
            "edit_back": None if self.edit_back is None else list(self.edit_back),
        }


def asked_of(found: Mapping[str, Any]) -> Asked:
    """What an object of JSON asks for. Raises InvalidEdit."""
    for name in found:
        if name not in FIELDS:
            raise InvalidEdit(f"an edit has no field `{str(name)[:40]}`; its fields are {', '.join(FIELDS)}")
    words = found.get("edit")
    if not isinstance(words, list) or not all(isinstance(word, str) for word in words) or not words:
        raise InvalidEdit("`edit` must be a list of words, as `./plan edit PLAN.db` takes them")
    if len(words) > MOST_WORDS or any(len(word) > MOST_TEXT for word in words):
        raise InvalidEdit(f"`edit` has at most {MOST_WORDS:,} words of at most {MOST_TEXT:,} characters")
    first, last = (day_of(found, name) for name in ("from", "to"))
    if first is None and last is not None:
        raise InvalidEdit("`to` needs `from`")
    if first is not None and last is not None and not first <= last < first + days.MOST_DAYS:
        raise InvalidEdit(f"`to` must be from `from` on, at most {days.MOST_DAYS:,} days")
    return Asked(tuple(words), first, last)


def day_of(found: Mapping[str, Any], name: str) -> int | None:
    """The day of a field, or None if it is missing. Raises InvalidEdit."""
    text = found.get(name)
    if text is None:
        return None
    day = moments.day_of(text) if isinstance(text, str) else None
    if day is None:
        raise InvalidEdit(f"`{name}` must be a day such as 2027-12-24, from 1972-01-01 to 2071-12-31")
    return day


def span_of(world: World, asked: Asked, near: int) -> Span:
    """The days that a preview looks at; `near` is the moment of the clock."""
    end = None if world.bounds is None else world.bounds.plan_end
    if asked.first is None:
        return days.usual_span(near, end)
    if asked.last is None:
        return days.months_from(asked.first, end)
    return Span(asked.first, asked.last, end or 0)


def preview_of(world: World, asked: Asked, near: int) -> Preview:
    """The preview of an edit in a world. Raises ChangeRefused and Unsound."""
    wanted = edit.read(asked.words)
    found = edit.change_of(world, wanted)
    after = inverses.applied(world, found.all)
    back = inverses.changes_back(world.defined, found.all)
    edit_back = inverses.edit_back(world, after, wanted)
    said = [sentence for one in found.all for sentence in one.sentences]
    span = span_of(world, asked, near)
    return Preview(
        asked.words, tuple(changes.steps_of(found.all)), (*said, *changes.way_into(world.bounds, found.all)),
        modify_of(world, found.all), span, tuple(days.of_change(world.defined, after.defined, span)),
        tuple(changes.steps_of(back)), None if edit_back is None else tuple(edit_back))


def modify_of(world: World, found: Sequence[changes.Change]) -> str | None:
    """The statement that takes changes into the long-term plan, or None where none is needed."""
    if world.bounds is None or not any(one.is_modified for one in found):
        return None
    one = changes.one_of(found)
    return f"ltp-modify-one --app {one}" if one else "ltp-modify-all"


def answer(world: World, found: Mapping[str, Any], near: int) -> dict[str, Any]:
    """The preview of an edit as JSON has it, or why there is none. Raises Unsound."""
    try:
        return {"edit": preview_of(world, asked_of(found), near).values(), "why_not": ""}
    except ChangeRefused as why:
        return {"edit": None, "why_not": str(why)}
