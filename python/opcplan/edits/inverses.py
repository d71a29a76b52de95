"""What takes an edit back: always a stream, which gives each definition as it was, and often another edit. No I/O.

What always holds (tests/test_edits.py, over random definitions and edits): after an edit and its inverse the
definitions are those of before. The edit that is named isn't guessed: it is tried, and named only if that comes out. It
leaves what others have changed in between, which the stream would give as it was."""

from collections.abc import Callable, Mapping, Sequence
from typing import Any

from opcplan.acts.world import HELD, World
from opcplan.edits import edit, wholes
from opcplan.edits.calendars import Entry, listed
from opcplan.edits.changes import Change, ChangeRefused, Unsound, steps_of
from opcplan.edits.edit import Edit
from opcplan.edits.run_cycles import FIELDS, NEW, fields_of
from opcplan.edits.wholes import LIKE, RENAME
from opcplan.rules.definitions import WEEKDAYS, Calendar, Definitions, RunCycle
from opcplan.rules.moments import day_text

Words = list[str]
STATUS_WORDS = {True: "work", False: "free", None: "unlist"}


def defined_of(defined: Definitions, kind: str) -> Mapping[str, Any]:
    """What is defined of a kind, by name."""
    if kind == "options":
        return {"default_calendar": defined.default_calendar, "max_extension_hours": defined.max_hours}
    found: Mapping[str, Any] = getattr(defined, HELD[kind])
    return found


def changes_back(before: Definitions, changes: Sequence[Change]) -> list[Change]:
    """The changes that give each definition as it was, the last one first."""
    found = []
    for one in reversed(changes):
        known = defined_of(before, one.kind)
        found.append(Change(one.kind, {name: known.get(name) for name in one.after}, []))
    return found


def applied(world: World, changes: Sequence[Change]) -> World:
    """The world after changes. Raises ChangeRefused and Unsound."""
    after = world.copy()
    for step in steps_of(changes):
        reply = after.apply(step)
        if not reply.startswith("ok"):
            raise ChangeRefused(f"`{step.line}` would be refused with {reply.removeprefix('refused ')}")
    return after


def edit_back(before: World, after: World, wanted: Edit) -> Words | None:
    """The words of the edit that takes one back, or None if there is none."""
    maker = MAKERS.get(wanted.what)
    words = whole_back(before.defined, wanted.settings) if isinstance(wanted.settings, wholes.Whole) else \
        maker(before.defined, wanted.settings) if maker else None
    if words is None:
        return None
    try:
        back = edit.change_of(after, edit.read([wanted.what, *words]))
        found = applied(after, back.all).defined
    except (ChangeRefused, Unsound):
        return None
    return [wanted.what, *words] if found == before.defined else None


def whole_back(defined: Definitions, given: wholes.Whole) -> Words | None:
    """The words that take back what was done with a whole definition, where one edit does."""
    app = [given.app] if given.app else []
    if (given.what, given.verb) == ("run-cycle", wholes.REMOVE):
        return [given.app, given.name, NEW, *field_words(given.app, defined.run_cycles[given.app][given.name])]
    if given.verb == RENAME:
        return [*app, given.other, RENAME, given.name]
    return [*app, given.name, wholes.REMOVE] if given.verb == LIKE else None


def calendar_back(defined: Definitions, given: Any) -> Words:
    """The words that give a calendar's entries as they were: those that follow each other and were alike as a span."""
    calendar = defined.calendars.get(given.name, Calendar())
    spans: list[tuple[Entry, Entry, bool | None]] = []
    for entry in given.wanted:
        status = listed(calendar, entry)
        first, last, was = spans[-1] if spans else (entry, entry, None)
        if spans and (was, last.kind, last.day + 1, entry.kind) == (status, "date", entry.day, "date"):
            spans[-1] = first, entry, status
        else:
            spans.append((entry, entry, status))
    words = [given.name]
    for first, last, status in spans:
        words += [entry_word(first, last), STATUS_WORDS[status]]
    return words


def entry_word(first: Entry, last: Entry) -> str:
    """A weekday, a day, or several days, as an edit has them."""
    if first.kind == "weekday":
        return WEEKDAYS[first.day]
    return day_text(first.day) + (f"..{day_text(last.day)}" if last != first else "")


def run_cycle_back(defined: Definitions, given: Any) -> Words:
    """The words that give a run cycle's fields as they were, or remove a new one."""
    cycle = defined.run_cycles.get(given.app, {}).get(given.name)
    if cycle is None:
        return [given.app, given.name, wholes.REMOVE]
    return [given.app, given.name, *field_words(given.app, cycle)]


def field_words(app: str, cycle: RunCycle) -> Words:
    """All fields of a run cycle, as an edit has them."""
    fields = fields_of(app, cycle)
    return [f"{word}={fields[field]}" for word, field in FIELDS.items()]


def application_back(defined: Definitions, given: Any) -> Words:
    """The words that give an application as it was, or remove a new one."""
    known = defined.applications.get(given.name)
    if known is None:
        return [given.name, wholes.REMOVE]
    return [given.name, "active" if known.is_active else "pending", f"calendar={known.calendar or ''}"]


def predecessor_back(defined: Definitions, given: Any) -> Words:
    """The words that give an entry of a list as it was."""
    listed_before = defined.predecessors.get(given.app, {})
    if given.other not in listed_before:
        return [given.app, "remove", given.other]
    within = listed_before[given.other]
    return [given.app, "add", given.other, *([] if within is None else [str(within)])]


def options_back(defined: Definitions, given: Any) -> Words:
    """The words that give the options as they were."""
    return [f"{key}={value}" for key, value in defined_of(defined, "options").items()]


def period_back(defined: Definitions, given: Any) -> Words | None:
    """The words that give a period as it was, where one edit does."""
    known = defined.periods.get(given.name)
    if known is None:
        return [given.name, wholes.REMOVE]
    if known.kind != "N":
        return [given.name, f"type={known.kind}", f"origin={day_text(known.origin)}", f"interval={known.interval}"]
    verb, *more = given.changes
    ends = dict(known.entries)
    if verb == "add":
        return [given.name, "remove", more[0]]
    if verb in ("remove", "end") and more:
        origin = next((entry for entry in known.entries if day_text(entry.origin) == more[0]), None)
        if origin is not None:
            end = ends[origin.origin]
            word = "add" if verb == "remove" else "end"
            return [given.name, word, more[0], *([] if end is None else [day_text(end)])]
    return None


MAKERS: dict[str, Callable[[Definitions, Any], Words | None]] = {
    "calendar": calendar_back, "run-cycle": run_cycle_back, "application": application_back,
    "predecessor": predecessor_back, "options": options_back, "period": period_back}
