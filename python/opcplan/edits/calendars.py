"""Edits of a calendar: what it lists of days or of a weekday. No I/O."""

import dataclasses
import re
from collections.abc import Sequence
from typing import NamedTuple

from opcplan.acts.world import World
from opcplan.edits import words
from opcplan.edits.changes import Change, ChangeRefused
from opcplan.rules.definitions import Calendar, Definitions, WEEKDAYS, weekday_of
from opcplan.rules.moments import DAY, day_text, moment_text
from opcplan.rules.naming_words import SHOWN, count_text, few

STATUSES = {"free": False, "work": True, "unlist": None}


class Entry(NamedTuple):
    """An entry of a calendar: of kind `weekday` by its number, of kind `date` by its day."""

    kind: str
    day: int


Wanted = dict[Entry, bool | None]  # whether its days are work days; None where it is unlisted


@dataclasses.dataclass(frozen=True)
class Settings:
    """The calendar, and what its entries that change are listed as."""

    name: str
    wanted: Wanted


def read(typed: Sequence[str]) -> Settings:
    """Words as Settings. Raises ChangeRefused."""
    name, *changes = typed
    wanted: Wanted = {}
    for place in range(0, len(changes), 2):
        found = entries(changes[place])
        if place + 1 == len(changes):
            raise ChangeRefused(f"STATUS is missing behind {changes[place]}: free, work or unlist", 2)
        is_work = STATUSES[status(changes[place + 1])]
        if not wanted.keys().isdisjoint(found):
            raise ChangeRefused(f"you gave {changes[place]} twice", 2)
        wanted |= {entry: is_work for entry in found}
    return Settings(words.name(name), wanted)


def entries(text: str) -> list[Entry]:
    """What is meant by an entry: a weekday, a day, or several days."""
    weekday = words.weekday(text.upper())
    if weekday is not None:
        return [Entry("weekday", weekday)]
    if re.match("[A-Za-z]", text):
        raise ChangeRefused(f"{text!r}: it has to be a weekday, MON to SUN, or a day YYYY-MM-DD", 2)
    first, dots, last = text.partition("..")
    begin = words.day(first)
    end = words.day(last) if dots else begin
    if end < begin:
        raise ChangeRefused(f"{text!r}: the last day is before the first one", 2)
    return [Entry("date", day) for day in range(begin, end + 1)]


def status(text: str) -> str:
    """A status, as its word in small letters."""
    if text.lower() not in STATUSES:
        raise ChangeRefused(f"{text!r} is not one of free, work and unlist (give days as FIRST..LAST)", 2)
    return text.lower()


def change(world: World, found: Definitions, given: Settings) -> Change:
    """The change that is asked for."""
    if given.name not in found.calendars:
        raise ChangeRefused(words.lack("calendar", given.name, found.calendars))
    return of_entries(world, found, given.name, given.wanted)


def of_entries(world: World, found: Definitions, name: str, wanted: Wanted) -> Change:
    """The change that gives a calendar entries, or takes them away."""
    before = found.calendars.get(name, Calendar())
    changed = {entry: is_work for entry, is_work in wanted.items() if listed(before, entry) != is_work}
    if not changed:
        what = "lists nothing of this" if set(wanted.values()) == {None} else "lists all of this so already"
        raise ChangeRefused(f"{name} {what}: nothing would change")
    after = with_entries(before, changed)
    is_gone = not after.weekdays and not after.dates
    users = [app for app in found.applications if found.calendar_name(app) == name]
    if is_gone and users and name != found.default_calendar:
        raise ChangeRefused(f"{name} would list nothing and would be undefined, "
                            f"but {few(users)} {'uses' if len(users) == 1 else 'use'} it. List MON as work to make "
                            "each day a work day")
    sentences = [
        f"{name} changes in {count_text(len(changed), 'entry', 'entries')}: "
        + "; ".join(few_changes(before, after, changed)) + ".",
        staying(before, wanted, changed),
        *(["It lists nothing then, so it is undefined, and each day is a work day."] if is_gone else []),
        *users_sentences(found, name, users),
        *early_sentences(world, changed),
    ]
    return Change("calendars", {name: None if is_gone else after}, sentences)


def listed(calendar: Calendar, entry: Entry) -> bool | None:
    """What a calendar lists of an entry, or None."""
    kind, day = entry
    return (calendar.weekdays if kind == "weekday" else calendar.dates).get(day)


def with_entries(calendar: Calendar, changed: Wanted) -> Calendar:
    """A calendar with some entries in place of those that it had."""
    held = {"weekday": dict(calendar.weekdays), "date": dict(calendar.dates)}
    for (kind, day), is_work in changed.items():
        held[kind].pop(day, None)
        if is_work is not None:
            held[kind][day] = is_work
    return Calendar(dict(sorted(held["weekday"].items())), dict(sorted(held["date"].items())))


# What is told.


def few_changes(before: Calendar, after: Calendar, changed: Wanted) -> list[str]:
    """Some of the changes in words, and how many more there are."""
    said = [f"{entry_text(entry)}, {status_text(before, entry)} -> {status_text(after, entry)}"
            for entry in list(changed)[:SHOWN]]
    return said + ([f"and {len(changed) - SHOWN:,} more"] if len(changed) > SHOWN else [])


def entry_text(entry: Entry) -> str:
    """An entry in words."""
    kind, day = entry
    return WEEKDAYS[day] if kind == "weekday" else f"{day_text(day)} ({WEEKDAYS[weekday_of(day)]})"


def status_text(calendar: Calendar, entry: Entry) -> str:
    """What a calendar says of an entry."""
    is_listed, (kind, day) = listed(calendar, entry), entry
    if is_listed is not None:
        return "work" if is_listed else "free"
    is_work = calendar.is_work(day) if kind == "date" else True
    return f"not listed, {'a work day' if is_work else 'free by its weekday'}"


def staying(before: Calendar, wanted: Wanted, changed: Wanted) -> str:
    """What a calendar keeps, in a sentence."""
    others = len(before.weekdays) + len(before.dates) - sum(listed(before, entry) is not None for entry in changed)
    alike = len(wanted) - len(changed)
    stay = count_text(others, "other entry stays", "other entries stay")
    so = f" ({alike:,} of this was so already)" if alike else ""
    return f"{f'Its {stay}' if others else 'It had no others'}{so}."


def users_sentences(found: Definitions, name: str, users: list[str]) -> list[str]:
    """Who goes by a calendar, in sentences."""
    is_default = name == found.default_calendar
    counted = ["`dp-extend --count W` uses it at once."] if is_default else []
    if not users:
        return [f"No application uses {name}.", *counted]
    return [f"{few(users)} {'use' if len(users) > 1 else 'uses'} {name}.", *counted]


def early_sentences(world: World, changed: Wanted) -> list[str]:
    """That days are before the plan end, where all are, in sentences."""
    days = [day for kind, day in changed if kind == "date"]
    if world.bounds is None or len(days) < len(changed) or (max(days) + 1) * DAY > world.bounds.plan_end:
        return []
    end = moment_text(world.bounds.plan_end)
    return [f"All of this is before {end}, where the current plan ends. These days aren't planned again, but days that "
            "are counted over them or moved from them may change."]
