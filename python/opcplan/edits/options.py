"""Edits of the options: the default calendar, and how far one daily plan goes. No I/O."""

import dataclasses
from collections.abc import Sequence

from opcplan.acts.world import World
from opcplan.edits import words
from opcplan.edits.changes import Change, ChangeRefused
from opcplan.rules import blocks, record_fields
from opcplan.rules.definitions import Definitions
from opcplan.rules.naming_words import few


@dataclasses.dataclass(frozen=True)
class Settings:
    """The options that change, each with its value."""

    pairs: list[tuple[str, str]]


def read(typed: Sequence[str]) -> Settings:
    """Words as Settings. Raises ChangeRefused."""
    return Settings([words.pair(one) for one in typed])


def change(world: World, found: Definitions, given: Settings) -> Change:
    """The change that is asked for."""
    before: dict[str, str | int] = {"default_calendar": found.default_calendar, "max_extension_hours": found.max_hours}
    if len(dict(given.pairs)) < len(given.pairs):
        raise ChangeRefused("you gave an option twice", 2)
    after = {**before, **{key: value_of(key, value) for key, value in given.pairs}}
    if after == before:
        raise ChangeRefused("the options have these values already; nothing would change")
    name = str(after["default_calendar"])
    if name != found.default_calendar and name not in found.calendars:
        raise ChangeRefused(words.lack("calendar", name, found.calendars))
    sentences = [f"{key}: {before[key]} -> {after[key]}." for key in after if after[key] != before[key]]
    sentences += [f"{key} stays {after[key]}." for key in after if after[key] == before[key]]
    is_modified = name != found.default_calendar
    if is_modified:
        users = [app for app, application in found.applications.items() if application.calendar is None]
        going = f"{few(users)} {'uses' if len(users) == 1 else 'use'} the default calendar" if users \
            else "No application uses the default calendar"
        sentences.append(f"{going}; `dp-extend --count W` uses it at once.")
    if after["max_extension_hours"] != before["max_extension_hours"]:
        sentences.append("`dp-extend` uses max_extension_hours at once.")
    return Change("options", after, sentences, None, is_modified)


def value_of(key: str, text: str) -> str | int:
    """The value of an option that a text spells."""
    try:
        if key == "max_extension_hours":
            return words.texts_of(value=text).number("value", 1, 504)
        value = words.texts_of(value=text.upper()).text("value")
        blocks.check_option(key, value)
        return value
    except record_fields.InvalidField as wrong:
        raise ChangeRefused(f"{key}={text}: {wrong}", 2) from None
