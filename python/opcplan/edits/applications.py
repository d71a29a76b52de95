"""Edits of an application: whether it is active, and its calendar. No I/O."""

import dataclasses
from collections.abc import Sequence
from typing import Any

from opcplan.acts.world import World
from opcplan.edits import run_cycles, words
from opcplan.edits.changes import Change, ChangeRefused
from opcplan.rules.definitions import Application, Definitions
from opcplan.rules.naming_words import count_text, few, meant_text


@dataclasses.dataclass(frozen=True)
class Settings:
    """The application and its changes, each a field and what it is then."""

    name: str
    changes: list[tuple[str, Any]]


def change_of(text: str) -> tuple[str, bool | str | None]:
    """A change: its field and what it is then."""
    if text.lower() in ("active", "pending"):
        return "status", text.lower() == "active"
    if text.lower() == "new":
        return "new", True
    key, equals, value = text.partition("=")
    if key.lower() == "calendar" and equals:
        return "calendar", words.name(value) if value else None
    if key.lower() == "cycle" and equals:
        return "cycle", words.short_name(value)
    if not equals or not run_cycles.is_field(key):
        raise ChangeRefused(f"{text!r} is not one of active, pending, new, calendar=NAME, remove, rename NEW and like "
                            "OTHER", 2)
    return key.lower(), value


def read(typed: Sequence[str]) -> Settings:
    """Words as Settings. Raises ChangeRefused."""
    name, *changes = typed
    return Settings(words.name(name), [change_of(one) for one in changes])


def change(world: World, found: Definitions, given: Settings) -> Change:
    """The change that is asked for."""
    app, wanted = given.name, dict(given.changes)
    if len(wanted) < len(given.changes):
        raise ChangeRefused("you gave one thing twice", 2)
    if wanted.pop("new", False):
        return new_application(world, found, app, wanted)
    if app not in found.applications:
        raise ChangeRefused(f"there is no application {app}{meant_text(app, found.applications)}; `./plan edit PLAN.db "
                            f"application {app} new period=DAY ia=20.00 deadline=0/23.00` makes one")
    if fields := wanted.keys() - {"status", "calendar"}:
        raise ChangeRefused(f"{app} exists already; `./plan edit PLAN.db run-cycle {app} NAME {min(fields)}=..` "
                            "changes a run cycle of it", 2)
    before = found.applications[app]
    after = Application(wanted.get("status", before.is_active), wanted.get("calendar", before.calendar))
    if after == before:
        is_so = f"{status_text(before)}, {calendar_text(found, before)}"
        raise ChangeRefused(f"{app} is already {is_so}; nothing would change")
    if after.calendar is not None and after.calendar not in (before.calendar, *found.calendars):
        raise ChangeRefused(words.lack("calendar", after.calendar, found.calendars))
    ask_plannable(found, app, after)
    sentences = [*differences(found, app, before, after), *others_sentences(world, found, app, before, after)]
    is_modified = before.is_active or after.is_active
    return Change("applications", {app: after}, sentences, app if after.is_active else None, is_modified)


def new_application(world: World, found: Definitions, app: str, wanted: dict[str, Any]) -> Change:
    """The change that makes an application, with a run cycle where fields of one are given."""
    if app in found.applications:
        raise ChangeRefused(f"{app} exists already; leave `new` away to change it")
    after = Application(wanted.pop("status", True), wanted.pop("calendar", None))
    if after.calendar is not None and after.calendar not in found.calendars:
        raise ChangeRefused(words.lack("calendar", after.calendar, found.calendars))
    then = dataclasses.replace(found, applications={**found.applications, app: after})
    sentences = [f"{app} is new: {status_text(after)}, {calendar_text(found, after)}."]
    made = Change("applications", {app: after}, sentences, app, after.is_active)
    cycle = wanted.pop("cycle", None)
    if wanted or cycle:
        name = cycle or words.short_name(wanted.get("period") or "DAY")
        made.also.append(run_cycles.new_cycle(world, then, app, name, wanted.items(), True))
    elif not found.run_cycles.get(app):
        made.sentences.append("It has no run cycles, so no day is named; `run-cycle` adds one.")
    ask_plannable(then, app, after)
    return made


def ask_plannable(found: Definitions, app: str, after: Application) -> None:
    """Asks that planning statements wouldn't be refused for an application that is active then."""
    if not after.is_active:
        return
    name = after.calendar or found.default_calendar
    if name != found.default_calendar and name not in found.calendars:
        raise ChangeRefused(f"{app} uses the calendar {name}, which isn't defined; while {app} is active, planning "
                            "statements would be refused (22)")
    lacking = found.lacking_periods(app)
    if lacking:
        raise ChangeRefused(f"run cycles of {app} name {few(lacking)}, and no such period is defined; while {app} is "
                            "active, planning statements would be refused (23)")


def status_text(application: Application) -> str:
    """A status in words."""
    return "active" if application.is_active else "pending"


def calendar_text(found: Definitions, application: Application) -> str:
    """A calendar in words."""
    return f"calendar {application.calendar}" if application.calendar else f"default calendar {found.default_calendar}"


def differences(found: Definitions, app: str, before: Application, after: Application) -> list[str]:
    """What changes, in sentences."""
    sentences = []
    if before.is_active != after.is_active:
        sentences.append(f"{app}: {status_text(before)} -> {status_text(after)}.")
    if before.calendar != after.calendar:
        sentences.append(f"{app}: {calendar_text(found, before)} -> {calendar_text(found, after)}.")
    return sentences


def others_sentences(world: World, found: Definitions, app: str, before: Application, after: Application) -> list[str]:
    """What it means, and what stays, in sentences."""
    planned = sum(row.place == "L" and row.cycle is not None for row in world.rows(app).values())
    sentences = []
    if before.is_active and not after.is_active:
        sentences.append("While it is pending, it isn't planned and nothing of it can be "
                         f"added; {count_text(planned, 'occurrence')} of its run cycles would be withdrawn.")
    if after.is_active and not found.run_cycles.get(app):
        sentences.append("It has no run cycles, so no day is named.")
    waiting = [name for name, listed in found.predecessors.items() if app in listed and name != app]
    cycles, listed = found.run_cycles.get(app, {}), found.predecessors.get(app, {})
    own = f"{count_text(len(cycles), 'run cycle')} and its {count_text(len(listed), 'predecessor')}"
    lists = f", and so do the lists that have it ({few(waiting)})" if waiting else ""
    return [*sentences, f"Its {own} stay as they are{lists}."]
