"""What a new definition of a name changes of the old one, in words. A `define` replaces each name whole, so what it
doesn't say again is dropped."""

import dataclasses
from collections.abc import Callable, Iterator
from typing import Any

from opcplan.rules import definitions, moments
from opcplan.rules.definitions import Application, Calendar, Definitions, Due, Period, RunCycle
from opcplan.rules.naming_words import count_text, few


@dataclasses.dataclass(frozen=True)
class Change:
    """A sentence on one change, the record that it is about, whether something is lost or turned by it, and the
    sentence as it reads behind the name."""

    text: str
    about: tuple[str, ...] = ()
    is_loss: bool = True
    brief: str = ""


def of_name(kind: str, name: str, old: Any, new: Any) -> list[Change]:
    """What the definition `new` of a name changes of the definition `old`."""
    return list(KINDS[kind](name, old, new))


def change(form: str, name: str, about: tuple[str, ...] = (), is_loss: bool = True) -> Change:
    """A change of a name, which stands in the form as ` of NAME`, ` to NAME`, ` NAME` or `it`, in braces."""
    texts = {"{of}": f" of {name}", "{to}": f" to {name}", "{name}": f" {name}", "{it}": name}
    text, brief = form, form
    for place, said in texts.items():
        text, brief = text.replace(place, said), brief.replace(place, "it" if place == "{it}" else "")
    return Change(text, about, is_loss, brief)


def of_options(before: Definitions, after: Definitions) -> Iterator[Change]:
    """What the options of definitions change of those of others."""
    if before.default_calendar != after.default_calendar:
        yield Change(f"makes {after.default_calendar} the default calendar in place of {before.default_calendar}")
    if before.max_hours != after.max_hours:
        yield Change(f"sets the most hours of one daily plan to {after.max_hours}; they were {before.max_hours}")


def of_calendar(name: str, old: Calendar, new: Calendar) -> Iterator[Change]:
    held, now = entries_of(old), entries_of(new)
    lost, more = [entry for entry in held if entry not in now], [entry for entry in now if entry not in held]
    if lost:
        yield change(f"drops {count_text(len(lost), 'entry', 'entries')}{{of}}: {few(lost)}", name)
    for is_work, what in ((True, "work"), (False, "free")):
        turned = [entry for entry in now if entry in held and held[entry] != now[entry] == is_work]
        if turned:
            yield change(f"turns {count_text(len(turned), 'entry', 'entries')}{{of}} to {what}: {few(turned)}", name)
    if more:
        shown = few([f"{entry} {'WORK' if now[entry] else 'FREE'}" for entry in more])
        yield change(f"adds {count_text(len(more), 'entry', 'entries')}{{to}}: {shown}", name, is_loss=False)


def entries_of(calendar: Calendar) -> dict[str, bool]:
    """The entries of a calendar as they are written, weekdays first."""
    found = {definitions.WEEKDAYS[day]: calendar.weekdays[day] for day in sorted(calendar.weekdays)}
    return found | {moments.day_text(day): calendar.dates[day] for day in sorted(calendar.dates)}


def of_period(name: str, old: Period, new: Period) -> Iterator[Change]:
    if "N" not in (old.kind, new.kind) or old.kind != new.kind:
        if old != new:
            yield change(f"changes the period{{name}}: {period_text(old)}, then {period_text(new)}", name, (name,))
        return
    held = {entry.origin: entry.end for entry in old.entries}
    now = {entry.origin: entry.end for entry in new.entries}
    lost, more = [day for day in held if day not in now], [day for day in now if day not in held]
    if lost:
        shown = few(list(map(moments.day_text, lost)))
        yield change(f"drops {count_text(len(lost), 'interval')}{{of}}: from {shown} on", name, (name,))
    ends = [day for day in now if day in held and held[day] != now[day]]
    if ends:
        shown = few([f"of {moments.day_text(day)} {end_text(held[day])}, then {end_text(now[day])}" for day in ends])
        yield change(f"changes the end of {count_text(len(ends), 'interval')}{{of}}: {shown}", name, (name,))
    if more:
        shown = few(list(map(moments.day_text, more)))
        yield change(f"adds {count_text(len(more), 'interval')}{{to}}: from {shown} on", name, (name,), False)


def period_text(period: Period) -> str:
    """A period in words."""
    if period.kind == "N":
        return f"type N with {count_text(len(period.entries), 'interval')}"
    days = count_text(period.interval, "work day" if period.kind == "W" else "day")
    return f"type {period.kind} from {moments.day_text(period.origin)} on with intervals of {days}"


def end_text(day: int | None) -> str:
    return "without an end" if day is None else f"to {moments.day_text(day)}"


def of_application(name: str, old: Application, new: Application) -> Iterator[Change]:
    if old.is_active != new.is_active:
        form = "makes {it} active" if new.is_active else "makes {it} pending, so it is no longer planned"
        yield change(form, name, (name,), old.is_active)
    if old.calendar != new.calendar:
        was, now = (calendar or "the default one" for calendar in (old.calendar, new.calendar))
        yield change(f"changes the calendar{{of}}: {was}, then {now}", name, (name,))


def of_run_cycles(app: str, old: dict[str, RunCycle], new: dict[str, RunCycle]) -> Iterator[Change]:
    lost, more = sorted(old.keys() - new.keys()), sorted(new.keys() - old.keys())
    if lost:
        yield change(f"drops {named(lost, 'run cycle')}{{of}}", app)
    for name in sorted(old.keys() & new.keys()):
        was, now = old[name], new[name]
        if was.due != now.due:
            texts = f"{due_text(was.due)}, then {due_text(now.due)}"
            yield change(f"moves the deadline of run cycle {name}{{of}}: {texts}", app, (app, name))
        turned = [f"{said} {text(getattr(was, field))}, then {text(getattr(now, field))}"
                  for field, said, text in FIELDS if getattr(was, field) != getattr(now, field)]
        if turned:
            yield change(f"changes run cycle {name}{{of}}: {'; '.join(turned)}", app, (app, name))
    if more:
        yield change(f"adds {named(more, 'run cycle')}{{to}}", app, is_loss=False)


def offsets_text(offsets: list[int]) -> str:
    return " ".join(map(str, offsets))


def out_text(day: int | None) -> str:
    return "never" if day is None else moments.day_text(day)


def due_text(due: Due | None) -> str:
    """A deadline of a run cycle."""
    if due is None:
        return "none"
    days, minute = due
    when = "of the same day" if days == 0 else "of the next day" if days == 1 else f"{days} days later"
    return f"{moments.minute_text(minute)} {when}"


def of_predecessors(app: str, old: dict[str, int | None], new: dict[str, int | None]) -> Iterator[Change]:
    lost, more = sorted(old.keys() - new.keys()), sorted(new.keys() - old.keys())
    if lost:
        yield change(f"drops {named(lost, 'predecessor')}{{of}}", app)
    for name in sorted(old.keys() & new.keys()):
        if old[name] != new[name]:
            texts = f"{limit_text(old[name])}, then {limit_text(new[name])}"
            yield change(f"changes the limit of predecessor {name}{{of}}: {texts}", app, (app, name))
    if more:
        yield change(f"adds {named(more, 'predecessor')}{{to}}", app, is_loss=False)


def limit_text(hours: int | None) -> str:
    return "none" if hours is None else count_text(hours, "hour")


def named(names: list[str], what: str) -> str:
    """How many there are of what, with their names."""
    return f"{what} {names[0]}" if len(names) == 1 else f"{len(names)} {what}s ({few(names)})"


# those of a run cycle, its deadline aside: field, its word, and how its value is written
FIELDS: tuple[tuple[str, str, Callable[[Any], str]], ...] = (
    ("kind", "type", str),
    ("period", "period", str),
    ("rule", "rule", str),
    ("offsets", "offsets", offsets_text),
    ("in_effect", "in effect", moments.day_text),
    ("out_effect", "out of effect", out_text),
    ("time", "input arrival", moments.minute_text),
)
KINDS: dict[str, Callable[[str, Any, Any], Iterator[Change]]] = {
    "calendars": of_calendar,
    "periods": of_period,
    "applications": of_application,
    "run-cycles": of_run_cycles,
    "predecessors": of_predecessors,
}
