"""Edits of a run cycle: its fields. No I/O."""

import dataclasses
from collections.abc import Iterable, Sequence

from opcplan.acts.world import World
from opcplan.edits import words
from opcplan.edits.changes import Change, ChangeRefused, Unsound
from opcplan.plans import stream_state
from opcplan.rules import lint_checks, moments, record_fields, record_texts
from opcplan.rules.definitions import FIRST_DAY, Definitions, Period, RunCycle
from opcplan.rules.naming_words import few, meant_text

NEW = "new"
NAMES, TAKE = record_fields.KINDS["run-cycles"]
FIELDS = {field.replace(" ", "-"): field for field in NAMES[2:]}
# what a new run cycle has where nothing else is given, and what has to be
USUAL, WANTED = {"type": "N", "rule": "E", "offsets": "1"}, ("period", "input arrival")
OTHER_WORDS = {"offset": "offsets", "ia": "input arrival"}


@dataclasses.dataclass(frozen=True)
class Settings:
    """The run cycle and its fields that change."""

    app: str
    name: str
    pairs: list[tuple[str, str]]


def read(typed: Sequence[str]) -> Settings:
    """Words as Settings. Raises ChangeRefused."""
    app, name, *fields = typed
    return Settings(words.name(app), words.short_name(name), [field_of(one) for one in fields])


def change(world: World, found: Definitions, given: Settings) -> Change:
    """The change that is asked for."""
    cycles = found.run_cycles.get(given.app, {})
    if given.pairs[0] == (NEW, ""):
        return new_cycle(world, found, given.app, given.name, given.pairs[1:])
    if given.name not in cycles:
        raise ChangeRefused(f"there is no run cycle {given.name} of {given.app}{meant_text(given.name, cycles)}; it "
                            "has "
                            f"{few(cycles) or 'none'}, and `run-cycle {given.app} {given.name} new ..` gives it one")
    before = cycles[given.name]
    wanted = wanted_fields(given.pairs)
    after = cycle_of({**fields_of(given.app, before), **wanted})
    if after == before:
        raise ChangeRefused(f"{given.name} of {given.app} is so already; nothing would change")
    if after.period not in found.periods:
        raise ChangeRefused(words.lack("period", after.period, found.periods))
    then = {name: after if name == given.name else cycle for name, cycle in cycles.items()}
    sentences = [*differences(given.app, before, after), staying(given.app, cycles, before, after),
                 *slips(world, found, given.app, then, after)]
    is_active = given.app in found.applications and found.applications[given.app].is_active
    if not is_active:
        sentences.append(f"{given.app} isn't an active application, so none of it is planned.")
    return Change("run-cycles", {given.app: then}, sentences, given.app if is_active else None, is_active)


def field_of(text: str) -> tuple[str, str]:
    """A field and its value, or `new`."""
    return (NEW, "") if text.lower() == NEW else words.pair(text)


def new_cycle(
    world: World, found: Definitions, app: str, name: str, pairs: Iterable[tuple[str, str]], is_new_app: bool = False
) -> Change:
    """The change that gives an application one more run cycle."""
    cycles = found.run_cycles.get(app, {})
    if name in cycles:
        raise ChangeRefused(f"{app} has a run cycle {name} already; leave `new` away to change its fields")
    if app not in found.applications:
        raise ChangeRefused(f"there is no application {app}{meant_text(app, found.applications)}; "
                            f"`application {app} new` makes one")
    given = wanted_fields(pairs)
    lacking = [field for field in WANTED if not given.get(field)]
    if not given.get("deadline time") and given.get("type", "N") == "N":
        lacking.append("deadline")
    if lacking:
        short = {field: word for word, field in OTHER_WORDS.items()}
        raise ChangeRefused(f"{short.get(lacking[0], lacking[0])}= is missing: a new run cycle needs period=, ia= and "
                            "deadline=", 2)
    begin = first_day(found.periods.get(given["period"])) if world.bounds is None else world.bounds.first_day
    usual = {**USUAL, **dict.fromkeys(("out of effect", "deadline day", "deadline time"), ""),
             "in effect": moments.day_text(begin)}
    if given.get("deadline time"):
        usual["deadline day"] = "0"
    after = cycle_of({"application": app, "name": name, **usual, **given})
    if after.period not in found.periods:
        raise ChangeRefused(words.lack("period", after.period, found.periods))
    then = {**cycles, name: after}
    fields = record_texts.run_cycle_record(app, after).split(",")
    shown = ", ".join(f"{key} {value}" for key, value in zip(NAMES[2:], fields[2:]) if value)
    sentences = [f"{name} of {app} is new: {shown}."]
    sentences += [f"Its other run cycles stay: {few(cycles)}."] if cycles else []
    is_active = found.applications[app].is_active
    sentences += [] if is_active or is_new_app else [f"{app} isn't an active application, so none of it is planned."]
    return Change("run-cycles", {app: then}, [*sentences, *slips(world, found, app, then, after)], app, is_active)


def first_day(period: Period | None) -> int:
    """The first day of a period."""
    if period is None:
        return FIRST_DAY
    return period.entries[0].origin if period.kind == "N" else period.origin


def wanted_fields(pairs: Iterable[tuple[str, str]]) -> dict[str, str]:
    """The fields of a record that are given, by name."""
    wanted: dict[str, str] = {}
    for key, value in pairs:
        parts = parts_of(key, value)
        if wanted.keys() & parts.keys():
            raise ChangeRefused(f"you gave the field {key} twice", 2)
        wanted.update(parts)
    return wanted


def is_field(key: str) -> bool:
    """Whether a word names a field of a run cycle."""
    return key.lower() in {"deadline", *OTHER_WORDS, *FIELDS}


def parts_of(key: str, value: str) -> dict[str, str]:
    """The fields that one `key=value` gives."""
    key = key.lower()
    if key == "deadline":
        days, slash, time = value.partition("/")
        if not slash:
            return {"deadline time": value} if value else {"deadline day": "", "deadline time": ""}
        return {"deadline day": days, "deadline time": time}
    field = OTHER_WORDS.get(key, FIELDS.get(key))
    if field is None:
        raise ChangeRefused(f"a run cycle has no field {key!r}; it has {', '.join(FIELDS)}, and deadline", 2)
    if field == "offsets":
        value = value.replace(",", " ")
    return {field: value.upper() if field in ("type", "period", "rule") else value}


def fields_of(app: str, cycle: RunCycle) -> dict[str, str]:
    """The fields of a run cycle's record, by name."""
    fields = record_texts.run_cycle_record(app, cycle).split(",")
    if len(fields) != len(NAMES):
        raise Unsound(f"a run cycle of {app} has an impossible name")
    return dict(zip(NAMES, fields))


def cycle_of(fields: dict[str, str]) -> RunCycle:
    """The run cycle that the fields of a record make."""
    found: dict[str, dict[str, RunCycle]] = {}
    try:
        app, name = map(str, TAKE(found, words.texts_of(**fields), {}))
    except record_fields.InvalidField as wrong:
        raise ChangeRefused(f"{wrong.field}={fields[wrong.field]}: {wrong}", 2) from None
    return found[app][name]


def differences(app: str, before: RunCycle, after: RunCycle) -> list[str]:
    """The fields that change, in one sentence for each."""
    old, new = fields_of(app, before), fields_of(app, after)
    return [f"{after.name} of {app}, {field}: {old[field] or 'none'} -> {new[field] or 'none'}."
            for field in NAMES if old[field] != new[field]]


def staying(app: str, cycles: dict[str, RunCycle], before: RunCycle, after: RunCycle) -> str:
    """What stays, in a sentence."""
    others = [name for name in cycles if name != before.name]
    others_text = f", and so do its other run cycles: {few(others)}" if others else f"; {app} has no other run cycle"
    return f"Everything else of {before.name} stays{others_text}."


def slips(world: World, found: Definitions, app: str, cycles: dict[str, RunCycle], cycle: RunCycle) -> list[str]:
    """What is likely a slip in a run cycle, in sentences."""
    now = stream_state.Known(is_whole=True)
    now.bounds, now.in_force, now.sizes = world.bounds, world.in_force, world.sizes
    now.defined = dataclasses.replace(found, run_cycles={**found.run_cycles, app: cycles})
    return [f"Likely a mistake: {text}." for _, _, text in lint_checks.run_cycle_checks(now, app, cycle)]
