"""Edits of a whole definition: removed, renamed, or made like another one, with each place that names it.

What is new is defined first, then what names it, and the old name goes last: a stream that stops in between leaves a
plan in which nothing names what isn't defined. No I/O."""

import dataclasses
from collections.abc import Callable, Iterable, Mapping, Sequence
from typing import Any

from opcplan.acts.world import World
from opcplan.edits import applications, periods, run_cycles, words
from opcplan.edits.changes import Change, ChangeRefused
from opcplan.rules import loops
from opcplan.rules.definitions import Application, Definitions, RunCycle
from opcplan.rules.naming_words import count_text, few, meant_text

REMOVE, RENAME, LIKE = "remove", "rename", "like"
Limits = Mapping[str, int | None]


@dataclasses.dataclass(frozen=True)
class Whole:
    """What is done with a definition: its kind and name (of a run cycle that of its application too), the verb, the
    other name, and fields that are different in what is like another."""

    what: str
    name: str
    app: str
    verb: str
    other: str = ""
    pairs: Sequence[tuple[str, str]] = ()


def read(what: str, typed: Sequence[str]) -> Whole | None:
    """What words ask of a whole definition, or None where they are about a part of it. Raises ChangeRefused."""
    names = 2 if what == "run-cycle" else 1
    if what not in MADE or len(typed) <= names:
        return None
    verb, more = typed[names].lower(), typed[names + 1:]
    if verb not in (REMOVE, RENAME, LIKE) or (what, verb) == ("period", REMOVE) and more:
        return None
    app = words.name(typed[0]) if names == 2 else ""
    read_name = words.name if what in ("application", "calendar") else words.short_name
    name = read_name(typed[names - 1])
    if verb == REMOVE:
        if more:
            raise ChangeRefused(f"`remove` takes no further word, but {more[0]!r} is one", 2)
        return Whole(what, name, app, verb)
    takes_fields = (what, verb) == ("run-cycle", LIKE)
    if not more or len(more) > 1 and not takes_fields:
        raise ChangeRefused(f"`{verb}` needs one name: `{verb} {'NEW' if verb == RENAME else 'OTHER'}`", 2)
    others = more[0].split("/") if takes_fields else [more[0]]
    other = "/".join([*map(words.name, others[:-1]), read_name(others[-1])])
    pairs = [words.pair(word) for word in more[1:]]
    if len(others) > 2:
        raise ChangeRefused(f"{more[0]!r} is not a run cycle: give OTHER, or APP/OTHER where it is another "
                            "application's", 2)
    return Whole(what, name, app, verb, other, pairs)


def change(world: World, found: Definitions, given: Whole) -> Change:
    """The change that is asked for."""
    return MADE[given.what](world, found, given)


def together(sentences: Iterable[str], *changes: Change) -> Change:
    """Several changes as one, in their order; of those that define nothing, none."""
    first, *also = [one for one in changes if one.after]
    first.sentences, first.also = list(sentences), also
    return first


def ask_there(what: str, name: str, known: Mapping[str, Any]) -> None:
    """Asks that there is a definition."""
    if name not in known:
        raise ChangeRefused(words.lack(what, name, known))


def ask_free(what: str, name: str, known: Iterable[str]) -> None:
    """Asks that a name is free."""
    if name in known:
        raise ChangeRefused(f"there is {'an' if what[0] in 'aeiou' else 'a'} {what} {name} already")


# Applications.


def of_application(world: World, found: Definitions, given: Whole) -> Change:
    """An application, with its run cycles, its list of predecessors, and the lists that have it."""
    if given.verb == LIKE:
        ask_there("application", given.other, found.applications)
        ask_new_application(found, given.name)
        return application_like(found, given.name, given.other)
    ask_there("application", given.name, found.applications)
    if given.verb == REMOVE:
        return application_removed(world, found, given.name)
    ask_new_application(found, given.other)
    if users := [app for app, listed in found.predecessors.items() if given.other in listed]:
        raise ChangeRefused(f"{few(users)} {'waits' if len(users) == 1 else 'wait'} for {given.other} already, which "
                            f"isn't defined; `predecessor {users[0]} remove {given.other}` goes first")
    return application_renamed(world, found, given.name, given.other)


def ask_new_application(found: Definitions, name: str) -> None:
    """Asks that a name is that of no application, and of no run cycles and no list that lack one."""
    ask_free("application", name, found.applications)
    for what, is_there in (("run cycles", name in found.run_cycles),
                           ("a list of predecessors", name in found.predecessors)):
        if is_there:
            raise ChangeRefused(f"{name} has {what} already, though it isn't defined as an application; "
                                f"`application {name} new` defines it")


def renamed_list(listed: Limits, old: str, new: str) -> dict[str, int | None]:
    """A list with another name in place of one."""
    return dict(sorted((new if name == old else name, hours) for name, hours in listed.items()))


def waiting(found: Definitions, app: str) -> list[str]:
    """The other applications in whose lists one is."""
    return [name for name, listed in found.predecessors.items() if app in listed and name != app]


def parts_text(found: Definitions, app: str) -> str:
    """The run cycles of an application and its list, in words."""
    cycles, listed = found.run_cycles.get(app, {}), found.predecessors.get(app, {})
    return f"{f'run cycles {few(cycles)}' if cycles else 'no run cycles'}, " \
        f"and {f'waits for {few(listed)}' if listed else 'waits for nothing'}"


def application_removed(world: World, found: Definitions, app: str) -> Change:
    """The change that takes an application away."""
    users = waiting(found, app)
    left = {name: {other: hours for other, hours in found.predecessors[name].items() if other != app} or None
            for name in users}
    sentences = [f"{app} goes. It has {parts_text(found, app)}."]
    sentences += [f"{few(users)} no longer {'waits' if len(users) == 1 else 'wait'} for it."] if users else \
        ["No other application waits for it."]
    lists: dict[str, Any] = {**left, **({app: None} if app in found.predecessors else {})}
    return together(
        [*sentences, *rows_sentences(world, app, ("is withdrawn", "are withdrawn")), *jobs_sentence(app)],
        Change("predecessors", lists, []),
        Change("run-cycles", {app: None} if app in found.run_cycles else {}, []),
        Change("applications", {app: None}, []))


def application_renamed(world: World, found: Definitions, old: str, new: str) -> Change:
    """The change that gives an application another name."""
    users = waiting(found, old)
    own = [old] if old in found.predecessors else []
    lists = {new if name == old else name: renamed_list(found.predecessors[name], old, new) for name in [*own, *users]}
    sentences = [f"{old} is called {new} then. It has {parts_text(found, old)}; all of it goes with it."]
    sentences += [f"{few(users)} {'waits' if len(users) == 1 else 'wait'} for {new} then."] if users else \
        ["No other application waits for it."]
    return together(
        [*sentences, *rows_sentences(world, old, (f"comes again as {new}", f"come again as {new}"), True),
         *jobs_sentence(old)],
        Change("applications", {new: found.applications[old]}, []),
        Change("run-cycles", {new: found.run_cycles[old]} if old in found.run_cycles else {}, []),
        Change("predecessors", dict(lists), []),
        Change("predecessors", {name: None for name in own}, []),
        Change("run-cycles", {old: None} if old in found.run_cycles else {}, []),
        Change("applications", {old: None}, []))


def application_like(found: Definitions, app: str, other: str) -> Change:
    """The change that makes an application with the calendar, the run cycles and the list of another one."""
    made, cycles = found.applications[other], found.run_cycles.get(other, {})
    listed = renamed_list(found.predecessors.get(other, {}), other, app)
    after = dataclasses.replace(
        found, applications={**found.applications, app: made}, run_cycles={**found.run_cycles, app: cycles},
        predecessors={**found.predecessors, app: listed})
    applications.ask_plannable(after, app, made)
    if ring := loops.ring_of(after.predecessors, app):
        raise ChangeRefused(f"that makes a loop, {' waits for '.join(ring)}, so planning statements would be refused "
                            "(25)")
    users = waiting(found, other)
    sentences = [f"{app} is new, like {other}: {applications.status_text(made)}, "
                 f"{applications.calendar_text(found, made)}. It has {parts_text(after, app)}."]
    sentences += [f"{few(users)} {'waits' if len(users) == 1 else 'wait'} for {other}, and not for {app}; `./plan edit "
                  f"PLAN.db predecessor {users[0]} add {app}` lets {users[0]} wait for it too."] if users else []
    return together(
        sentences, Change("applications", {app: made}, [], app, made.is_active),
        Change("run-cycles", {app: cycles} if cycles else {}, [], app, made.is_active),
        Change("predecessors", {app: listed} if listed else {}, [], app, made.is_active))


def rows_sentences(world: World, app: str, become: tuple[str, str], is_again: bool = False) -> list[str]:
    """What becomes of the occurrences of an application whose name goes, in sentences: `become` says it of one and of
    several; `is_again` is where another name has them."""
    end = 0 if world.bounds is None else world.bounds.plan_end
    rows = world.rows(app).values()
    named = sum(row.place == "L" and row.cycle is not None for row in rows)
    added = sum(row.place == "L" and row.cycle is None for row in rows)
    current = sum(row.place in "WSE" for row in rows)
    deleted = sum(row.place == "o" and row.ia >= end for row in rows)
    said = []
    if named:
        said.append(f"{count_text(named, 'occurrence')} of its run cycles in the long-term plan {become[named != 1]}")
    said += [f"{count_text(added, 'occurrence')} that somebody added to the long-term plan "
             f"{'stays' if added == 1 else 'stay'} as {app}; `ltp-delete` deletes"] if added else []
    said += [f"{count_text(current, 'occurrence')} in the current plan {'isn' if current == 1 else 'aren'}'t complete "
             f"and {'stays' if current == 1 else 'stay'} as {app}"] if current else []
    said += [f"{count_text(deleted, 'occurrence')} of {app} that an operator deleted {become[deleted != 1]}"] \
        if deleted and is_again else []
    return [f"{text[0].upper()}{text[1:]}." for text in said]


def jobs_sentence(app: str) -> list[str]:
    """That an agent has jobs by the name of an application, in a sentence."""
    return [f"An agent that runs its jobs has them by name: see `jobs.toml` and the folder of jobs for {app}."]


# Run cycles.


def of_run_cycle(world: World, found: Definitions, given: Whole) -> Change:
    """A run cycle of an application."""
    app, name = given.app, given.name
    cycles = found.run_cycles.get(app, {})
    if app not in found.applications and not cycles:
        raise ChangeRefused(f"there is no application {app}{meant_text(app, found.applications)}")
    if given.verb == LIKE:
        return run_cycle_like(world, found, given)
    if name not in cycles:
        raise ChangeRefused(f"there is no run cycle {name} of {app}{meant_text(name, cycles)}; it has "
                            f"{few(cycles) or 'none'}")
    left = {other: cycle for other, cycle in cycles.items() if other != name}
    if given.verb == REMOVE:
        sentences = [f"The run cycle {name} of {app} goes.",
                     f"Its other run cycles stay: {few(left)}." if left else
                     f"{app} has no run cycle then, so no day is named."]
        return cycles_change(found, app, left, sentences)
    ask_free(f"run cycle of {app}", given.other, cycles)
    after = in_order({**left, given.other: dataclasses.replace(cycles[name], name=given.other)})
    sentences = [f"The run cycle {name} of {app} is called {given.other} then; nothing else of it changes.",
                 *first_sentences(cycles, name, given.other)]
    return cycles_change(found, app, after, sentences)


def in_order(cycles: Mapping[str, RunCycle]) -> dict[str, RunCycle]:
    """Run cycles in the order of their names."""
    return dict(sorted(cycles.items()))


def run_cycle_like(world: World, found: Definitions, given: Whole) -> Change:
    """The change that gives an application a run cycle like another one, with other values of some fields."""
    app, name, cycles = given.app, given.name, found.run_cycles.get(given.app, {})
    other_app, _, other = given.other.rpartition("/")
    others = found.run_cycles.get(other_app or app, {})
    if other not in others:
        raise ChangeRefused(f"there is no run cycle {other} of {other_app or app}{meant_text(other, others)}; it has "
                            f"{few(others) or 'none'}")
    ask_free(f"run cycle of {app}", name, cycles)
    fields = run_cycles.fields_of(app, others[other])
    wanted = run_cycles.wanted_fields(given.pairs)
    made = run_cycles.cycle_of({**fields, **wanted, "name": name})
    if made.period not in found.periods:
        raise ChangeRefused(words.lack("period", made.period, found.periods))
    after = in_order({**cycles, name: made})
    differs = ", ".join(f"{key} {value or 'none'}" for key, value in wanted.items())
    of = f" of {other_app}" if other_app else ""
    sentences = [f"{name} of {app} is new, like {other}{of}{f', but for {differs}' if differs else ''}.",
                 *([f"Its other run cycles stay: {few(cycles)}."] if cycles else []),
                 *run_cycles.slips(world, found, app, after, made)]
    return cycles_change(found, app, after, sentences)


def cycles_change(found: Definitions, app: str, cycles: dict[str, RunCycle], sentences: list[str]) -> Change:
    """The change that gives an application these run cycles alone."""
    is_active = app in found.applications and found.applications[app].is_active
    if not is_active:
        sentences = [*sentences, f"{app} isn't an active application, so none of it is planned."]
    return Change("run-cycles", {app: cycles or None}, sentences, app if is_active else None, is_active)


def first_sentences(cycles: Mapping[str, RunCycle], old: str, new: str) -> list[str]:
    """That another name changes which run cycle counts where several name one day and time, in a sentence."""
    cycle = cycles[old]
    turned = [name for name, other in cycles.items() if other.time == cycle.time and name != old
              and not other.excludes and (name < old) != (name < new)]
    if not turned or cycle.excludes:
        return []
    place = "after" if new > old else "before"
    return [f"Where run cycles name one day and time, the first by name gives the deadline: {new} is {place} "
            f"{few(turned)}, and {old} wasn't."]


# Calendars and periods.


def of_calendar(world: World, found: Definitions, given: Whole) -> Change:
    """A calendar, with the applications and the option that name it."""
    users = {app: defined for app, defined in found.applications.items() if defined.calendar == given.name}
    if given.verb == LIKE:
        ask_there("calendar", given.other, found.calendars)
        ask_free("calendar", given.name, found.calendars)
        held = found.calendars[given.other]
        listed = f"{count_text(len(held.weekdays), 'weekday')} and {count_text(len(held.dates), 'day')}"
        going = [f"{few(users)} {'names' if len(users) == 1 else 'name'} it already."] if users else \
            [f"`./plan edit PLAN.db application APP calendar={given.name}` lets an application use it."]
        return Change("calendars", {given.name: held}, [f"{given.name} is new, like {given.other}: it lists {listed}.",
                                                        *going], None, bool(users))
    ask_there("calendar", given.name, found.calendars)
    is_default = given.name == found.default_calendar
    if given.verb == REMOVE:
        if is_default:
            raise ChangeRefused(f"{given.name} is the default calendar; `./plan edit PLAN.db options "
                                "default_calendar=OTHER` makes another one the default first")
        if users:
            one = next(iter(users))
            raise ChangeRefused(f"{few(users)} {'uses' if len(users) == 1 else 'use'} {given.name}; `./plan edit "
                                f"PLAN.db application {one} calendar=OTHER` gives {one} another one")
        return Change("calendars", {given.name: None}, [f"{given.name} goes. No application uses it."], None, False)
    ask_free("calendar", given.other, found.calendars)
    if strange := [app for app, one in found.applications.items() if one.calendar == given.other]:
        raise ChangeRefused(f"{few(strange)} {'names' if len(strange) == 1 else 'name'} {given.other} already, which "
                            "isn't defined")
    options = {"default_calendar": given.other, "max_extension_hours": found.max_hours} if is_default else {}
    sentences = [f"{given.name} is called {given.other} then; what it lists stays, and so does each plan.",
                 f"{few(users)} {'names' if len(users) == 1 else 'name'} it so then." if users
                 else "No application names it.",
                 *([f"The options name it as the default calendar, as {given.other} then."] if is_default else [])]
    return together(
        sentences, Change("calendars", {given.other: found.calendars[given.name]}, [], None, False),
        Change("applications", {app: Application(one.is_active, given.other) for app, one in users.items()}, [], None,
               False),
        Change("options", options, [], None, False), Change("calendars", {given.name: None}, [], None, False))


def of_period(world: World, found: Definitions, given: Whole) -> Change:
    """A period, with the run cycles that count in it."""
    users = [(app, cycle.name) for app, cycles in found.run_cycles.items() for cycle in cycles.values()
             if cycle.period == given.name]
    shown = few(f"{cycle} of {app}" for app, cycle in users)
    if given.verb == LIKE:
        ask_there("period", given.other, found.periods)
        ask_free("period", given.name, found.periods)
        text = periods.period_text(found.periods[given.other])
        return Change("periods", {given.name: found.periods[given.other]}, [
            f"{given.name} is new, like {given.other}: {text}.",
            f"Run cycles that count in it already: {shown}." if users else
            f"`./plan edit PLAN.db run-cycle APP NAME period={given.name}` counts in it."], None, bool(users))
    ask_there("period", given.name, found.periods)
    if given.verb == REMOVE:
        if users:
            raise ChangeRefused(f"{shown} {'counts' if len(users) == 1 else 'count'} in {given.name}; `./plan edit "
                                f"PLAN.db run-cycle {users[0][0]} {users[0][1]} period=OTHER` lets it count in another "
                                f"one, and `period {given.name} remove ORIGIN` removes one interval")
        return Change("periods", {given.name: None}, [f"{given.name} goes. No run cycle counts in it."], None, False)
    ask_free("period", given.other, found.periods)
    if strange := [f"{cycle.name} of {app}" for app, cycles in found.run_cycles.items() for cycle in cycles.values()
                   if cycle.period == given.other]:
        raise ChangeRefused(f"{few(strange)} {'names' if len(strange) == 1 else 'name'} {given.other} already, which "
                            "isn't defined")
    after = {app: {name: dataclasses.replace(cycle, period=given.other) if cycle.period == given.name else cycle
                   for name, cycle in found.run_cycles[app].items()} for app in dict.fromkeys(app for app, _ in users)}
    return together(
        [f"{given.name} is called {given.other} then; its intervals stay, and so does each plan.",
         f"Run cycles that count in it so then: {shown or 'none'}."],
        Change("periods", {given.other: found.periods[given.name]}, [], None, False),
        Change("run-cycles", dict(after), [], None, False), Change("periods", {given.name: None}, [], None, False))


MADE: dict[str, Callable[[World, Definitions, Whole], Change]] = {
    "application": of_application, "run-cycle": of_run_cycle, "calendar": of_calendar, "period": of_period}
