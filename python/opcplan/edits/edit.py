"""An edit: words such as `calendar DEFAULT 2027-12-24 free`, turned into a change of definitions. No I/O.

`./plan edit`, a desk and the library read the same words (docs/use/EDITS.md)."""

from collections.abc import Callable, Sequence
from typing import Any, NamedTuple

from opcplan.acts.world import World
from opcplan.edits import applications, calendars, options, periods, predecessors, run_cycles, wholes
from opcplan.edits.changes import Change, ChangeRefused
from opcplan.rules.definitions import Definitions
from opcplan.rules.naming_words import meant_text


class Kind(NamedTuple):
    """A kind of edit: how its words are read, how they become a change, and what it needs in words."""

    read: Callable[[Sequence[str]], Any]
    change: Callable[[World, Definitions, Any], Change]
    names: tuple[str, ...]


KINDS = {
    "calendar": Kind(calendars.read, calendars.change, ("the calendar", "what changes")),
    "period": Kind(periods.read, periods.change, ("the period", "what changes")),
    "application": Kind(applications.read, applications.change, ("the application", "what changes")),
    "run-cycle": Kind(run_cycles.read, run_cycles.change, ("its application", "the run cycle", "what changes")),
    "predecessor": Kind(predecessors.read, predecessors.change, ("the application that waits", "`add` or `remove`",
                                                                 "the application that it waits for")),
    "options": Kind(options.read, options.change, ("KEY=VALUE",)),
}


class Edit(NamedTuple):
    """The words of an edit, once they are read: the kind, and its settings."""

    what: str
    settings: Any


def read(typed: Sequence[str]) -> Edit:
    """The edit of words, the first of which is its kind. Raises ChangeRefused."""
    what, *more = typed or [""]
    kind = KINDS.get(what)
    if kind is None:
        raise ChangeRefused(f"there is no edit {what[:40]!r}{meant_text(what, KINDS)}; it begins with one of "
                            f"{', '.join(KINDS)}", 2)
    if len(more) < len(kind.names):
        raise ChangeRefused(f"`{what}` lacks {kind.names[len(more)]}", 2)
    return Edit(what, wholes.read(what, more) or kind.read(more))


def change_of(world: World, wanted: Edit) -> Change:
    """The change that an edit makes in a world. Raises ChangeRefused."""
    if isinstance(wanted.settings, wholes.Whole):
        return wholes.change(world, world.defined, wanted.settings)
    return KINDS[wanted.what].change(world, world.defined, wanted.settings)
