"""A change of definitions: what is defined then, what is told of it, and the statements that make it. No I/O."""

import dataclasses
from collections.abc import Callable, Iterable, Mapping, Sequence
from typing import Any

from opcplan.acts.steps import Step
from opcplan.errors import Error
from opcplan.rules import blocks, record_texts
from opcplan.rules.known import PlanBounds
from opcplan.rules.moments import moment_text


class ChangeRefused(Error):
    """Why a change isn't made; the exit status is 2 where the words are wrong."""

    def __init__(self, text: str, exit_status: int = 1) -> None:
        super().__init__(text)
        self.exit_status = exit_status


class Unsound(Error):
    """What no record can give: a plan whose rows somebody changed by hand may have it."""

    def __init__(self, text: str) -> None:
        super().__init__(f"its rows are no sound plan: {text}")


@dataclasses.dataclass
class Change:
    """What is defined then of one kind, by name as in definitions.py (None where it is taken away), and what is told:
    sentences on what changes and what doesn't. `one` is the application that alone is meant, `is_modified` whether
    a modification of the long-term plan takes the change into it, and `also` what is defined with it."""

    kind: str
    after: dict[str, Any]
    sentences: list[str]
    one: str | None = None
    is_modified: bool = True
    also: list["Change"] = dataclasses.field(default_factory=list)

    @property
    def all(self) -> list["Change"]:
        """It, and what is defined with it."""
        return [self, *self.also]


def steps_of(changes: Iterable[Change]) -> list[Step]:
    """The statements that make changes. Raises ChangeRefused and Unsound."""
    return [step for change in changes for step in steps_of_one(change)]


def steps_of_one(change: Change) -> list[Step]:
    """The statements of one change."""
    kept = {name: defined for name, defined in change.after.items() if defined is not None}
    found = [Step("undefine", name, None, change.kind) for name in change.after if name not in kept]
    if kept:
        try:
            found += [Step("define", "", None, change.kind, data) for data in data_of(change.kind, kept)]
        except record_texts.Unprintable as lacks:
            raise ChangeRefused(str(lacks)) from None
    return found


def data_of(kind: str, defined: dict[str, Any]) -> list[str]:
    """The data of the blocks that give definitions of one kind. They are read again: a plan whose rows somebody changed
    by hand may have what no record can give."""
    found = [options_text(defined)] if kind == "options" else record_texts.blocks_of(kind, records_of(kind, defined))
    read = [blocks.read(kind, data.encode()) for data in found]
    again = {name: value for block in read for name, value in block.defined.items()}
    if again != defined or any(block.fault for block in read):
        raise Unsound(f"no records can give these {kind}")
    return found


def records_of(kind: str, defined: dict[str, Any]) -> dict[str, list[str]]:
    """The records of each name."""
    makers: dict[str, Callable[[str, Any], list[str]]] = {
        "calendars": record_texts.calendar_records,
        "periods": record_texts.period_records,
        "applications": record_texts.application_records,
        "run-cycles": record_texts.run_cycle_records,
        "predecessors": record_texts.without_limits,
    }
    make = makers[kind]
    if kind == "predecessors" and any(within for listed in defined.values() for within in listed.values()):
        make = record_texts.with_limits
    return {name: make(name, value) for name, value in defined.items()}


def options_text(options: Mapping[str, object]) -> str:
    """The document of the options."""
    return "".join(f'{key} = {value}\n' if isinstance(value, int) else f'{key} = "{value}"\n'
                   for key, value in options.items())


def way_into(bounds: PlanBounds | None, changes: Sequence[Change], words: str = "") -> list[str]:
    """What takes changes into a plan, in sentences; `words` go on the lines of its statements."""
    if not any(change.is_modified for change in changes):
        return []
    if bounds is None:
        return ["There is no long-term plan yet; `ltp-create` will use this."]
    one = one_of(changes)
    alone = f", or `ltp-modify-one --app {one}{words}` for {one} only," if one else ""
    end = moment_text(bounds.plan_end)
    return [f"`ltp-modify-all{words}`{alone} puts it into the long-term plan from {end} on, where the current "
            "plan ends. What is in the current plan stays there."]


def one_of(changes: Sequence[Change]) -> str | None:
    """The application that changes are about, if it is one alone."""
    ones = {change.one for change in changes}
    return ones.pop() if len(ones) == 1 else None
