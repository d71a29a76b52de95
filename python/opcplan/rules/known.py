"""What has to be known at a place of a job stream, so that it can be checked and its refusals explained.

The commands that have a plan at hand know more than those that have a stream alone (plans/stream_state.py)."""

from collections.abc import Mapping
from typing import NamedTuple, Protocol

from opcplan.rules.definitions import Definitions
from opcplan.rules.record_fields import Key
from opcplan.rules.statement_words import Statement
from opcplan.rules.stream import Item

Lines = dict[tuple[str, str | None], dict[Key, int]]  # by kind and name: by the names of a record its line


class PlanBounds(NamedTuple):
    """The first and the last day of the long-term plan, and the moment at which the current plan ends."""

    first_day: int
    last_day: int
    plan_end: int


class Sizes(NamedTuple):
    """How many rows both plans have, and how many serials were given."""

    rows: int
    serials: int


class Known(Protocol):
    """What is known before a statement: definitions, jobs, bounds, and where occurrences are."""

    is_whole: bool
    defined: Definitions
    lines: Lines
    gone: dict[tuple[str, str], int]
    jobs: dict[int, int]
    bounds: PlanBounds | None
    created: int | None
    sizes: Sizes | None

    def is_repeated(self, item: Item) -> bool:
        """Whether the job of a statement was asked before, so that it isn't done again."""

    def place_of(self, app: str, ia: int) -> str | None:
        """Where the occurrence of a key is, a letter of statuses.WHERE; nothing where there never was one."""

    def key_of(self, serial: int) -> str | None:
        """Application and arrival of a serial, in words, or None."""

    def times_of(self, app: str, day: int) -> list[tuple[int, str | None]]:
        """When an application arrives on a day, and where that is."""

    def lists_after(self, statement: Statement) -> Mapping[str, Mapping[str, int | None]]:
        """The lists in force as they would be after a statement, or its trial."""

    def end_by(self, number: int, count: str) -> int:
        """The plan end that a number of days gives."""

    def line_of(self, kind: str, *names: str) -> int | None:
        """The line of a record, or None."""

    def where(self, kind: str, *names: str) -> str:
        """Where a record was given: `line 7`, or in the plan."""

    def take(self, item: Item, reply: str = "ok") -> None:
        """Takes a statement and what it was answered."""

    def see(self, line: str) -> None:
        """Takes a row that a listing or a trial shows."""
