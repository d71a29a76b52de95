"""The types of the page's data: one value of JSON, whose parts its scripts know by these names and places."""

from typing import NamedTuple, NotRequired, TypedDict

Limits = list[int | None]  # hours


class Job(NamedTuple):
    """A job: its number, its statement, and its reply."""

    number: int
    statement: str
    reply: str


class Difference(NamedTuple):
    """An occurrence that is new, has moved, or has another deadline; `was` is its place before, '' if it is new."""

    serial: int
    was: str
    place: str
    app: str
    ia: int
    was_due: int
    due: int


class Redefinition(NamedTuple):
    """A changed definition: its kind, its name, and whether it is new, gone or changed."""

    what: str
    name: str
    how: str


class App(NamedTuple):
    """An application: its name, 1 for active, 0 for pending, -1 if it isn't defined; its calendar's place, its run
    cycles."""

    name: str
    status: int
    calendar: int
    cycles: list[list[object]]


class Calendar(NamedTuple):
    """A calendar: its name, whether it is defined, and for each day from the first to the last 1 for a work day, else
    0."""

    name: str
    is_defined: bool
    days: str


class Definitions(TypedDict):
    """The definitions: lists of predecessors by the applications' places, with their limits."""

    apps: list[App]
    calendars: list[Calendar]
    lists: list[list[int | str]]
    limits: list[Limits]


class Rows(TypedDict):
    """The rows as columns of small numbers."""

    serial: list[int]
    app: list[int]
    arrival: list[int]
    due: list[int]
    cycle: list[int]
    pairs: list[int]
    roots: list[int]


class Since(TypedDict):
    """What changed since an older copy: the first differences, and how many there are in all."""

    file: str
    kept: str
    rows: list[Difference]
    count: int
    definitions: list[Redefinition]


class Ran(TypedDict):
    """What a desk's journal shows: of rows by place, and of applications' run times by number."""

    runs: dict[int, list[list[object]]]
    usual: dict[int, list[float]]
    expected: dict[int, list[int]]
    going: list[int]
    ended: list[list[float]]
    hours: int
    chain: list[int]


class Needs(TypedDict):
    """What needs a person, as `needs.need.Found.values` has it; `lacks` says why no journal could be read, empty if one
    could."""

    needs: list[dict[str, object]]
    followers: dict[str, str]
    is_whole: bool
    lacks: str


class Data(Definitions):
    """All data of the page. A complete value also has the last five, but the live page gets its needs from its
    desk."""

    file: str
    now: int
    first: int
    last: int
    plan: dict[str, int | str | bool]
    cycles: list[str]
    rows: Rows
    state: str
    marks: str
    jobs: list[Job]
    jobCount: int
    since: Since | None
    actual: NotRequired[Ran | None]
    needs: NotRequired[Needs]
    made: NotRequired[int]
    sample: NotRequired[bool]
    note: NotRequired[str]
