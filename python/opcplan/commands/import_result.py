"""What a file gives to a plan, and what is said of it: sentences on what is taken, and on what is left out."""

from typing import NamedTuple

from opcplan.commands.crontab import Line
from opcplan.edits.changes import Change


class Days(NamedTuple):
    """The days of a file, each True for a work day."""

    days: dict[int, bool]
    sentences: list[str]
    left: list[str]


class Changes(NamedTuple):
    """The changes of definitions that a file makes, and of a crontab by application the line that it runs."""

    changes: list[Change]
    sentences: list[str]
    left: list[str]
    lines: dict[str, Line] = {}
