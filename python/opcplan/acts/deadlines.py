"""The deadline that a moved run keeps. No I/O."""

from opcplan.plans.waits import Row
from opcplan.rules import moments


def kept(row: Row, ia: int) -> int:
    """The deadline of a row that is moved to a moment: at the same time, as many days later as the row is moved."""
    return row.deadline + (ia // moments.DAY - row.ia // moments.DAY) * moments.DAY


def first_at(minute: int, moment: int) -> int:
    """The first moment at a minute of the day, at or after another moment."""
    return moment + (minute - moment) % moments.DAY
