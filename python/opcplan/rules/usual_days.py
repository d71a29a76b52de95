"""What a usual day of a weekday has, and what is unusual of one day.

A usual day has the runs that more than half of the other days of that weekday have, in the weeks before and after."""

from collections import Counter
from collections.abc import Collection, Mapping
from typing import NamedTuple

WEEKS = 4  # before the day, and so many after it
LEAST = 3  # of fewer days nothing is said

Run = tuple[int, str]  # the minute of the day, and the application


class Unusual(NamedTuple):
    """The runs that a usual day has and a day lacks, and those that it has and a usual day lacks, in order; of each, on
    how many of the other days it is."""

    lacks: dict[Run, int]
    has: dict[Run, int]


def others_of(day: int, first: int, last: int) -> list[int]:
    """The other days of a day's weekday, in the weeks before and after, that are in a span of days."""
    days = [day + 7 * week for week in range(-WEEKS, WEEKS + 1) if week]
    return [other for other in days if first <= other <= last]


def unusual(runs: Collection[Run], others: Mapping[int, Collection[Run]]) -> Unusual | None:
    """What is unusual of a day with these runs beside others, each with its own; None where these are too few."""
    if len(others) < LEAST:
        return None
    counts = Counter(run for found in others.values() for run in set(found))
    lacks = {run: count for run, count in sorted(counts.items()) if 2 * count > len(others) and run not in runs}
    has = {run: counts[run] for run in sorted(set(runs)) if 2 * counts[run] <= len(others)}
    return Unusual(lacks, has)
