"""What an export has by a desk's journal: when occurrences ran, how late they ended, when they are expected to end."""

from __future__ import annotations

import datetime
from typing import TYPE_CHECKING, NamedTuple

from opcplan.plans import actual, forecast, waits
from opcplan.plans.actual import Actual
from opcplan.plans.forecast import Expected
from opcplan.plans.plan_file import Plan
from opcplan.rules import moments

if TYPE_CHECKING:
    from opcplan.commands.export import Occurrence


class ActualColumns(NamedTuple):
    """What the columns show of an occurrence, None where there is nothing to show."""

    started: str | None
    ended: str | None
    seconds: float | None
    seconds_late: int | None
    runs: int
    expected_end: str | None
    expected_or_later: bool | None


COLUMNS = list(ActualColumns._fields)


class Ran:
    """What is known and expected of the occurrences of a plan."""

    def __init__(self, known: Actual, found: dict[int, Expected]) -> None:
        self.known, self.found = known, found

    @property
    def durations(self) -> dict[str, dict[str, float]]:
        """Of each application what its last whole runs took."""
        return {app: {"middle_seconds": usual.middle, "worst_seconds": usual.worst, "runs": usual.count}
                for app, usual in sorted(self.known.usual.items())}

    def values(self, one: Occurrence, between: str) -> ActualColumns:
        """What the columns show of an occurrence."""
        runs = self.known.runs.get(one.serial, [])
        started, ended = self.known.started(one.serial), self.known.ended(one.serial)
        past = None if ended is None else max(0, round(actual.local(ended) - one.deadline * 60))
        expected = self.found.get(one.serial)
        return ActualColumns(iso(started, between), iso(ended, between), runs[-1].seconds if runs else None, past,
                             len(runs),
                             expected and iso_minute(expected.end_moment, between), expected and expected.is_least)

    def text(self, one: Occurrence) -> str:
        """The same in words, each on a line of its own."""
        started, ended, _, past, _, expected, is_least = self.values(one, " ")
        late_by = f", late by {actual.length_text(past)}" if past else ""
        parts = [started and f"started {started}", ended and f"ended {ended}{late_by}",
                 expected and f"expected to end {'not before ' if is_least else ''}{expected}"]
        return "".join(f"\n{text}" for text in parts if text)


def iso(seconds: float | None, between: str) -> str | None:
    """When something happened, by ISO 8601, local and without a zone; None where nothing did."""
    return None if seconds is None else datetime.datetime.fromtimestamp(int(seconds)).isoformat(between)


def iso_minute(moment: int, between: str) -> str:
    """A moment of the plan by ISO 8601."""
    return (moments.EPOCH + datetime.timedelta(minutes=moment)).isoformat(between, "minutes")


def of_journal(path: str, plan: Plan, now: int | None) -> Ran:
    """What a journal has of a plan, and what is expected at a moment (else now). Raises Unreadable."""
    known = actual.of_journal(path, plan)
    assert known is not None, "a journal is named"
    rows, pairs = waits.unfinished(plan)
    return Ran(known, forecast.of_rows(rows, pairs, known, moments.now() if now is None else now))
