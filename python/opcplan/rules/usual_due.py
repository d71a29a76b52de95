"""When a run that was added by hand is usually due: by the run cycles of its application.

By the rules it is due a day after it arrives, however its application is planned. Its usual deadline is that of the run
cycle whose time of the day is nearest to its arrival, on whichever day: of 20.00, due 22.00, a run at 23.00 and one at
02.00 of the next day are usually due at the 22.00 before. Of two that are as near, the earlier deadline counts. Run
cycles that exclude, and those that are in effect for one day only, don't count."""

from __future__ import annotations

from typing import TYPE_CHECKING

from opcplan.rules import moments

if TYPE_CHECKING:
    from opcplan.rules.definitions import Definitions, RunCycle

DAY = moments.DAY


def of_run(defined: Definitions, app: str, ia: int) -> int | None:
    """The usual deadline of a run of an application that arrives at a moment, or None."""
    found = [one for cycle in defined.run_cycles.get(app, {}).values() if counts(cycle, ia // DAY)
             for one in near(cycle, ia)]
    return min(found)[1] if found else None


def counts(cycle: RunCycle, day: int) -> bool:
    """Whether a run cycle says when runs around a day are usually due."""
    if cycle.excludes or cycle.due is None or cycle.out_effect == cycle.in_effect + 1:
        return False
    return cycle.in_effect <= day and (cycle.out_effect is None or day < cycle.out_effect)


def near(cycle: RunCycle, ia: int) -> list[tuple[int, int]]:
    """How far a run cycle's time of the day is from a moment, on the days around it, and the deadline of each."""
    assert cycle.due is not None, "it has one"
    day, found = ia // DAY, []
    for one in (day - 1, day, day + 1):
        found.append((abs(one * DAY + cycle.time - ia), (one + cycle.due.days) * DAY + cycle.due.minute))
    return found


def text(deadline: int, ia: int) -> str:
    """A deadline, with its day if that isn't the day of the arrival."""
    is_same = deadline // DAY == ia // DAY
    return moments.minute_text(deadline % DAY) if is_same else moments.moment_text(deadline)
