"""How a plan is extended by itself: how far it has to reach at a moment, and by which statements. It has no clock.

What always holds of `steps` (tests/test_rolling.py tries all small plans):

- Each statement is accepted in its place, if the definitions are in order: an extension ends later than the plan
  before it, within the long-term plan, and within the hours that one extension may have.
- After all of them nothing is due at that moment. The current plan ends at the first of the named times at which it
  is as far ahead as the rule says, and the long-term plan at the end of a month.
- Nothing is done before it is due, and the statements do no more than is due."""

import calendar
import datetime
from collections.abc import Iterator, Sequence
from typing import NamedTuple

from opcplan.rules import moments
from opcplan.rules.moments import DAY, EPOCH

# of one `ltp-extend`: days from that of the plan end to the new last day, and the last day that a plan may get
LONGEST_WINDOW = 1461
LAST_PLANNING_DAY = (datetime.date(2065, 12, 31) - EPOCH.date()).days


class Reach(NamedTuple):
    """How far a plan reaches: the moment at which the current plan ends, the last day of the long-term plan, and the
    hours that one extension may have."""

    end: int
    last_day: int
    most_hours: int


class Rule(NamedTuple):
    """How far it has to reach: minutes from now, the minutes of the day at which a daily plan may end (none: that at
    which it ends already), and how many days of the long-term plan have to be left."""

    ahead: int
    times: tuple[int, ...]
    reserve: int


class Step(NamedTuple):
    """A statement without its job number, and how far the plan reaches after it."""

    text: str
    reach: Reach

    @property
    def is_daily(self) -> bool:
        """Whether it is one on the current plan."""
        return self.text.startswith("dp-")


def is_due(reach: Reach, rule: Rule, now: int) -> bool:
    """Whether the plan has to be extended."""
    return reach.end < now + rule.ahead or reach.last_day < day_wanted(reach, rule, now)


def end_wanted(reach: Reach, rule: Rule, now: int) -> int:
    """The moment at which the current plan has to end, or may end as it is."""
    if reach.end >= now + rule.ahead:
        return reach.end
    return min(first_at(now + rule.ahead, minute) for minute in rule.times or (reach.end % DAY,))


def first_at(moment: int, minute: int) -> int:
    """The first moment from one on that has a minute of the day."""
    return moment + (minute - moment) % DAY


def day_wanted(reach: Reach, rule: Rule, now: int) -> int:
    """The day up to which the long-term plan has to go at least."""
    wanted = max(now // DAY + rule.reserve - 1, (end_wanted(reach, rule, now) - 1) // DAY)
    return min(wanted, LAST_PLANNING_DAY)


def month_end(day: int) -> int:
    """The last day of a day's month, or the last one that a plan may get."""
    date = EPOCH.date() + datetime.timedelta(days=day)
    return min(day + calendar.monthrange(date.year, date.month)[1] - date.day, LAST_PLANNING_DAY)


def steps(reach: Reach, rule: Rule, now: int) -> Iterator[Step]:
    """The statements that are due at a moment, in their order, as far as any is possible."""
    end, wanted = end_wanted(reach, rule, now), day_wanted(reach, rule, now)
    times = rule.times or (reach.end % DAY,)
    while step := next_step(reach, times, end, wanted):
        yield step
        reach = step.reach


def next_step(reach: Reach, times: Sequence[int], end: int, wanted: int) -> Step | None:
    """The next statement towards an end of the current plan and a day of the long-term one, None where there is none.
    The long-term plan comes first, unless one statement can't extend it as far as is wanted."""
    longer = longer_plan(reach, wanted) if reach.last_day < wanted else None
    if longer is not None and longer.reach.last_day >= wanted:
        return longer
    return (daily_plan(reach, times, end) if reach.end < end else None) or longer


def longer_plan(reach: Reach, wanted: int) -> Step | None:
    """The extension of the long-term plan to the end of the month of a day, or as near as one statement may go."""
    day = min(month_end(wanted), reach.end // DAY + LONGEST_WINDOW)
    if day <= reach.last_day:
        return None
    return Step(f"ltp-extend --to {moments.day_text(day)}", reach._replace(last_day=day))


def daily_plan(reach: Reach, times: Sequence[int], end: int) -> Step | None:
    """The extension of the current plan to a moment, or else to the last of the named times that one statement can
    reach, or else as near as it may go."""
    most = min(end, reach.end + reach.most_hours * 60, (reach.last_day + 1) * DAY)
    if most <= reach.end:
        return None
    last = max(most - (most - minute) % DAY for minute in times)
    to = most if most == end or last <= reach.end else last
    return Step(f"dp-extend --to {moments.moment_word(to)}", reach._replace(end=to))
