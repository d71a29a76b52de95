"""What an answer of naming.py says, in sentences."""

from __future__ import annotations

import difflib
from collections.abc import Iterable
from typing import TYPE_CHECKING

from opcplan.rules.definitions import WEEKDAYS, weekday_of
from opcplan.rules.moments import day_text

if TYPE_CHECKING:
    from opcplan.rules.definitions import Definitions, Interval, RunCycle
    from opcplan.rules.naming import Answer, Hit, Reason

RULES = {
    "1": "by rule 1 it goes to the work day before",
    "2": "by rule 2 it goes to the work day after",
    "3": "by rule 3 it stays where it is",
    "4": "by rule 4 it is left out",
}
SHOWN = 5  # of the names or days in one sentence
LONG = dict(zip(WEEKDAYS, "Monday Tuesday Wednesday Thursday Friday Saturday Sunday".split()))


def weekday_text(day: int) -> str:
    """`Monday 2024-01-01`."""
    return f"{LONG[WEEKDAYS[weekday_of(day)]]} {day_text(day)}"


def nth(number: int) -> str:
    """`1st`, `2nd`, `11th`."""
    ending = "th" if number % 100 in (11, 12, 13) else {1: "st", 2: "nd", 3: "rd"}.get(number % 10, "th")
    return f"{number}{ending}"


def place_text(number: int, what: str) -> str:
    """`the 3rd work day`, `the last day`, `the 2nd day from the end`."""
    if number > 0:
        return f"the {nth(number)} {what}"
    return f"the last {what}" if number == -1 else f"the {nth(-number)} {what} from the end"


def count_text(number: int, one: str, more: str | None = None) -> str:
    """`1 day`, `1,461 days`; `more` is the word for more than one, where it isn't the same with an s."""
    return f"{number:,} {one if number == 1 else more or one + 's'}"


def few(texts: Iterable[str], most: int = SHOWN) -> str:
    """The first of some texts, and how many more there are."""
    texts = list(texts)
    more = len(texts) - most
    return ", ".join(texts) if more < 2 else f"{', '.join(texts[:most])} and {more:,} more"


def meant_text(name: str, names: Iterable[str]) -> str:
    """` (did you mean NAME?)` where a known name is like one, else nothing."""
    found = difflib.get_close_matches(name, list(names), 1)
    return f" (did you mean {found[0]}?)" if found else ""


def entry_text(defined: Definitions, app: str, day: int) -> str:
    """What makes a day of an application a work day or a free one."""
    name = defined.calendar_name(app)
    calendar = defined.calendars.get(name)
    if calendar is None:
        return f"calendar {name} isn't defined, so each day is a work day"
    weekday = weekday_of(day)
    if day not in calendar.dates and weekday not in calendar.weekdays:
        return f"{name} doesn't list it"
    listed = day_text(day) if day in calendar.dates else f"{LONG[WEEKDAYS[weekday]]}s"
    return f"{name} lists {listed} as {'work days' if calendar.is_work(day) else 'free'}"


def interval_text(period: str, interval: Interval) -> str:
    """`WEEK's interval 2024-01-01 to 2024-01-07`."""
    first, last = interval
    to = " on, which has no end," if last is None else "" if first == last else f" to {day_text(last)}"
    return f"{period}'s interval {day_text(first)}{to}"


def reasons(defined: Definitions, app: str, day: int, answer: Answer) -> list[str]:
    """The sentences on what a run cycle says of a day: how it names it, or why it doesn't, the nearest reason first."""
    if answer.names:
        return [hit_text(defined, app, day, answer.cycle, hit) for hit in answer.hits]
    sentences = [reason_text(defined, app, day, answer.cycle, reason) for reason in answer.reasons]
    if answer.hits:
        sentences += ["else " + hit_text(defined, app, day, answer.cycle, hit) for hit in answer.hits]
    return sentences


def hit_text(defined: Definitions, app: str, day: int, cycle: RunCycle, hit: Hit) -> str:
    """How an offset names a day."""
    period = defined.periods[cycle.period]
    if hit.interval is None:
        place = place_text(hit.offset, "work day")
        each = f"of each {period.interval} work days" if period.interval > 1 else "of one work day at a time"
        since = f"from {day_text(period.origin)} on, by period {cycle.period}"
        return f"offset {hit.offset} names it: {place} {each} {since}"
    place = place_text(hit.offset, "work day" if cycle.rule == "E" else "day")
    where = f"{place} of {interval_text(cycle.period, hit.interval)}"
    if hit.raw == day:
        stays = cycle.rule == "3" and not defined.work_days(app).is_work(day)
        return f"offset {hit.offset} names it: {where}" + (f"; it is a free day, and {RULES['3']}" if stays else "")
    free = f"is free ({entry_text(defined, app, hit.raw)})"
    return f"offset {hit.offset} gives {weekday_text(hit.raw)}, {where}, which {free}; {RULES[cycle.rule]}, this one"


def reason_text(defined: Definitions, app: str, day: int, cycle: RunCycle, reason: Reason) -> str:
    """Why a run cycle doesn't name a day."""
    since = day_text(cycle.in_effect)
    until = None if cycle.out_effect is None else day_text(cycle.out_effect)
    simple = {
        "period": f"its period {cycle.period} isn't defined",
        "never": f"it is out of effect from {until} on and in effect from {since} on, so it never names a day",
        "early": f"it is in effect only from {since} on",
        "over": f"it is out of effect from {until} on",
        "open": f"offset {reason.offset} counts from an end, which this interval doesn't have",
    }
    if reason.kind in simple:
        return simple[reason.kind]
    if reason.kind == "between":
        return between_text(defined, day, cycle)
    if reason.kind == "free":
        return f"its offsets count only work days, and this day is free ({entry_text(defined, app, day)})"
    if reason.kind == "past":
        return past_text(defined, app, cycle, reason)
    if reason.kind == "offsets":
        return offsets_text(defined, cycle, reason)
    assert reason.offset is not None and reason.interval is not None, "omitted and moved have both"
    gives = f"offset {reason.offset} gives this day, {place_text(reason.offset, 'day')} of"
    free = f"{gives} {interval_text(cycle.period, reason.interval)}, but it is free ({entry_text(defined, app, day)})"
    if reason.kind == "omitted":
        return f"{free}; {RULES['4']}"
    if reason.to is None:
        return f"{free}, and there is no work day {'before' if cycle.rule == '1' else 'after'} it"
    return f"{free}; {RULES[cycle.rule]}, {weekday_text(reason.to)}"


def between_text(defined: Definitions, day: int, cycle: RunCycle) -> str:
    """Why a day lies in no interval of a run cycle's period."""
    period = defined.periods[cycle.period]
    first = period.entries[0][0] if period.kind == "N" else period.origin
    if day < first:
        return f"its period {cycle.period} begins on {day_text(first)}"
    if period.kind == "A":
        return f"no whole interval of its period {cycle.period} is left before the end of all days"
    ends = [last for _, last in period.listed() if last is not None and last < day]
    nexts = [start for start, _ in period.entries if day < start]
    after = f" and the next one begins on {day_text(nexts[0])}" if nexts else ", and no other follows"
    return f"an interval of its period {cycle.period} ends on {day_text(max(ends))}{after}"


def offsets_text(defined: Definitions, cycle: RunCycle, reason: Reason) -> str:
    """Which day of its interval a day is, and what the offsets are instead."""
    period = defined.periods[cycle.period]
    work = cycle.rule == "E" or period.kind == "W"
    assert reason.place is not None, "a day that offsets miss has a place"
    place = place_text(reason.place, "work day" if work else "day")
    if reason.from_end is not None:
        place += f" ({reason.from_end} from the end)"
    if reason.interval is None:
        where = f"of {count_text(period.interval, 'work day')} by period {cycle.period}"
    else:
        where = f"of {interval_text(cycle.period, reason.interval)}"
    offsets = list(dict.fromkeys(cycle.offsets))
    shown = ", ".join(map(str, offsets[:12])) + (" and others" if len(offsets) > 12 else "")
    return f"it is {place} {where}, and {'the offset is' if len(offsets) == 1 else 'the offsets are'} {shown}"


def past_text(defined: Definitions, app: str, cycle: RunCycle, reason: Reason) -> str:
    """That an offset is past an interval."""
    period = defined.periods[cycle.period]
    if reason.interval is None:
        return f"offset {reason.offset} is past the {count_text(period.interval, 'work day')} of its period"
    first, last = reason.interval
    assert last is not None, "no offset is past an interval without an end"
    work = cycle.rule == "E"
    days = defined.work_days(app).count(first, last) if work else last - first + 1
    return f"offset {reason.offset} is past this interval, which has {count_text(days, 'work day' if work else 'day')}"
