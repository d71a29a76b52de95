"""The records that give definitions: what a block of data has for each name."""

from opcplan.errors import Error
from opcplan.rules import definitions, moments
from opcplan.rules.definitions import Application, Calendar, Period, RunCycle

MOST_BYTES = 262_144  # of a block


class Unprintable(Error):
    """Its text says what can't be written as statements."""


def date_text(day: int | None) -> str:
    """A day, or nothing where there is none."""
    return "" if day is None else moments.day_text(day)


def calendar_records(name: str, calendar: Calendar) -> list[str]:
    """The records of a calendar."""
    entries = [(definitions.WEEKDAYS[day], is_work) for day, is_work in calendar.weekdays.items()]
    entries += [(moments.day_text(day), is_work) for day, is_work in calendar.dates.items()]
    return [f"{name},{entry},{'WORK' if is_work else 'FREE'}" for entry, is_work in entries]


def period_records(name: str, period: Period) -> list[str]:
    """The records of a period."""
    if period.kind == "N":
        return [f"{name},N,{moments.day_text(first)},{date_text(end)}" for first, end in period.entries]
    return [f"{name},{period.kind},{moments.day_text(period.origin)},{period.interval}"]


def application_records(name: str, application: Application) -> list[str]:
    """The record of an application."""
    return [f"{name},{'A' if application.is_active else 'P'},{application.calendar or ''}"]


def run_cycle_records(app: str, cycles: dict[str, RunCycle]) -> list[str]:
    """The records of an application's run cycles."""
    return [run_cycle_record(app, cycle) for cycle in cycles.values()]


def run_cycle_record(app: str, cycle: RunCycle) -> str:
    """The record of a run cycle."""
    days = [moments.day_text(cycle.in_effect), date_text(cycle.out_effect)]
    due = ["", ""] if cycle.due is None else [str(cycle.due.days), moments.minute_text(cycle.due.minute)]
    offsets, time = " ".join(map(str, cycle.offsets)), moments.minute_text(cycle.time)
    return ",".join([app, cycle.name, cycle.kind, cycle.period, cycle.rule, offsets, *days, time, *due])


def without_limits(app: str, listed: dict[str, int | None]) -> list[str]:
    """The records of a list of predecessors none of which has a limit."""
    return [f"{app},{predecessor}" for predecessor in listed]


def with_limits(app: str, listed: dict[str, int | None]) -> list[str]:
    """The records of a list of predecessors."""
    return [f"{app},{predecessor},{'' if within is None else within}" for predecessor, within in listed.items()]


def blocks_of(kind: str, records: dict[str, list[str]]) -> list[str]:
    """The records by blocks, so that the records of one name stand in one and none has too many bytes."""
    blocks: list[list[str]] = [[]]
    size = 0
    for name, lines in records.items():
        text = "".join(line + "\n" for line in lines)
        if len(text) > MOST_BYTES:
            raise Unprintable(f"the {kind} of {name} take {len(text)} bytes, but a block has at most {MOST_BYTES}")
        if size + len(text) > MOST_BYTES:
            blocks.append([])
            size = 0
        blocks[-1].append(text)
        size += len(text)
    return ["".join(texts) for texts in blocks]
