"""Holidays of an iCalendar file: the days of its all-day events. It needs Debian's package python3-icalendar."""

import datetime
import importlib.util
import os
import re
import subprocess
import sys
from typing import Any, NamedTuple, Optional

from opcplan.cli import interpreter
from opcplan.commands import import_forms
from opcplan.commands.ics_times import MIDNIGHT, Clock, UnsupportedEvent, date_of
from opcplan.commands.import_result import Days
from opcplan.edits.changes import ChangeRefused
from opcplan.errors import Unreadable
from opcplan.rules.moments import EPOCH, day_text
from opcplan.rules.naming_words import count_text, few

DEBIAN = "/usr/bin/python3"
LIBRARIES = ("icalendar", "dateutil")
DATES = ("DTSTART", "DTEND", "DURATION", "RRULE", "RDATE", "EXDATE", "RECURRENCE-ID")
# of a rule's parts the numbers that they may have
RULE_PARTS: dict[str, tuple[int, int] | None] = {
    "FREQ": None, "UNTIL": None, "BYDAY": None, "WKST": None, "INTERVAL": (1, 9999), "COUNT": (1, 999_999),
    "BYMONTH": (1, 12), "BYMONTHDAY": (-31, 31), "BYYEARDAY": (-366, 366), "BYWEEKNO": (-53, 53),
    "BYSETPOS": (-366, 366),
}
RULE, FOLD = re.compile(rb"(?mi)^RRULE(?:;[^:\n]*)?:(.*)$"), re.compile(rb"\r?\n[ \t]")
MOST_TIMES = 200_000


class MovedRepetition(NamedTuple):
    """A repetition that an event of its own stands for."""

    at: datetime.date
    is_all_after: bool  # whether it stands for all later ones too


class Event(NamedTuple):
    """An event of a file, and the zone of its calendar, where that names one."""

    fields: Any
    zone: Optional[datetime.tzinfo]

    def name(self) -> str:
        """Its name, in one line."""
        name = self.fields.get("SUMMARY")
        return " ".join(str(name[0] if isinstance(name, list) else name or "").split()) or "an event without a name"

    def date_text(self) -> str:
        """Its day in words, where it has one."""
        at = getattr(self.fields.get("DTSTART"), "dt", None)
        return f" on {at.isoformat()[:10]}" if isinstance(at, datetime.date) else ""

    def single(self, name: str) -> Any:
        """The value of a property that may stand once, or None."""
        value = self.fields.get(name)
        if isinstance(value, list):
            raise UnsupportedEvent(f"it has {name} more than once")
        return getattr(value, "dt", value)

    def values(self, name: str) -> list[datetime.date]:
        """The values of a property that may have several and stand several times."""
        held = self.fields.get(name, [])
        found = [value.dt for lists in (held if isinstance(held, list) else [held]) for value in lists.dts]
        if not all(isinstance(date, datetime.date) for date in found):
            raise UnsupportedEvent(f"{name} of it has something that isn't a day")
        return found

    def uid(self) -> str:
        """What is the same of an event and of those that stand for its repetitions."""
        return str(self.fields.get("UID", ""))


def ask_library() -> None:
    """Runs ./plan anew under Debian's Python where this one lacks the library and that one has it."""
    if all(importlib.util.find_spec(name) for name in LIBRARIES):
        return
    is_debian = os.path.realpath(sys.executable) == os.path.realpath(DEBIAN)
    if not is_debian and os.path.exists(DEBIAN):
        imports = f"import {', '.join(LIBRARIES)}, tomllib"
        asked = subprocess.run([DEBIAN, "-c", imports], capture_output=True, check=False)
        if asked.returncode == 0:
            interpreter.run_by(DEBIAN)
    raise Unreadable("reading iCalendar files needs Debian's package python3-icalendar: `apt-get install "
                     "python3-icalendar`")


def days(data: bytes, path: str, first: int, last: int) -> Days:
    """The days of a file from a first to a last one; each is a free day."""
    events = events_of(data, path)
    found: dict[int, str] = {}
    left: list[str] = []
    moved = moved_times(events)
    for event in events:
        try:
            for at in event_days(event, moved, first, last):
                found.setdefault(at, event.name())
        except UnsupportedEvent as why:
            left.append(f"left out: {event.name()[:60]!r}{event.date_text()}: {why}.")
    shown = few(f"{day_text(at)} {found[at][:40]}" for at in sorted(found))
    sentences = [f"{path}: {count_text(len(found), 'free day')} from {day_text(first)} to {day_text(last)} (--from "
                 f"and --to name others){f': {shown}' if found else ''}."]
    return Days({at: False for at in found}, sentences, left)


def events_of(data: bytes, path: str) -> list[Event]:
    """The events of a file."""
    import icalendar

    try:
        calendars = icalendar.Calendar.from_ical(data.removeprefix(b"\xef\xbb\xbf"), multiple=True)
    except (ValueError, LookupError, TypeError, AttributeError, ArithmeticError) as error:
        why = str(error).partition("\n")[0][:100]
        if not import_forms.is_ics(data.decode("utf-8-sig", "replace")):
            raise ChangeRefused(f"{path}: it isn't an iCalendar file, which begins with BEGIN:VCALENDAR",
                                2) from None
        raise ChangeRefused(f"{path}: it can't be read as iCalendar: {why}", 2) from None
    if not calendars:
        raise ChangeRefused(f"{path}: it has no calendar, or ends in the middle of one", 2)
    # the library passes such a part over
    parts = [part for rule in RULE.findall(FOLD.sub(b"", data)) for part in rule.strip().split(b";")]
    if any(part and b"=" not in part for part in parts):
        raise ChangeRefused(f"{path}: a rule has a part without a sign =", 2)
    return [Event(fields, zone_of(calendar)) for calendar in calendars for fields in calendar.walk("VEVENT")]


def zone_of(calendar: Any) -> Optional[datetime.tzinfo]:
    """The zone of a whole calendar, where it names one that is known."""
    from dateutil import tz

    name = calendar.get("X-WR-TIMEZONE")
    return tz.gettz(str(name)) if name and not isinstance(name, list) else None


def moved_times(events: list[Event]) -> dict[str, list[MovedRepetition]]:
    """The times of repeated events that events of their own stand for, by UID."""
    moved: dict[str, list[MovedRepetition]] = {}
    for event in events:
        value = event.fields.get("RECURRENCE-ID")
        at = getattr(value, "dt", None)
        if isinstance(at, datetime.date):
            moved.setdefault(event.uid(), []).append(MovedRepetition(at, stands_for_all_after(value)))
    return moved


def stands_for_all_after(value: Any) -> bool:
    """Whether a RECURRENCE-ID means all later repetitions too."""
    return "RANGE" in getattr(value, "params", {})


def event_days(event: Event, moved: dict[str, list[MovedRepetition]], first: int, last: int) -> set[int]:
    """The days of an event, as numbers."""
    if str(event.fields.get("STATUS", "")).upper() == "CANCELLED":
        return set()
    faulty = [name for name, _ in event.fields.errors if name is None or name in DATES]
    if faulty:
        raise UnsupportedEvent(f"{faulty[0] or 'a line'} of it can't be read")
    event.single("RECURRENCE-ID")
    if stands_for_all_after(event.fields.get("RECURRENCE-ID")):
        raise UnsupportedEvent("it changes all later repetitions of an event too (RANGE), so none of these is imported")
    if event.fields.get("EXRULE") is not None:
        raise UnsupportedEvent("it has EXRULE")
    clock, begin, length = span_of(event)
    found: set[int] = set()
    end = EPOCH.date() + datetime.timedelta(days=last)
    for at in times_of(event, clock, begin, end, moved):
        start = (at - EPOCH.date()).days
        found.update(range(max(first, start), min(last, start + length - 1) + 1))
    return found


def span_of(event: Event) -> tuple[Clock, datetime.date, int]:
    """The clock of an event, its first day, and how many days it has."""
    begin, end, length = (event.single(name) for name in ("DTSTART", "DTEND", "DURATION"))
    if not isinstance(begin, datetime.date):
        raise UnsupportedEvent("it has no day on which it begins")
    has_no_zone = not isinstance(begin, datetime.datetime) or begin.tzinfo is None
    clock = Clock(begin, has_no_zone and "TZID" in event.fields["DTSTART"].params, event.zone)
    if end is None and isinstance(length, datetime.timedelta):
        end = clock.local(begin, "DTSTART") + length
    if isinstance(begin, datetime.datetime):
        is_whole = isinstance(end, datetime.datetime) and not any(
            shown.time() != MIDNIGHT for shown in (begin, clock.local(end, "DTEND")))
        if not is_whole or clock.local(end, "DTEND").date() <= begin.date():
            raise UnsupportedEvent("it begins at a time of day, and isn't an all-day event")
    if end is None:
        return clock, date_of(begin), 1
    if not isinstance(end, datetime.date):
        raise UnsupportedEvent("it ends before it begins")
    whole = (clock.local(end, "DTEND") - clock.local(begin, "DTSTART")).days
    # some write the same day as its end, which is that day
    count = whole if whole or length is not None else 1
    if count < 1:
        raise UnsupportedEvent("it ends before it begins")
    return clock, date_of(begin), count


def times_of(event: Event, clock: Clock, begin: datetime.date, end: datetime.date,
             moved: dict[str, list[MovedRepetition]]) -> set[datetime.date]:
    """The dates on which an event begins, up to a last one."""
    found = {begin}
    for at in event.values("RDATE"):
        date = clock.local(at, "RDATE").date()
        if clock.moment(date, "RDATE") != clock.moment(at, "RDATE") and not clock.is_date:
            raise UnsupportedEvent("RDATE of it has a time of day")
        found.add(date)
    if event.fields.get("RRULE") is not None:
        found |= rule_times(event.fields["RRULE"], clock, begin, end)
    gone = {clock.moment(at, "EXDATE") for at in event.values("EXDATE")}
    later = []
    if event.fields.get("RECURRENCE-ID") is None:
        for other in moved.get(event.uid(), []):
            at = clock.moment(other.at, "RECURRENCE-ID")
            gone.add(at)
            later += [at] if other.is_all_after else []
    stop = min(later, default=None)
    kept = {(date, clock.moment(date, "DTSTART")) for date in found}
    return {date for date, at in kept if at not in gone and (stop is None or at < stop)}


def rule_times(rule: Any, clock: Clock, begin: datetime.date, end: datetime.date) -> set[datetime.date]:
    """The dates of a yearly rule."""
    from dateutil import rrule

    limits, text = rule_limits(rule)
    until = min((clock.moment(at, "UNTIL") for at in limits), default=None)
    found = set()
    try:
        for at in rrule.rrulestr(text, dtstart=datetime.datetime.combine(begin, MIDNIGHT)):
            if at.date() > end or until is not None and clock.moment(at.date(), "DTSTART") > until:
                break
            found.add(at.date())
            if len(found) > MOST_TIMES:
                raise UnsupportedEvent("its rule gives too many days")
    except (ValueError, TypeError, ArithmeticError, LookupError):
        raise UnsupportedEvent("its rule can't be read") from None
    return found


def rule_limits(rule: Any) -> tuple[list[datetime.date], str]:
    """Where a yearly rule ends, if that is said, and the rest of its text. Raises UnsupportedEvent for what isn't
    taken."""
    if isinstance(rule, list):
        raise UnsupportedEvent("it has RRULE more than once")
    parts = {name.upper(): values for name, values in rule.items()}
    strange = sorted(parts.keys() - RULE_PARTS.keys())
    if strange or parts.get("FREQ") != ["YEARLY"]:
        raise UnsupportedEvent(f"its rule has {strange[0]}" if strange else "its rule isn't a yearly one")
    for name, limits in RULE_PARTS.items():
        if limits and not all(limits[0] <= number <= limits[1] and number for number in parts.get(name, [])):
            raise UnsupportedEvent(f"its rule has an impossible {name}")
    ends = parts.get("UNTIL", [])
    if not all(isinstance(at, datetime.date) for at in ends):
        raise UnsupportedEvent("its rule has an impossible UNTIL")
    return ends, ";".join(part for part in rule.to_ical().decode().split(";") if not part.startswith("UNTIL"))
