"""The fields of definition records: what each may be, and what is wrong with one that it may not be."""

import re
from collections.abc import Callable, Mapping, Sequence
from typing import Any

from opcplan.errors import Error
from opcplan.rules import hints, moments
from opcplan.rules.definitions import Application, Calendar, Due, Entry, Period, RunCycle, WEEKDAYS

Key = tuple[str | int, ...]  # what no other record of a block may be about
Seen = Mapping[Key, int]  # by that the number of its record
FIRST_AND_LAST = "from 1972-01-01 to 2071-12-31"


class InvalidField(Error):
    """What is wrong with a field, or with the record where `field` is empty."""

    def __init__(self, field: str, text: str) -> None:
        super().__init__(text)
        self.field = field


class Texts:
    """The fields of one record by name."""

    def __init__(self, fields: Mapping[str, bytes]) -> None:
        self.fields = fields

    def text(self, field: str) -> str:
        """A field's text."""
        try:
            return self.fields[field].decode("ascii")
        except UnicodeDecodeError:
            raise InvalidField(field, hints.of_bytes(self.fields[field])) from None

    def name(self, field: str, longest: int = 16) -> str:
        """A field that is a name."""
        return name(field, self.text(field), longest)

    def one_of(self, field: str, known: Sequence[str]) -> str:
        """A field that is one of some words."""
        text = self.text(field)
        if text not in known:
            raise InvalidField(field, "it has to be one of "
                               f"{', '.join(known)}" + hint(text, lambda other: other in known))
        return text

    def day(self, field: str) -> int:
        """A field that is a day."""
        text = self.text(field)
        day = moments.day_of(text)
        if day is None:
            wrong = hints.of_day(text) or f"it has to be a day YYYY-MM-DD {FIRST_AND_LAST}"
            raise InvalidField(field, wrong + hint(text, lambda other: moments.day_of(other) is not None))
        return day

    def minute(self, field: str) -> int:
        """A field that is a minute of the day."""
        text = self.text(field)
        minute = moments.minute_of(text)
        if minute is None:
            wrong = hints.of_minute(text) or "it has to be a minute HH.MM from 00.00 to 23.59"
            raise InvalidField(field, wrong + hint(text, lambda other: moments.minute_of(other) is not None))
        return minute

    def number(self, field: str, low: int, high: int) -> int:
        """A field that is a number."""
        return number(field, self.text(field), low, high)


def name(field: str, text: str, longest: int) -> str:
    """A text that is a name."""
    def is_name(other: str) -> bool:
        return re.fullmatch(r"[A-Z@#$][A-Z0-9@#$]{0,%d}" % (longest - 1), other) is not None

    if not is_name(text):
        wrong = f"it has to be a name: 1 to {longest} of A to Z, 0 to 9, @, # and $, the first no digit"
        if len(text) > longest:
            wrong = f"it has {len(text)} characters, but such a name has at most {longest}"
        raise InvalidField(field, wrong + hint(text, is_name))
    return text


def number(field: str, text: str, low: int, high: int) -> int:
    """A text that is a number."""
    if not re.fullmatch(r"0|[1-9][0-9]{0,11}", text) or not low <= int(text) <= high:
        raise InvalidField(field, f"it has to be a number from {low} to {high}, without leading zeros")
    return int(text)


def hint(text: str, is_good: Callable[[str], bool]) -> str:
    """What would make a text good, where that is easily said."""
    if is_good(text.strip(" \t")):
        return " (without the blanks it would be)"
    if is_good(text.upper()):
        return " (in capital letters it would be)"
    return ""


def again(what: str, seen: Seen, key: Key) -> None:
    """Asks that a record is the first of its kind."""
    if key in seen:
        raise InvalidField("", f"it is a second record for {what}, after record {seen[key]}")


def take_calendar(found: dict[str, Any], texts: Texts, seen: Seen) -> Key:
    """Takes a record of calendars; the answer, here as below, is what no other record may be about."""
    calendar, entry = texts.name("calendar"), texts.text("entry")
    if entry in WEEKDAYS:
        kind, day = "weekday", WEEKDAYS.index(entry)
    elif re.match(r"[0-9]", entry):
        kind, day = "date", texts.day("entry")
    else:
        known = ", ".join(WEEKDAYS)
        wrong = f"it has to be {known} or a day YYYY-MM-DD"
        wrong += hint(entry, lambda other: other in WEEKDAYS or moments.day_of(other) is not None)
        raise InvalidField("entry", wrong)
    status = texts.one_of("status", ("WORK", "FREE"))
    again(f"{entry} of {calendar}", seen, (calendar, kind, day))
    listed = found.setdefault(calendar, Calendar())
    (listed.weekdays if kind == "weekday" else listed.dates)[day] = status == "WORK"
    return calendar, kind, day


def take_period(found: dict[str, Any], texts: Texts, seen: Seen) -> Key:
    period, kind, origin = texts.name("period", 8), texts.one_of("type", ("A", "W", "N")), texts.day("origin")
    before = found.get(period)
    if kind != "N":
        interval = texts.number("second", 1, 1999)
        again(f"period {period}, but a period of type A or W has one record", seen, (period,))
        found[period] = Period(kind, origin, interval)
        return (period,)
    end = texts.day("second") if texts.text("second") else None
    if end is not None and end < origin:
        raise InvalidField("second", f"the end is before its origin, {moments.day_text(origin)}")
    if before is not None and before.kind != "N":
        raise InvalidField("type", f"record {seen[(period,)]} gives {period} the type {before.kind}, which has one "
                                   "record")
    if before is not None and origin <= before.entries[-1][0]:
        last = moments.day_text(before.entries[-1][0])
        raise InvalidField("origin", f"it isn't later than {last}, the origin of {period}'s record before it")
    found.setdefault(period, Period("N")).entries.append(Entry(origin, end))
    return (period,)


def take_application(found: dict[str, Any], texts: Texts, seen: Seen) -> Key:
    app, status = texts.name("application"), texts.one_of("status", ("A", "P"))
    calendar = texts.name("calendar") if texts.text("calendar") else None
    again(f"application {app}", seen, (app,))
    found[app] = Application(status == "A", calendar)
    return (app,)


def read_offsets(texts: Texts) -> list[int]:
    """The offsets of a run cycle."""
    parts = texts.text("offsets").split(" ")
    if len(parts) > 64:
        raise InvalidField("offsets", f"it has {len(parts)} offsets, but at most 64 are allowed")
    for part in parts:
        if not re.fullmatch(r"-?(1[0-9]{3}|[1-9][0-9]{0,2})", part):
            empty = "there is an empty offset (write one blank between two)"
            wrong = f"`{part[:20]}` isn't an offset" if part else empty
            raise InvalidField("offsets", f"{wrong}: each is 1 to 1999 or -1 to -1999")
    return list(map(int, parts))


def take_run_cycle(found: dict[str, Any], texts: Texts, seen: Seen) -> Key:
    app, cycle, kind = texts.name("application"), texts.name("name", 8), texts.one_of("type", ("N", "X"))
    period, rule = texts.name("period", 8), texts.one_of("rule", ("E", "1", "2", "3", "4"))
    offsets, in_effect = read_offsets(texts), texts.day("in effect")
    out_effect = texts.day("out of effect") if texts.text("out of effect") else None
    time, due = texts.minute("input arrival"), None
    if kind == "N" or texts.text("deadline day") or texts.text("deadline time"):
        due = Due(texts.number("deadline day", 0, 99), texts.minute("deadline time"))
    again(f"run cycle {cycle} of {app}", seen, (app, cycle))
    found.setdefault(app, {})[cycle] = RunCycle(
        cycle, kind, period, rule, offsets, in_effect, out_effect, time, due
    )
    return app, cycle


def take_predecessor(found: dict[str, Any], texts: Texts, seen: Seen) -> Key:
    app, predecessor = texts.name("application"), texts.name("predecessor")
    within = texts.number("within", 1, 9999) if texts.fields.get("within") else None
    again(f"{app} and {predecessor}", seen, (app, predecessor))
    found.setdefault(app, {})[predecessor] = within
    return app, predecessor


CYCLE = "application,name,type,period,rule,offsets,in effect,out of effect,input arrival,deadline day,deadline time"
KINDS: dict[str, tuple[tuple[str, ...], Callable[[dict[str, Any], Texts, Seen], Key]]] = {
    "calendars": (("calendar", "entry", "status"), take_calendar),
    "periods": (("period", "type", "origin", "second"), take_period),
    "applications": (("application", "status", "calendar"), take_application),
    "run-cycles": (tuple(CYCLE.split(",")), take_run_cycle),
    "predecessors": (("application", "predecessor", "within"), take_predecessor),
}
# how many fields a record has at least, where that is fewer than all; all of a block have as many as its first one
FEWEST = {"predecessors": 2}
