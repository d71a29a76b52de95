"""Edits of a period: its origins, interval ends, type and interval. No I/O."""

import dataclasses
import re
from collections.abc import Callable, Sequence

from opcplan.acts.world import World
from opcplan.edits import words as edit_words
from opcplan.edits.changes import Change, ChangeRefused
from opcplan.rules import horizons, moments, nth_weekday, record_fields
from opcplan.rules.definitions import Definitions, Entry, Interval, Period
from opcplan.rules.moments import day_text
from opcplan.rules.naming_words import count_text, few
from opcplan.rules.nth_weekday import Month

KEYS = ("type", "origin", "interval")
WEEKDAY = "weekday"


@dataclasses.dataclass(frozen=True)
class Settings:
    """The period, and the words of its change."""

    name: str
    changes: list[str]


def read(typed: Sequence[str]) -> Settings:
    """Words as Settings. Raises ChangeRefused."""
    name, *changes = typed
    return Settings(edit_words.short_name(name), list(changes))


def change(world: World, found: Definitions, given: Settings) -> Change:
    """The change that is asked for."""
    name, (verb, *more) = given.name, given.changes
    if verb == "new" or verb == WEEKDAY and name not in found.periods:
        return new_period(found, name, more if verb == "new" else given.changes)
    if name not in found.periods:
        raise ChangeRefused(f"{edit_words.lack('period', name, found.periods)}; `period {name} new ..` makes one")
    before = found.periods[name]
    if verb in LISTED or verb in horizons.NEXT or verb == WEEKDAY:
        if before.kind != "N":
            raise ChangeRefused(f"{name} is of type {before.kind}, which lists no intervals; change it with type=, "
                                "origin=, interval=")
        entries = with_span(before, verb, more) if verb in horizons.NEXT else with_weekdays(before, more) \
            if verb == WEEKDAY else LISTED[verb](name, before.entries, *days_of(verb, more))
        after = dataclasses.replace(before, entries=entries)
    else:
        after = with_fields(name, before, given.changes)
    if after == before:
        raise ChangeRefused(f"{name} is so already; nothing would change")
    users = [(app, cycle.name) for app, cycles in found.run_cycles.items() for cycle in cycles.values()
             if cycle.period == name]
    shown = few(f"{cycle} of {app}" for app, cycle in users)
    is_gone = after.kind == "N" and not after.entries
    if is_gone and users:
        raise ChangeRefused(f"no interval of {name} would be left, so it would be undefined, "
                            f"but {shown} {'counts' if len(users) == 1 else 'count'} in it")
    counting = f"Run cycles that count in it: {shown or 'none'}; they stay as they are."
    return Change("periods", {name: None if is_gone else after}, [*differences(name, before, after), counting])


def new_period(found: Definitions, name: str, words: list[str]) -> Change:
    """The change that makes a period, of intervals that are listed, or of type A or W."""
    if name in found.periods:
        raise ChangeRefused(f"{name} exists already; leave `new` away to change it")
    if not words:
        raise ChangeRefused("`new` needs months, quarters or weeks FIRST..LAST, weekday NTH FIRST..LAST, or type=, "
                            "origin= and interval=", 2)
    verb, *more = words
    if verb in horizons.NEXT:
        if more and more[0].startswith(".."):
            raise ChangeRefused(f"a new period has no last interval to go on from; `{verb}` needs FIRST..LAST", 2)
        after = Period("N", entries=with_span(Period("N"), verb, more))
    elif verb == WEEKDAY:
        after = Period("N", entries=with_weekdays(Period("N"), more))
    elif verb == "add":
        after = Period("N", entries=added(name, [], *days_of(verb, more)))
    else:
        after = with_fields(name, Period(""), words)
    return Change("periods", {name: after}, [f"{name} is new: {period_text(after)}.",
                                             f"`application APP new period={name} ..` counts in it."], None, False)


def days_of(verb: str, words: list[str]) -> tuple[int, int | None]:
    """The days that are given with a verb: an origin, and an end or None."""
    if len(words) not in ((1,) if verb == "remove" else (1, 2)):
        raise ChangeRefused(f"`{verb}` needs an origin{'' if verb == 'remove' else ', and an end if it has one'}", 2)
    origin, *ends = map(edit_words.day, words)
    return origin, ends[0] if ends else None


# Entries with a change in them.


def added(name: str, entries: list[Entry], origin: int, end: int | None) -> list[Entry]:
    """The entries with a further one."""
    if origin in dict(entries):
        raise ChangeRefused(f"{name} has an interval from {day_text(origin)} on already; `end` changes its end")
    return sorted([*entries, Entry(origin, asked_end(origin, end))])


def removed(name: str, entries: list[Entry], origin: int, _: int | None) -> list[Entry]:
    """The entries without one."""
    ask_listed(name, entries, origin)
    return [entry for entry in entries if entry.origin != origin]


def ended(name: str, entries: list[Entry], origin: int, end: int | None) -> list[Entry]:
    """The entries, of which one has another end, or none."""
    ask_listed(name, entries, origin)
    return sorted([*removed(name, entries, origin, None), Entry(origin, asked_end(origin, end))])


def ask_listed(name: str, entries: list[Entry], origin: int) -> None:
    """Asks that a period lists an interval from a day on."""
    if origin not in dict(entries):
        near = sorted(dict(entries), key=lambda other: abs(other - origin))[:3]
        raise ChangeRefused(f"{name} has no interval from {day_text(origin)} on; the nearest are from "
                            f"{', '.join(map(day_text, sorted(near)))} on")


def asked_end(origin: int, end: int | None) -> int | None:
    """An end that isn't before its origin."""
    if end is not None and end < origin:
        raise ChangeRefused(f"the end {day_text(end)} is before its origin, {day_text(origin)}", 2)
    return end


LISTED: dict[str, Callable[[str, list[Entry], int, int | None], list[Entry]]] = {
    "add": added, "remove": removed, "end": ended}


def with_span(before: Period, verb: str, words: list[str]) -> list[Entry]:
    """The entries of a period with each month, quarter or week of a span that it doesn't list yet."""
    after = horizons.NEXT[verb]
    first, dots, last = words[0].partition("..") if len(words) == 1 else ("", "", "")
    form = "FIRST..LAST, as 2027-01-04..2027-12-31" if verb == "weeks" else "FIRST..LAST, as 2027-01..2027-12"
    if not dots or not last:
        raise ChangeRefused(f"`{verb}` needs {form}; without FIRST it goes on after the last interval", 2)
    begin = after(before.entries[-1].origin) if not first else begin_of(verb, first)
    end = begin_of(verb, last)
    if end < begin:
        raise ChangeRefused(f"{words[0]} lists nothing: it would begin on {day_text(begin)}", 2)
    listed = {entry.origin for entry in before.entries}
    found = list(before.entries)
    while begin <= end:
        if begin not in listed:
            found.append(Entry(begin, after(begin) - 1))
        begin = after(begin)
    return sorted(found, key=lambda entry: entry.origin)


def with_weekdays(before: Period, words: list[str]) -> list[Entry]:
    """The entries of a period with each third Friday, or another weekday, of a span that it doesn't list yet."""
    nth = nth_weekday.of_text(words[0]) if words else None
    first, dots, last = words[1].partition("..") if len(words) == 2 else ("", "", "")
    if nth is None or not last:
        raise ChangeRefused("`weekday` needs 1 to 5 or -1 to -5 and a weekday, and FIRST..LAST, as 3FRI 2027..2030 or "
                            "-1FRI 2027-01..2027-06; without FIRST it goes on after the last interval", 2)
    if not first and not before.entries:
        raise ChangeRefused("a new period has no last interval to go on from; `weekday` needs FIRST..LAST", 2)
    begin = nth_weekday.month_of(nth.after(before.entries[-1].origin)) if not first else month_of(first, 1)
    end = month_of(last, 12)
    listed = {entry.origin for entry in before.entries}
    found = nth_weekday.entries(nth, begin, end)
    if not found:
        raise ChangeRefused(f"{words[1]} lists nothing: there is no {nth.text} from {begin.year}-{begin.month:02} to "
                            f"{end.year}-{end.month:02}", 2)
    return sorted([*before.entries, *(entry for entry in found if entry.origin not in listed)])


def month_of(text: str, month: int) -> Month:
    """The month that somebody typed; of a year its month of this number."""
    day = moments.day_of(f"{text}-{month:02}-01" if re.fullmatch("[0-9]{4}", text) else f"{text}-01")
    if day is None:
        raise ChangeRefused(f"{text!r} is neither a year such as 2027 nor a month such as 2027-01", 2)
    return nth_weekday.month_of(day)


def begin_of(verb: str, text: str) -> int:
    """The day on which a month, or a week, begins that somebody typed."""
    if verb == "weeks":
        return edit_words.day(text)
    try:
        return edit_words.day(f"{text}-01")
    except ChangeRefused:
        raise ChangeRefused(f"{text!r} is not a month such as 2027-01", 2) from None


def with_fields(name: str, before: Period, words: list[str]) -> Period:
    """A period with other fields."""
    try:
        pairs = [edit_words.pair(word) for word in words]
    except ChangeRefused as wrong:
        raise ChangeRefused(f"{wrong}, nor one of {', '.join([*LISTED, *horizons.NEXT, WEEKDAY])}", 2) from None
    wanted = {key.lower(): value for key, value in pairs}
    strange = [key for key in wanted if key not in KEYS]
    if strange or len(wanted) < len(pairs):
        raise ChangeRefused(f"{strange[0]!r} is not one of {', '.join(KEYS)}" if strange
                            else "you gave a field twice", 2)
    held = {"type": before.kind} if before.kind else {}
    if before.kind not in ("", "N"):
        held |= {"origin": day_text(before.origin), "interval": str(before.interval)}
    fields = {**held, **wanted}
    if "type" not in fields:
        raise ChangeRefused("give type= too", 2)
    kind = fields["type"] = fields["type"].upper()
    if before.kind == kind == "N":
        raise ChangeRefused(f"{name} is of type N, whose intervals `add`, `remove` and `end` change", 2)
    lacking = [key for key in KEYS if key not in fields and (key, kind) != ("interval", "N")]
    if lacking or kind == "N" and "interval" in wanted:
        raise ChangeRefused(f"type {kind} needs {lacking[0]}= too" if lacking
                            else "type N has no interval=", 2)
    return period_of(name, fields)


def period_of(name: str, fields: dict[str, str]) -> Period:
    """The period that the fields of a record make."""
    second = "" if fields["type"] == "N" else fields["interval"]
    texts = edit_words.texts_of(period=name, type=fields["type"], origin=fields["origin"], second=second)
    found: dict[str, Period] = {}
    try:
        record_fields.take_period(found, texts, {})
    except record_fields.InvalidField as wrong:
        key = "interval" if wrong.field == "second" else wrong.field
        raise ChangeRefused(f"{key}={fields[key]}: {wrong}", 2) from None
    return found[name]


def differences(name: str, before: Period, after: Period) -> list[str]:
    """What changes, in sentences."""
    if before.kind == after.kind == "N":
        old, new = before.listed(), after.listed()
        gone = [f"- {interval_text(span)}" for span in old if span not in new]
        come = [f"+ {interval_text(span)}" for span in new if span not in old]
        if not gone + come:
            return [f"The intervals of {name} stay the same; only whether a record writes out its end changes."]
        return [f"The intervals of {name}: {'; '.join(gone + come)}; {len(new) - len(come):,} stay."]
    return [f"{name}: {period_text(before)} -> {period_text(after)}."]


def interval_text(span: Interval) -> str:
    """An interval in words."""
    first = day_text(span.first)
    return f"{first} on" if span.last is None else f"{first} to {day_text(span.last)}"


def period_text(period: Period) -> str:
    """A period in words."""
    if period.kind == "N":
        return f"type N, {count_text(len(period.entries), 'interval')} from {day_text(period.entries[0].origin)} on"
    days = count_text(period.interval, "day" if period.kind == "A" else "work day")
    return f"type {period.kind}, intervals of {days} from {day_text(period.origin)} on"
