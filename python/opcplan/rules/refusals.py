"""What a refusal means, in words, at its place in a stream (docs/rules/STATEMENTS.md, docs/rules/PLANS.md)."""

import re
from collections.abc import Callable, Mapping

from opcplan.rules import blocks, definitions, hints, loops, moments, statement_words, statements, statuses, stream
from opcplan.rules.known import Known
from opcplan.rules.moments import DAY, day_text, moment_text
from opcplan.rules.naming_words import meant_text
from opcplan.rules.statement_words import Values
from opcplan.rules.stream import Item

DATES = {
    "days": "the last day is before the first one or after 2065-12-31, or there are more than 1,461 days",
    "ltp-create": "the last day is before the first one, after 2065-12-31, or more than 1,461 days after the first one",
    "ltp-extend": "the new last day isn't later than the old one, is after 2065-12-31, or is more than 1,461 days "
                  "after the day of the current plan's end",
    "ltp-add": "it arrives before the current plan's end or after the last day of the long-term plan",
    "cp-add": "it arrives before the first day of the long-term plan, or not before the current plan's end",
}
MOST_DAYS, MOST_ROWS, MOST_SERIALS = 1461, 200_000, 999_999_999
STATUSES = {"W": "waiting", "S": "started", "E": "in error", "C": "complete"}
NEEDS = {  # what status an occurrence has to have, in words
    kind.name: " or ".join(f"{STATUSES[status]} ({status})" for status in kind.act.before)
    for kind in statements.KINDS.values() if kind.act
}
# the greatest number of a refusal that is known here
GREATEST = max(number for kind in statements.KINDS.values() for number in kind.refusals)
OF_A_RECORD, OF_AN_APPLICATION, OF_A_SERIAL = (11,), (22, 23, 25), (30,)


def fits(item: Item, reply: str) -> bool:
    """Whether a line that is a statement may be refused so."""
    found = re.fullmatch(r"refused ([0-9]{2})(?: ([0-9]{1,9})| ([A-Z@#$][A-Z0-9@#$]{0,15}))?", reply)
    if found is None:
        return False
    number, (_, count, name) = int(found.group(1)), found.groups()
    if (count is None) == (number in OF_A_RECORD + OF_A_SERIAL) or (name is None) == (number in OF_AN_APPLICATION):
        return False
    if number == 12:
        return item.asked.job is not None
    return number > GREATEST or item.asked.tried in statements.asked_by(number)


def sentences(item: Item, number: int, detail: str, known: Known) -> list[str]:
    """What a refusal of a statement says; `known` is what was known before it."""
    explain = MEANINGS.get(number)
    if explain is None:
        return [f"{number} is not a refusal that ./plan knows"]
    return explain(item, detail, known)


def not_a_statement(item: Item, detail: str, known: Known) -> list[str]:
    lines = [f"it isn't a statement: {item.length <= stream.MOST_OF_LINE and hints.of_bytes(item.text) or item.wrong}"]
    first = stream.first_word(item.text.removeprefix(blocks.BYTE_ORDER_MARK)).decode("ascii", "replace")
    if not item.has_data and (first == "define" or statement_words.near(first, ["define"])):
        lines.append("it isn't read as `define`, so each line of its data is read as a statement, and refused too")
    return lines


def faulty_data(item: Item, detail: str, known: Known) -> list[str]:
    """Which record is faulty, which field of it, and what is wrong with it."""
    if item.data is None:
        odd = f"line {item.odd_ends[0]} only looks like such a line" if item.odd_ends else ""
        why = "its data have no end: no line after it is `/*` and nothing else, so everything after it was read as data"
        return [why, odd] if odd else [why]
    if not item.is_whole:
        length, most = f"{item.data_length:,}", f"{stream.MOST_OF_BLOCK:,}"
        return [f"its data have {length} bytes, but at most {most} are read; use several `define`s"]
    fault = blocks.read(item.asked.kind, item.data).fault
    if fault is None:
        return [f"record {detail} of its data is faulty, though ./plan finds no fault in it"]
    number = item.data_line + fault.line
    text = item.data.split(b"\n")[fault.line].decode("utf-8", "backslashreplace").rstrip("\r")
    where = f"record {fault.record} of its data, line {number}, is faulty"
    where += "" if str(fault.record) == detail else f" (the output names record {detail})"
    what = f"the field `{fault.field}` is `{fault.value[:60]}`: {fault.wrong}" if fault.field else fault.wrong
    if item.asked.alone != "options" and text.count('"') % 2:
        what += "; a double quote in that line isn't closed there"
    return [where, f"`{text[:90]}`", what]


def other_text(item: Item, detail: str, known: Known) -> list[str]:
    line = known.jobs.get(item.asked.job or 0)
    where = f"at line {line}" if line else "in an earlier run over the same file"
    return [f"job {item.asked.job} was used {where} with other words or other data; give a new job a new number"]


def not_defined(item: Item, detail: str, known: Known) -> list[str]:
    name = item.asked.values["name"]
    known_names: Mapping[str, object] = getattr(known.defined, item.asked.kind.replace("-", "_"))
    return [f"the name {name} isn't defined in {item.asked.alone}{meant_text(name, known_names)}"]


def no_plan(item: Item, detail: str, known: Known) -> list[str]:
    return ["there is no long-term plan yet; `ltp-create` makes one"]


def plan_exists(item: Item, detail: str, known: Known) -> list[str]:
    since = f", since line {known.created}" if known.created else " in the file already"
    return [f"there is a long-term plan{since}; `ltp-extend` makes it longer"]


def calendar_undefined(item: Item, detail: str, known: Known) -> list[str]:
    app = known.defined.applications.get(detail)
    if app and app.calendar and app.calendar not in known.defined.calendars:
        where = known.where("applications", detail)
        meant = meant_text(app.calendar, known.defined.calendars)
        return [f"the application {detail} names the calendar {app.calendar} ({where}), which isn't defined{meant}"]
    return [f"the application {detail} names a calendar that isn't defined"]


def period_undefined(item: Item, detail: str, known: Known) -> list[str]:
    found, defined = [], known.defined.periods
    for name, cycle in sorted(known.defined.run_cycles.get(detail, {}).items()):
        if cycle.period not in defined:
            where = known.where("run-cycles", detail, name)
            found.append(f"{name} names the period {cycle.period} ({where}){meant_text(cycle.period, defined)}")
    which = ": " + ", ".join(found[:5]) if found else ""
    return [f"a run cycle of the application {detail} names a period that isn't defined{which}"]


def dates_wrong(item: Item, detail: str, known: Known) -> list[str]:
    name = item.asked.tried
    text = SPANS[name](name, item.asked.values, known)
    return [text or DATES[name], *ways_out(known, name, item.asked.values), *bounds_text(known)]


def span_of_days(name: str, values: Values, known: Known) -> str:
    """What is wrong with the first and the last day that `days` or `ltp-create` has; nothing where that isn't seen, as
    in the functions below: what is known may be later than the refusal."""
    first, last = values["from"], values["to"]
    if last < first:
        return f"the last day, {day_text(last)}, is before the first one, {day_text(first)}"
    if last > definitions.LAST_PLANNING_DAY:
        most = day_text(definitions.LAST_PLANNING_DAY)
        return f"the last day, {day_text(last)}, is after {most}, the last that is planned"
    if last - first + (name == "days") > MOST_DAYS:
        return f"from {day_text(first)} to {day_text(last)} are more than {MOST_DAYS:,} days"
    return ""


def span_of_extension(name: str, values: Values, known: Known) -> str:
    """What is wrong with the day to which `ltp-extend` goes."""
    to = values["to"]
    if not known.bounds or not known.is_whole:
        return ""
    if to <= known.bounds[1]:
        return f"the plan already goes to {day_text(known.bounds[1])}, and {day_text(to)} isn't later"
    return span_of_days(name, {"from": known.bounds[2] // DAY, "to": to}, known)


def span_of_arrival(name: str, values: Values, known: Known) -> str:
    """What is wrong with the arrival of an addition."""
    if not known.bounds or not known.is_whole:
        return ""
    ia, (first, last, end) = values["ia"], known.bounds
    if ia < first * DAY:
        return f"it arrives before the long-term plan begins, on {day_text(first)}"
    if ia >= (last + 1) * DAY:
        return f"it arrives after the long-term plan ends, with {day_text(last)}"
    of = f"the current plan's end, {moment_text(end)}"
    if name == "ltp-add" and ia < end:
        return f"it arrives before {of}: `cp-add` adds to the current plan"
    if name == "cp-add" and ia >= end:
        return f"it doesn't arrive before {of}: `ltp-add` adds to the long-term plan"
    return ""


FIRST = {"dp-extend": ": `ltp-extend` first", "ltp-add": ": `ltp-extend` first", "cp-add": ": `dp-extend` first"}
SPANS: dict[str, Callable[[str, Values, Known], str]] = {
    "days": span_of_days, "ltp-create": span_of_days, "ltp-extend": span_of_extension,
    "ltp-add": span_of_arrival, "cp-add": span_of_arrival,
}


def ways_out(known: Known, name: str, values: Values) -> list[str]:
    """From when to when a day or moment is taken, where the plan is known."""
    planning = definitions.LAST_PLANNING_DAY
    if name in ("days", "ltp-create"):
        begin: int = values["from"]
        what, low, high = "the last day", begin, min(begin + MOST_DAYS - (name == "days"), planning)
    elif not known.is_whole or known.bounds is None:
        return []
    else:
        first, last, end = known.bounds
        what, low, high = {
            "ltp-extend": ("the new last day", last + 1, min(end // DAY + MOST_DAYS, planning)),
            "ltp-add": ("an arrival", end, (last + 1) * DAY - 1),
            "cp-add": ("an arrival", first * DAY, end - 1),
            "dp-extend": ("the new plan end", end + 1, min(end + known.defined.max_hours * 60, (last + 1) * DAY)),
        }[name]
    text = moment_text if name in ("ltp-add", "cp-add", "dp-extend") else day_text
    if low > high:
        return [f"there is no such {'day' if text is day_text else 'moment'} now{FIRST.get(name, '')}"]
    return [f"{what} may be from {text(low)} to {text(high)}"]


def bounds_text(known: Known) -> list[str]:
    """How far the plans reach, where that is known. Without the plan it is by the stream: where a plan keeps its jobs,
    other streams may have extended it since."""
    if known.bounds is None:
        return []
    first, last, end = known.bounds
    days = f"{day_text(first)} to {day_text(last)}"
    alone = "" if known.is_whole else "by this stream alone, "
    return [f"({alone}long-term plan: {days}; end of the current plan: {moment_text(end)})"]


def loop_of_lists(item: Item, detail: str, known: Known) -> list[str]:
    ring = loops.ring_of(known.lists_after(item.asked), detail)
    how = f": {' waits for '.join(ring)}" if ring else ""
    return [f"the lists of predecessors have a loop that includes {detail}{how}"]


def no_application(item: Item, detail: str, known: Known) -> list[str]:
    app = item.asked.values["app"]
    found = known.defined.applications.get(app)
    if found is None:
        where = "" if known.is_whole else " in this stream, and in the plan it isn't, or is pending"
        return [f"the application {app} isn't defined{where}{meant_text(app, known.defined.applications)}"]
    if found.is_active:
        return [f"the application {app} isn't defined, or it is pending"]
    return [f"the application {app} is pending ({known.where('applications', app)})"]


def key_of(item: Item) -> tuple[str, int]:
    return item.asked.values["app"], item.asked.values["ia"]


def key_text(item: Item) -> str:
    app, ia = key_of(item)
    return f"{app} {moment_text(ia)}"


def key_is_live(item: Item, detail: str, known: Known) -> list[str]:
    place = known.place_of(*key_of(item))
    there = statuses.WHERE.get(place, "") if place in set("LWSECH") else ""
    return [f"{key_text(item)} {there or 'is there already, in the long-term plan, the current plan or history'}"]


def no_occurrence(item: Item, detail: str, known: Known) -> list[str]:
    """Where there is none, where it stands else, and when the application arrives on that day."""
    where, (app, ia) = "the long-term plan" if item.asked.name == "ltp-delete" else "the current plan", key_of(item)
    place, lines = known.place_of(app, ia), [f"there is no {key_text(item)} in {where}"]
    if place:
        other = {"cp-delete": "ltp-delete"}.get(item.asked.name) if place == "L" else None
        other = "cp-delete" if item.asked.name == "ltp-delete" and place in "WSEC" else other
        lines.append(f"it {statuses.WHERE[place]}{f': `{other}` deletes it there' if other else ''}")
    elif place == "":
        found = known.times_of(app, ia // DAY)
        times = ", ".join(f"{moments.minute_text(at % DAY)} ({statuses.WHERE[there]})" for at, there in found if there)
        lines.append(f"on that day {app} arrives at {times}" if times else f"{app} doesn't arrive on that day")
        if not times and known.is_whole and app not in known.defined.applications:
            lines[-1] = f"the application {app} isn't defined{meant_text(app, known.defined.applications)}"
    return [*lines, *bounds_text(known)]


def status_forbids(item: Item, detail: str, known: Known) -> list[str]:
    """What status would be wanted, and which it is: what no statement touched is waiting, where the plan is known."""
    place, name = known.place_of(*key_of(item)), item.asked.name
    if place not in STATUSES and known.is_whole:
        place = "W" if place in (None, "", "L") else place
    has = f"it has the status {place} ({STATUSES[place]})" if place in STATUSES else "it has another status"
    return [f"`{name}` needs an occurrence that is {NEEDS[name]}; {has}"]


def not_complete(item: Item, detail: str, known: Known) -> list[str]:
    which = known.key_of(int(detail))
    text = f"serial {detail}{f', {which}' if which else ''}"
    return [f"an occurrence that it waits for isn't complete: {text}; `./plan why` shows all of them"]


def too_many(item: Item, detail: str, known: Known) -> list[str]:
    most = f"more than {MOST_ROWS:,} rows together, or more than {MOST_SERIALS:,} serials would be given"
    lines = [f"the plans would have {most}"]
    if known.sizes is not None:
        rows, serials = known.sizes
        lines.append(f"they have {rows:,} rows, so {MOST_ROWS - rows:,} more fit; {serials:,} serials were given")
    return lines


def plan_end_wrong(item: Item, detail: str, known: Known) -> list[str]:
    """Which limit of a daily plan's end is passed, where the plan is known; else all of them."""
    values = item.asked.values
    most = known.defined.max_hours
    other = "" if known.is_whole or ("options", None) in known.lines else ", unless the plan has another"
    hours = f"more than {most} hours after it (option max_extension_hours{other})"
    text = f"the new plan end isn't later than the old one, is past the end of the long-term plan, or is {hours}"
    if known.is_whole and known.bounds:
        _, last, end = known.bounds
        to = values["to"] if "to" in values else known.end_by(values["days"], values["count"])
        new = f"the new plan end, {moment_text(to)}," if "to" in values else "the new plan end by these days"
        if to <= end:
            text = f"{new} isn't later than the old one, {moment_text(end)}"
        elif to > (last + 1) * DAY:
            text = f"{new} is past the end of the long-term plan, {day_text(last + 1)} 00.00"
        elif to > end + most * 60:
            text = f"{new} is more than {most} hours (option max_extension_hours) after the old one, {moment_text(end)}"
    elif "days" in values:
        text += ", or the days give no new end"
    return [text, *ways_out(known, "dp-extend", values), *bounds_text(known)]


MEANINGS: dict[int, Callable[[Item, str, Known], list[str]]] = {
    10: not_a_statement, 11: faulty_data, 12: other_text, 13: not_defined, 20: no_plan, 21: plan_exists,
    22: calendar_undefined, 23: period_undefined, 24: dates_wrong, 25: loop_of_lists, 26: no_application,
    27: key_is_live, 28: no_occurrence, 29: status_forbids, 30: not_complete, 31: too_many, 32: plan_end_wrong,
}
