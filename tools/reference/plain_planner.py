#!/usr/bin/env python3
"""A plain planner: the rules of docs/ once more, day by day and row by row, as short as they can be said.

It reads a job stream on standard input and prints what the planner has to answer. It shares nothing with the product,
proves nothing, and is slow; `tools/soak/compare` holds the product against it, and the expected values of long streams
in crates/test_streams/data come from it. """
import bisect
import csv
import datetime
import functools
import io
import re
import sys
import tomllib

EPOCH = datetime.date(1970, 1, 1)


def number_of(year, month, day):
    return (datetime.date(year, month, day) - EPOCH).days


FIRST_DAY, LAST_DAY = number_of(1972, 1, 1), number_of(2071, 12, 31)
LAST_PLANNING_DAY = number_of(2065, 12, 31)
DAY = 1440
LONGEST_INTERVAL, LONGEST_EXTENSION = 1999, 21
MOST_ROWS, GREATEST_SERIAL, LONGEST_WINDOW = 200_000, 999_999_999, 1461
WEEKDAYS = ["MON", "TUE", "WED", "THU", "FRI", "SAT", "SUN"]


# Spellings: each answers None where the text has another form.

def read_day(text):
    if not re.fullmatch(r"[0-9]{4}-[0-9]{2}-[0-9]{2}", text):
        return None
    try:
        day = number_of(*map(int, text.split("-")))
    except ValueError:
        return None
    return day if FIRST_DAY <= day <= LAST_DAY else None


def read_minute(text):
    if not re.fullmatch(r"[0-9]{2}\.[0-9]{2}", text):
        return None
    hour, minute = int(text[:2]), int(text[3:])
    return hour * 60 + minute if hour < 24 and minute < 60 else None


def read_moment(text):
    if len(text) != 16 or text[10] != "/":
        return None
    day, minute = read_day(text[:10]), read_minute(text[11:])
    return None if day is None or minute is None else day * DAY + minute


def read_name(text, longest):
    return text if re.fullmatch(r"[A-Z@#$][A-Z0-9@#$]{0,%d}" % (longest - 1), text) else None


def read_number(text, low, high):
    if not re.fullmatch(r"0|[1-9][0-9]{0,11}", text):
        return None
    return int(text) if low <= int(text) <= high else None


def day_text(day):
    return (EPOCH + datetime.timedelta(day)).isoformat()


def minute_text(minute):
    return "%02d.%02d" % (minute // 60, minute % 60)


def moment_text(moment, between=" "):
    return day_text(moment // DAY) + between + minute_text(moment % DAY)


class Faulty(Exception):
    """A block's first faulty record."""


class Refusal(Exception):
    """A refusal: its number, and what it shows after it."""

    def __init__(self, number, detail=None):
        super().__init__(number)
        self.line = f"refused {number}" + ("" if detail is None else f" {detail}")


# Data blocks: a dictionary by name of what the records define.

def check(good):
    if not good:
        raise Faulty


def take_calendar(found, fields):
    name, entry, status = fields
    key = ("weekday", WEEKDAYS.index(entry)) if entry in WEEKDAYS else ("date", read_day(entry))
    check(read_name(name, 16) and key[1] is not None and status in ("WORK", "FREE"))
    calendar = found.setdefault(name, {})
    check(key not in calendar)
    calendar[key] = status == "WORK"


def take_period(found, fields):
    name, kind, origin, second = fields
    origin = read_day(origin)
    check(read_name(name, 8) and kind in ("A", "W", "N") and origin is not None)
    before = found.get(name)
    if kind in "AW":
        interval = read_number(second, 1, LONGEST_INTERVAL)
        check(interval is not None and before is None)
        found[name] = (kind, origin, interval)
        return
    end = None
    if second:
        end = read_day(second)
        check(end is not None and origin <= end)
    if before is None:
        found[name] = ("N", [(origin, end)])
    else:
        check(before[0] == "N" and before[1][-1][0] < origin)
        before[1].append((origin, end))


def take_application(found, fields):
    name, status, calendar = fields
    check(read_name(name, 16) and status in ("A", "P") and (calendar == "" or read_name(calendar, 16)))
    check(name not in found)
    found[name] = (status == "A", calendar or None)


def read_offset(text):
    negative = text.startswith("-")
    size = read_number(text[1:] if negative else text, 1, LONGEST_INTERVAL)
    check(size is not None)
    return -size if negative else size


def take_run_cycle(found, fields):
    app, name, kind, period, rule, offsets, in_effect, out_effect, time, days, due = fields
    check(read_name(app, 16) and read_name(name, 8) and kind in ("N", "X") and read_name(period, 8))
    check(rule in ("E", "1", "2", "3", "4"))
    offsets = [read_offset(text) for text in offsets.split(" ")]
    check(len(offsets) <= 64)
    in_effect, time = read_day(in_effect), read_minute(time)
    check(in_effect is not None and time is not None)
    if out_effect:
        out_effect = read_day(out_effect)
        check(out_effect is not None)
    if kind == "X" and days == due == "":
        deadline = None
    else:
        deadline = (read_number(days, 0, 99), read_minute(due))
        check(None not in deadline)
    cycles = found.setdefault(app, {})
    check(name not in cycles)
    cycles[name] = dict(kind=kind, period=period, rule=rule, offsets=offsets, first=in_effect,
                        end=out_effect or None, time=time, deadline=deadline)


def take_predecessor(found, fields):
    app, predecessor, hours = fields if len(fields) == 3 else (*fields, "")
    check(read_name(app, 16) and read_name(predecessor, 16))
    within = read_number(hours, 1, 9999) if hours else None
    check(within is not None or hours == "")
    listed = found.setdefault(app, {})
    check(predecessor not in listed)
    listed[predecessor] = within


RECORDS = {
    "calendars": ([3], take_calendar),
    "periods": ([4], take_period),
    "applications": ([3], take_application),
    "run-cycles": ([11], take_run_cycle),
    "predecessors": ([2, 3], take_predecessor),
}
OPTIONS = {"default_calendar": "DEFAULT", "max_extension_hours": 504}


BYTE_ORDER_MARK = b"\xef\xbb\xbf"


def read_options(block):
    try:
        given = tomllib.loads(block.decode("utf-8"))
    except (tomllib.TOMLDecodeError, UnicodeDecodeError):
        raise Refusal(11, 1) from None
    name, hours = ({**OPTIONS, **given}[key] for key in OPTIONS)
    good = set(given) <= set(OPTIONS) and isinstance(name, str) and read_name(name, 16)
    if not good or type(hours) is not int or not 1 <= hours <= 504:
        raise Refusal(11, 1)
    return {**OPTIONS, **given}


def read_block(kind, block):
    block = block.removeprefix(BYTE_ORDER_MARK)
    if kind == "options":
        return read_options(block)
    widths, take = RECORDS[kind]
    found, number = {}, 0
    for fields in csv.reader(io.StringIO(block.decode("latin-1"), newline="")):
        if fields:
            number += 1
            try:
                check(len(fields) in widths)
                widths = [len(fields)]
                take(found, fields)
            except Faulty:
                raise Refusal(11, number) from None
    return found


# Days that run cycles name.

def intervals_of(period):
    """The intervals of a period of type A or N, as first and last day; an open one has no last day."""
    if period[0] == "A":
        _, origin, length = period
        return [(day, day + length - 1) for day in range(origin, LAST_DAY + 2 - length, length)]
    origins = period[1]
    nexts = [origin for origin, _ in origins[1:]] + [None]
    return [(first, end if end is not None else after and after - 1) for (first, end), after in zip(origins, nexts)]


def counted_days(cycle, first, last, work, until):
    """By rule E: the work days that the offsets count in one interval."""
    days = [day for day in range(first, (until if last is None else last) + 1) if work(day)]
    for k in cycle["offsets"]:
        if 0 < k <= len(days):
            yield days[k - 1]
        if k < 0 and last is not None and -k <= len(days):
            yield days[k]


def shifted(rule, raw, work):
    """The day that a raw day gives by a free-day rule, or None."""
    if work(raw) or rule == "3":
        return raw
    step = {"1": -1, "2": 1}.get(rule)
    while step and FIRST_DAY <= raw <= LAST_DAY:
        if work(raw):
            return raw
        raw += step
    return None


def raw_days(cycle, first, last):
    for k in cycle["offsets"]:
        raw = first + k - 1 if k > 0 else None if last is None else last + k + 1
        if raw is not None and first <= raw <= LAST_DAY and (last is None or raw <= last):
            yield raw


def days_of_work_period(cycle, period, work, last):
    _, origin, length = period
    count = 0
    for day in range(origin, last + 1):
        if work(day):
            if count % length + 1 in cycle["offsets"] or count % length - length in cycle["offsets"]:
                yield day
            count += 1


def days_of_intervals(cycle, period, work, first, last):
    """The days that a run cycle names in the intervals of its period, at least those from first to last."""
    days = set()
    if period[0] == "W":
        days.update(days_of_work_period(cycle, period, work, last))
    else:
        for begin, end in intervals_of(period):
            if cycle["rule"] == "E":
                if begin <= last and (end is None or first <= end):
                    days.update(counted_days(cycle, begin, end, work, LAST_DAY))
            else:
                days.update(shifted(cycle["rule"], raw, work) for raw in raw_days(cycle, begin, end))
    days.discard(None)
    return days


def days_named(cycle, period, work, first, last):
    """The days from first to last that a run cycle names. Those of all intervals are worked out once for each calendar,
    period, rule and offsets."""
    if cycle["rule"] == "E" or period[0] == "W":
        days = days_of_intervals(cycle, period, work, first, last)
    else:
        key = cycle["rule"], tuple(cycle["offsets"]), repr(period)
        if key not in work.named:
            work.named[key] = sorted(days_of_intervals(cycle, period, work, FIRST_DAY, LAST_DAY))
        found = work.named[key]
        days = found[bisect.bisect_left(found, first) : bisect.bisect_right(found, last)]
    return {day for day in days if first <= day <= last and cycle["first"] <= day
            and (cycle["end"] is None or day < cycle["end"])}


class WorkDays:
    """Whether a day is a work day of a calendar, and the days that run cycles name by it."""

    def __init__(self, key):
        calendar = dict(key)
        self.days = [calendar.get(("date", day), calendar.get(("weekday", (day + 3) % 7), True))
                     for day in range(FIRST_DAY, LAST_DAY + 1)]
        self.named = {}

    def __call__(self, day):
        return self.days[day - FIRST_DAY]


@functools.lru_cache(50)
def work_days_of(key):
    """The WorkDays of a calendar, by its sorted items: planners that define the same share them."""
    return WorkDays(key)


class Planner:
    """All that a planner knows. A row is (serial, application, input arrival, deadline, run cycle or None)."""

    def __init__(self):
        self.defined = {kind: {} for kind in RECORDS}
        self.options = dict(OPTIONS)
        self.bounds = None  # first day, last day, plan end
        self.issued = 0
        self.planned, self.current, self.history, self.deleted = {}, {}, {}, {}  # by serial
        self.pairs, self.in_force, self.jobs, self.calendars = set(), {}, {}, {}

    def copy(self):
        """A planner that goes its own way from here; a definition, a row and a list are never changed in place."""
        other = Planner()
        other.__dict__.update(self.__dict__)
        other.defined = {kind: dict(names) for kind, names in self.defined.items()}
        for held in ("planned", "current", "history", "deleted", "jobs"):
            setattr(other, held, dict(getattr(self, held)))
        return other

    # Definitions

    def active(self):
        return sorted(app for app, (is_active, _) in self.defined["applications"].items() if is_active)

    def work_days(self, app):
        return self.work_days_by(self.defined["applications"][app][1] or self.options["default_calendar"])

    def work_days_by(self, name):
        calendar = self.defined["calendars"].get(name, {})
        key = tuple(sorted(calendar.items()))
        if key not in self.calendars:
            self.calendars[key] = work_days_of(key)
        return self.calendars[key]

    def ask_definitions(self, apps):
        for app in apps:
            name = self.defined["applications"][app][1]
            if name not in (None, self.options["default_calendar"]) and name not in self.defined["calendars"]:
                raise Refusal(22, app)
        for app in apps:
            cycles = self.defined["run-cycles"].get(app, {}).values()
            if any(cycle["period"] not in self.defined["periods"] for cycle in cycles):
                raise Refusal(23, app)

    def named(self, app, first, last):
        """The named occurrences of an active application: (day, time) to (run cycle, deadline)."""
        work, given, taken = self.work_days(app), {}, set()
        for name, cycle in sorted(self.defined["run-cycles"].get(app, {}).items()):
            for day in days_named(cycle, self.defined["periods"][cycle["period"]], work, first, last):
                if cycle["kind"] == "X":
                    taken.add((day, cycle["time"]))
                else:
                    days, due = cycle["deadline"]
                    given.setdefault((day, cycle["time"]), (name, (day + days) * DAY + due))
        return {key: value for key, value in given.items() if key not in taken}

    def named_within(self, apps, first, end):
        """The keys (input arrival, application) that are named from a moment to before another."""
        found = {}
        for app in apps:
            for (day, time), value in self.named(app, first // DAY, (end - 1) // DAY).items():
                if first <= day * DAY + time < end:
                    found[day * DAY + time, app] = value
        return found

    # Rows and pairs

    def live(self):
        yield from self.planned.values()
        yield from (row for row, status in self.current.values() if status != "D")
        yield from self.history.values()

    def settle_pairs(self):
        """The pairs after a statement: those of open rows anew, those of started and complete ones as they were."""
        arrivals = {}
        for serial, app, arrival, _, _ in self.live():
            arrivals.setdefault(app, []).append((arrival, serial))
        for listed in arrivals.values():
            listed.sort()
        pairs = set()
        waiting = [row for row, status in self.current.values() if status == "W"]
        for serial, app, arrival, _, _ in list(self.planned.values()) + waiting:
            for predecessor, within in self.in_force.get(app, {}).items():
                listed = arrivals.get(predecessor, [])
                before = bisect.bisect_left(listed, (arrival + (predecessor != app), 0))
                if before and (within is None or arrival <= listed[before - 1][0] + within * 60):
                    pairs.add((serial, listed[before - 1][1]))
        closed = {serial for serial, (_, status) in self.current.items() if status in "SEC"} | set(self.history)
        self.pairs = pairs | {pair for pair in self.pairs if pair[0] in closed}

    def lists(self):
        return {app: dict(listed) for app, listed in self.defined["predecessors"].items() if listed}

    def ask_loop(self, lists):
        """The least application from which a way leads back over another one."""
        ways = {app: set(listed) - {app} for app, listed in lists.items()}
        for app in sorted(ways):
            reached, open_ends = set(), list(ways[app])
            while open_ends:
                here = open_ends.pop()
                if here not in reached:
                    reached.add(here)
                    open_ends.extend(ways.get(here, ()))
            if app in reached:
                raise Refusal(25, app)

    def new_rows(self, named):
        """Rows of the named keys that stand nowhere in the plan and that no operator deleted, numbered by key."""
        taken = {(row[2], row[1]) for row in self.planned.values()}
        taken |= {(row[2], row[1]) for row, reason in self.deleted.values() if reason == "O"}
        keys = sorted(key for key in named if key not in taken)
        return [(self.issued + number, app, arrival, named[arrival, app][1], named[arrival, app][0])
                for number, (arrival, app) in enumerate(keys, 1)]

    def ask_room(self, more, new):
        if len(self.planned) + len(self.current) + more > MOST_ROWS or self.issued + new > GREATEST_SERIAL:
            raise Refusal(31)

    def ask_plan(self):
        if self.bounds is None:
            raise Refusal(20)
        return self.bounds

    # Decisions: each is refused, or answers what it would show, its reply, and the change

    def planning(self, bounds, lists, rows, withdrawn=(), changed=()):
        self.ask_room(len(rows) - len(withdrawn), len(rows))

        def change():
            self.bounds, self.in_force = bounds, lists
            self.planned.update((row[0], row) for row in changed)
            for row in withdrawn:
                self.deleted[row[0]] = (self.planned.pop(row[0]), "W")
            self.planned.update((row[0], row) for row in rows)
            self.issued += len(rows)
            self.settle_pairs()

        shown = [("+", row, "") for row in rows] + [("-", row, "") for row in withdrawn]
        return shown, f"ok made {len(rows)} withdrawn {len(withdrawn)}", change

    def create(self, first, last):
        if self.bounds:
            raise Refusal(21)
        self.ask_definitions(self.active())
        if last < first or last > LAST_PLANNING_DAY or last > first + LONGEST_WINDOW:
            raise Refusal(24)
        self.ask_loop(self.lists())
        rows = self.new_rows(self.named_within(self.active(), first * DAY, (last + 1) * DAY))
        return self.planning((first, last, first * DAY), self.lists(), rows)

    def extend(self, to):
        first, last, end = self.ask_plan()
        self.ask_definitions(self.active())
        if to <= last or to > LAST_PLANNING_DAY or to > end // DAY + LONGEST_WINDOW:
            raise Refusal(24)
        self.ask_loop(self.lists())
        rows = self.new_rows(self.named_within(self.active(), (last + 1) * DAY, (to + 1) * DAY))
        return self.planning((first, to, end), self.lists(), rows)

    def modify(self, apps, looks_at, lists):
        _, last, end = self.bounds
        named = self.named_within(apps, end, (last + 1) * DAY)
        looked_at = [row for row in self.planned.values() if row[4] is not None and looks_at(row[1])]
        withdrawn = [row for row in looked_at if (row[2], row[1]) not in named]
        changed = [(serial, app, arrival, named[arrival, app][1], named[arrival, app][0])
                   for serial, app, arrival, _, _ in looked_at if (arrival, app) in named]
        return self.planning(self.bounds, lists, self.new_rows(named), withdrawn, changed)

    def modify_all(self):
        self.ask_plan()
        self.ask_definitions(self.active())
        self.ask_loop(self.lists())
        return self.modify(self.active(), lambda app: True, self.lists())

    def modify_one(self, app):
        self.ask_plan()
        is_active = app in self.active()
        self.ask_definitions([app] if is_active else [])
        lists = {other: listed for other, listed in self.in_force.items() if other != app}
        if app in self.lists():
            lists[app] = self.lists()[app]
        self.ask_loop(lists)
        if not is_active:
            raise Refusal(26)
        return self.modify([app], lambda other: other == app, lists)

    def add(self, app, arrival, to_current):
        first, last, end = self.ask_plan()
        begin, stop = (first * DAY, end) if to_current else (end, (last + 1) * DAY)
        if not begin <= arrival < stop:
            raise Refusal(24)
        if app not in self.active():
            raise Refusal(26)
        if any(row[1:3] == (app, arrival) for row in self.live()):
            raise Refusal(27)
        self.ask_room(1, 1)
        row = (self.issued + 1, app, arrival, arrival + DAY, None)

        def change():
            self.issued += 1
            if to_current:
                self.current[row[0]] = (row, "W")
            else:
                self.planned[row[0]] = row
            self.settle_pairs()

        return [], f"ok serial {row[0]}", change

    def delete(self, app, arrival):
        self.ask_plan()
        found = [serial for serial, row in self.planned.items() if row[1:3] == (app, arrival)]
        if not found:
            raise Refusal(28)

        def change():
            self.deleted[found[0]] = (self.planned.pop(found[0]), "O")
            self.settle_pairs()

        return [], f"ok serial {found[0]}", change

    def new_end(self, number, count):
        """The plan end that a number of days from that of today on gives; one past all days where there is none."""
        day, minute = divmod(self.ask_plan()[2], DAY)
        work = self.work_days_by(self.options["default_calendar"])
        while number and day <= LAST_DAY:
            number -= count == "A" or work(day)
            day += 1
        return (LAST_DAY + 1) * DAY if number or day > LAST_DAY else day * DAY + minute

    def daily(self, to):
        first, last, end = self.ask_plan()
        if to is None:
            to = end
        elif to <= end or to > (last + 1) * DAY or to > end + 60 * self.options["max_extension_hours"]:
            raise Refusal(32)
        moved = [row for row in self.planned.values() if row[2] < to]
        by_status = {status: [row for row, held in self.current.values() if held == status] for status in "WSECD"}

        def change():
            for row in moved:
                self.current[row[0]] = (self.planned.pop(row[0]), "W")
            for row in by_status["C"]:
                self.history[row[0]] = self.current.pop(row[0])[0]
            for row in by_status["D"]:
                self.deleted[row[0]] = (self.current.pop(row[0])[0], "P")
            self.bounds = (first, last, to)
            self.settle_pairs()

        signs = {"W": "=", "S": "=", "E": "=", "C": "H", "D": "X"}
        shown = [(">", row, " W") for row in moved]
        shown += [(signs[status], row, " " + status) for status, rows in by_status.items() for row in rows]
        carried = sum(len(by_status[status]) for status in "WSE")
        completed, gone = len(by_status["C"]), len(by_status["D"])
        return shown, f"ok moved {len(moved)} carried {carried} completed {completed} deleted {gone}", change

    def act(self, action, app, arrival):
        self.ask_plan()
        found = [(row, status) for row, status in self.current.values()
                 if row[1:3] == (app, arrival) and status != "D"]
        if not found:
            raise Refusal(28)
        row, status = found[0]
        after = NEXT_STATUS.get((status, action))
        if after is None:
            raise Refusal(29)
        if action == "start":
            complete = set(self.history) | {serial for serial, (_, held) in self.current.items() if held == "C"}
            waits_for = [last for first, last in self.pairs if first == row[0] and last not in complete]
            if waits_for:
                raise Refusal(30, min(waits_for))

        def change():
            self.current[row[0]] = (row, after)
            self.settle_pairs()

        return [], f"ok serial {row[0]} status {after}", change

    def define(self, kind, block):
        def change():
            if kind == "options":
                self.options = block
            else:
                self.defined[kind].update(block)

        return [], f"ok defined {1 if kind == 'options' else len(block)}", change

    def undefine(self, kind, name):
        if name not in self.defined[kind]:
            raise Refusal(13)
        return [], "ok undefined", lambda: self.defined[kind].pop(name)

    # What is shown

    def days(self, app, first, last):
        is_active = app in self.active()
        self.ask_definitions([app] if is_active else [])
        if last < first or last > LAST_PLANNING_DAY or last - first + 1 > LONGEST_WINDOW:
            raise Refusal(24)
        if not is_active:
            raise Refusal(26)
        return [f"{day_text(day)} {minute_text(time)} {name:8} {moment_text(due)}"
                for (day, time), (name, due) in sorted(self.named(app, first, last).items())]

    def list(self, what, app):
        if what == "dependencies":
            rows = {**self.planned, **self.history}
            for held in (self.current, self.deleted):
                rows.update((serial, row) for serial, (row, _) in held.items())
            pairs = [(rows[first], rows[last]) for first, last in sorted(self.pairs)]
            return [f"{end_text(first)} {end_text(last)}" for first, last in pairs if app in (None, first[1])]
        if what == "links":
            return [f"{own:16} {other:16} {'' if within is None else within:>4}"
                    for own, listed in sorted(self.in_force.items()) if app in (None, own)
                    for other, within in sorted(listed.items())]
        held = {
            "ltp": [(row, "") for row in self.planned.values()],
            "cp": [(row, " " + status) for row, status in self.current.values()],
            "history": [(row, " C") for row in self.history.values()],
            "deletions": [(row, " " + reason) for row, reason in self.deleted.values()],
        }[what]
        return [row_text(row) + mark for row, mark in sorted(held, key=lambda one: in_lists(one[0]))
                if app in (None, row[1])]


NEXT_STATUS = {("W", "start"): "S", ("S", "complete"): "C", ("E", "complete"): "C", ("S", "fail"): "E",
               ("E", "reset"): "W", ("W", "delete"): "D", ("E", "delete"): "D"}


def in_lists(row):
    return row[2], row[1], row[0]


def row_text(row):
    serial, app, arrival, deadline, cycle = row
    origin = "A" if cycle is None else "G"
    return f"{serial:09} {app:16} {origin} {cycle or '':8} {moment_text(arrival)} {moment_text(deadline)}"


def end_text(row):
    return f"{row[0]:09} {row[1]:16} {moment_text(row[2])}"


# Statements: the word that stands alone, and the options after it

KINDS = list(RECORDS) + ["options"]
JOB = {"job": lambda text: read_number(text, 1, 999_999_999)}
APP = {"app": lambda text: read_name(text, 16)}
KEY = {**APP, "ia": read_moment}
FROM, TO, TO_MOMENT = {"from": read_day}, {"to": read_day}, {"to": read_moment}
BY_DAYS = {"days": lambda text: read_number(text, 1, LONGEST_EXTENSION),
           "count": lambda text: text if text in ("A", "W") else None}
EXTEND, EXTEND_TRIAL = ("dp-extend", None), ("dp-trial", "extend")
ACTIONS = ("start", "complete", "fail", "reset", "delete")
OPTIONS_OF = {
    "define": JOB,
    "undefine": {**JOB, "name": lambda text: read_name(text, 16)},
    "days": {**APP, **FROM, **TO},
    "ltp-create": {**FROM, **TO, **JOB},
    "ltp-extend": {**TO, **JOB},
    "ltp-modify-all": JOB,
    "ltp-modify-one": {**APP, **JOB},
    "ltp-trial create": {**FROM, **TO},
    "ltp-trial extend": TO,
    "ltp-trial modify-all": {},
    "ltp-trial modify-one": APP,
    "ltp-add": {**KEY, **JOB},
    "ltp-delete": {**KEY, **JOB},
    "dp-extend": {**TO_MOMENT, **JOB},
    "dp-replan": JOB,
    "dp-trial extend": TO_MOMENT,
    "dp-trial replan": {},
    "cp-add": {**KEY, **JOB},
    **{f"cp-{action}": {**KEY, **JOB} for action in ACTIONS},
    "list": APP,
}
WORDS_OF = {
    "define": KINDS,
    "undefine": list(RECORDS),
    "ltp-trial": ["create", "extend", "modify-all", "modify-one"],
    "dp-trial": ["extend", "replan"],
    "list": ["ltp", "cp", "history", "deletions", "dependencies", "links"],
}


def read_statement(words):
    """The statement's name, its word, and its options' values; None where the words are no statement."""
    name, alone, given, rest = words[0], [], {}, words[1:]
    while rest:
        word = rest.pop(0)
        if not word.startswith("-"):
            alone.append(word)
            continue
        option, equals, value = word.partition("=")
        if not equals:
            if not rest or rest[0].startswith("-"):
                return None
            value = rest.pop(0)
        if not option.startswith("--") or option[2:] in given:
            return None
        given[option[2:]] = value
    if len(alone) != (name in WORDS_OF) or name in WORDS_OF and alone[0] not in WORDS_OF[name]:
        return None
    word = alone[0] if alone else None
    forms = OPTIONS_OF.get(f"{name} {word}" if name.endswith("trial") else name)
    if (name, word) in (EXTEND, EXTEND_TRIAL) and "to" not in given:
        forms = {**BY_DAYS, **(JOB if word is None else {})}
    if forms is None or not set(given) <= set(forms) or name != "list" and set(given) != set(forms):
        return None
    values = {option: forms[option](text) for option, text in given.items()}
    if None in values.values() or (name, word) == ("undefine", "periods") and len(values["name"]) > 8:
        return None
    return name, word, values


def decide(planner, name, word, values, block):
    """What a statement that changes something decides, or would, for a trial."""
    app, first, to, key = (values.get(option) for option in ("app", "from", "to", "ia"))
    what = name.removesuffix("trial") + word if name.endswith("trial") else name
    return {
        "define": lambda: planner.define(word, block),
        "undefine": lambda: planner.undefine(word, values["name"]),
        "ltp-create": lambda: planner.create(first, to),
        "ltp-extend": lambda: planner.extend(to),
        "ltp-modify-all": planner.modify_all,
        "ltp-modify-one": lambda: planner.modify_one(app),
        "ltp-add": lambda: planner.add(app, key, False),
        "ltp-delete": lambda: planner.delete(app, key),
        "dp-extend": lambda: planner.daily(planner.new_end(values["days"], values["count"]) if to is None else to),
        "dp-replan": lambda: planner.daily(None),
        "cp-add": lambda: planner.add(app, key, True),
        **{f"cp-{action}": lambda action=action: planner.act(action, app, key) for action in ACTIONS},
    }[what]()


def answer(planner, words, block):
    """The lines that a statement is answered; the last one is its reply."""
    statement = read_statement(words)
    if statement is None:
        return ["refused 10"]
    name, word, values = statement
    try:
        if name == "define":
            if block is None or len(block) > 262_144:
                raise Refusal(11, 0)
            data, block = block, read_block(word, block)
        if "job" not in values:
            return show(planner, name, word, values)
    except Refusal as refused:
        return [refused.line]
    text = " ".join(words).encode() + (b"\n" + data if name == "define" else b"")
    kept_text, kept_reply = planner.jobs.get(values["job"], (text, None))
    if kept_text != text:
        return ["refused 12"]
    if kept_reply is None:
        try:
            _, kept_reply, change = decide(planner, name, word, values, block)
            change()
        except Refusal as refused:
            kept_reply = refused.line
        planner.jobs[values["job"]] = (text, kept_reply)
    return [kept_reply]


def show(planner, name, word, values):
    """What a statement shows that changes nothing."""
    if name.endswith("trial"):
        shown, reply, _ = decide(planner, name, word, values, None)
        shown.sort(key=lambda one: in_lists(one[1]))
        return [f"{sign} {row_text(row)}{mark}" for sign, row, mark in shown] + [reply]
    if name == "days":
        rows = planner.days(values["app"], values["from"], values["to"])
    else:
        rows = planner.list(word, values.get("app"))
    return rows + [f"ok rows {len(rows)}"]


# Streams

def lines_of(stream):
    """The lines of a stream with the place behind each; one carriage return at a line's end is dropped."""
    place = 0
    while place < len(stream):
        end = stream.find(b"\n", place)
        line = stream[place:] if end < 0 else stream[place:end]
        place = len(stream) if end < 0 else end + 1
        yield line.removesuffix(b"\r"), place


def is_skipped(line):
    return len(line) <= 1024 and (line.strip(b" \t") == b"" or line.startswith(b"*"))


def run(stream, planner):
    """The lines of all answers."""
    answers, lines, place = [], lines_of(stream), 0
    for line, place in lines:
        has_data = first_word(line[:1024]) == b"define"
        if not has_data and is_skipped(line):
            continue
        begin, block = place, None
        if has_data:
            before = place
            for data_line, place in lines:
                if data_line == b"/*":
                    block = stream[begin:before]
                    break
                before = place
        readable = len(line) <= 1024 and all(byte == 9 or 32 <= byte <= 126 for byte in line)
        words = line.decode("ascii").replace("\t", " ").split() if readable else []
        answers += answer(planner, words, block) if words else ["refused 10"]
    return answers


def first_word(line):
    words = line.replace(b"\t", b" ").strip(b" ").split(b" ")
    return words[0]


def status_of(answers):
    return 4 if any(line.startswith("refused") for line in answers) else 0


def main():
    answers = run(sys.stdin.buffer.read(), Planner())
    sys.stdout.write("".join(line + "\n" for line in answers))
    return status_of(answers)


if __name__ == "__main__":
    sys.exit(main())
