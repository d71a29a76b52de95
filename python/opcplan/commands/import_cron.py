"""Applications, periods and run cycles of a crontab's lines."""

import calendar
import re
from collections.abc import Callable, Container
from typing import Any, NamedTuple

from opcplan.commands import crontab
from opcplan.commands.crontab import Line, UnsupportedLine
from opcplan.commands.import_result import Changes
from opcplan.edits.changes import Change, ChangeRefused
from opcplan.rules.definitions import FIRST_DAY, Application, Definitions, Due, Entry, Period, RunCycle, weekday_of
from opcplan.rules.moments import EPOCH, day_text, minute_text
from opcplan.rules.naming_words import count_text, few

MOST_TIMES = 24  # of one line on a day
MOST_LEFT = 5  # lines that are told where none fits
EVERY_DAY, EVERY_MONTH, EVERY_WEEKDAY = set(range(1, 32)), set(range(1, 13)), set(range(7))
LONGEST_MONTHS = dict(enumerate((31, 29, 31, 30, 31, 30, 31, 31, 30, 31, 30, 31), 1))
MONTHS = [name.upper() for name in crontab.MONTHS]
# words that stand before a command, and those of parts of a line that do no work of their own
BEFORE = set("sudo nice ionice nohup env exec time chronic sh bash python3 python perl".split())
WITH_VALUE = {"-n", "-u", "-g"}
# names that say little of what runs, so that the folder above is named too; and folders that say nothing
GENERIC = {"RUN", "MAIN", "START", "JOB", "INDEX", "SCRIPT", "CRON", "EXECUTE", "APP", "DO", "GO", "BATCH", "TASK",
           "UPDATE", "DAILY", "WEEKLY", "MONTHLY", "HOURLY", "NIGHTLY", "BACKUP", "SYNC", "CLEANUP", "IMPORT", "EXPORT",
           "LOAD"}
PLACES = {"BIN", "SBIN", "LOCAL", "USR", "OPT", "SRV", "HOME", "ETC", "VAR", "LIB", "TMP", "SCRIPTS", "JOBS", "TOOLS"}
ASIDE = {"cd", "test", "[", "[[", "command", "true", ":", "export", "sleep", "umask", "."}


class Way(NamedTuple):
    """A way of counting days: in a `day`, a `week` or a `month`; the months, and the numbers that are counted there."""

    kind: str
    months: set[int]
    numbers: set[int]


class Window(NamedTuple):
    """The days that periods are made for, and those that a period of the usual name has to have to be taken.

    A period of the plan that is called DAY, WEEK, MONTH and so on is taken where it begins by `begin_by`, and lists
    each wanted month that has a day from `begin_by` to `reach`. Where the caller named both days, these are the
    window's own.
    """

    first: int
    last: int
    begin_by: int
    reach: int


def changes(
    found: Definitions, data: bytes, path: str, calendar_name: str | None, has_user: bool, window: Window
) -> Changes:
    """The changes that a crontab's lines make, what is told of them, and what is left out, in sentences."""
    text, made = data.decode("utf-8-sig", "replace"), CronDefinitions(found, calendar_name, window)
    variables = crontab.variables_of(text)
    sentences, left = [], [f"line {number}: a time zone is set, and a plan has "
                           "none." for number in crontab.zones_of(text)]
    for number, line in crontab.lines_of(text):
        try:
            read = crontab.read(number, line, has_user)
            read.variables = variables.get(number, ())
            sentences.append(f"line {number}: {made.take(read)}: {line[:60]}")
        except UnsupportedLine as why:
            left.append(f"line {number} is left out: {why}: {line[:60]}")
    if not sentences:
        more = [f"and {len(left) - MOST_LEFT:,} more lines"] if len(left) > MOST_LEFT else []
        raise ChangeRefused(" ".join([f"{path}: it has no line that fits.", *left[:MOST_LEFT], *more]))
    sentences += [
        f"{count_text(len(made.applications), 'application')}; periods made: {made.period_text()}.",
        *made.short.values(),
        "Each is due a day after it arrives, because a crontab has no deadlines, and runs on free days too, as with "
        "cron (rule 3). `./plan edit PLAN.db run-cycle APP NAME deadline=0/HH.MM rule=1` changes that.",
    ]
    kinds: tuple[tuple[str, dict[str, Any]], ...] = (
        ("periods", made.periods), ("applications", made.applications), ("run-cycles", made.cycles))
    return Changes([Change(kind, names, []) for kind, names in kinds if names], sentences, left, made.lines)


class CronDefinitions:
    """What the lines taken so far make, beside the definitions of a plan."""

    def __init__(self, found: Definitions, calendar_name: str | None, window: Window) -> None:
        self.found, self.calendar, self.window = found, calendar_name, window
        self.first, self.last = window.first, window.last
        self.periods: dict[str, Period] = {}
        self.short: dict[str, str] = {}  # of each period that is taken and has fewer days a sentence
        self.applications: dict[str, Application] = {}
        self.cycles: dict[str, dict[str, RunCycle]] = {}
        self.by_command: dict[tuple[object, ...], str] = {}
        self.lines: dict[str, Line] = {}  # by application the line whose command it runs
        self.used = {*found.applications, *found.run_cycles, *found.predecessors,
                     *(name for listed in found.predecessors.values() for name in listed)}

    def take(self, line: Line) -> str:
        """Takes a line, and says in words what it makes."""
        if len(line.times) > MOST_TIMES:
            raise UnsupportedLine(f"it runs {len(line.times):,} times a day, but at most {MOST_TIMES} are possible")
        ways = days_of(line)
        counted = [(way.kind, *self.period_of(*way)) for way in ways]
        runs = (line.command, line.user, line.variables)
        if runs not in self.by_command:
            self.by_command[runs] = self.app_name(line)
        app = self.by_command[runs]
        self.lines.setdefault(app, line)
        self.applications[app] = Application(True, self.calendar)
        for kind, name, offsets in counted:
            for time in line.times:
                self.add(app, kind[0].upper(), name, offsets, time)
        when = " or ".join(way_text(*way) for way in ways)
        return f"{app}, {when} at {few(map(minute_text, line.times), 4)}"

    def add(self, app: str, letter: str, period: str, offsets: list[int], time: int) -> None:
        """Adds a run cycle to an application where it has none alike."""
        cycles = self.cycles.setdefault(app, {})
        cycle = RunCycle("", "N", period, "3", offsets, self.first, None, time, Due(1, time))
        if any(vars(other) | {"name": ""} == vars(cycle) for other in cycles.values()):
            return
        cycle.name = free_name(f"{letter}{minute_text(time).replace('.', '')}", 8, cycles)
        cycles[cycle.name] = cycle

    def app_name(self, line: Line) -> str:
        """A name for the application of a line, that nothing in the plan has."""
        name = free_name(name_of(line), 16, self.used)
        self.used.add(name)
        return name

    def period_of(self, kind: str, months: set[int], numbers: set[int]) -> tuple[str, list[int]]:
        """The period that numbers of days are counted in, and their offsets there."""
        if kind == "day":
            return self.period_like("DAY", Period("A", self.first, 1), self.is_daily), [1]
        if kind == "month":
            name = "MONTH" if months == EVERY_MONTH else MONTHS[min(months) - 1] if len(months) == 1 else "MONTHS"
            wanted = Period("N", entries=self.month_spans(months))
            if not wanted.entries:
                raise UnsupportedLine(f"none of its months lies between {day_text(self.first)} and "
                                      f"{day_text(self.last)}")
            return self.period_like(name, wanted, lambda other: self.has_spans(other, wanted.entries)), sorted(numbers)
        monday = self.first - weekday_of(self.first)
        name = self.period_like("WEEK", Period("A", max(FIRST_DAY, monday), 7), self.is_weekly)
        begin = weekday_of(self.known_period(name).origin)
        return name, sorted((day - begin) % 7 + 1 for day in numbers)

    def known_period(self, name: str) -> Period:
        """A period of the plan, or one that is made."""
        return self.periods.get(name) or self.found.periods[name]

    def period_like(self, name: str, wanted: Period, is_alike: Callable[[Period], bool]) -> str:
        """The name of a period that is alike, which is made where there is none."""
        for known, period in [*self.found.periods.items(), *self.periods.items()]:
            if is_alike(period):
                return known
        if name in self.found.periods and (short := self.short_text(self.found.periods[name], wanted)):
            self.short[name] = f"{name} of the plan is used; {short}"
            return name
        made = free_name(name, 8, {*self.found.periods, *self.periods})
        self.periods[made] = wanted
        return made

    def is_daily(self, period: Period) -> bool:
        """Whether each day is an interval of a period."""
        return period.kind == "A" and period.interval == 1 and period.origin <= self.first

    def is_weekly(self, period: Period) -> bool:
        """Whether each week is an interval of a period."""
        return period.kind == "A" and period.interval == 7 and period.origin <= self.first

    def has_spans(self, period: Period, spans: list[Entry]) -> bool:
        """Whether a period lists these intervals and no others within the days that are asked for."""
        return period.kind == "N" and spans == self.within(period)

    def short_text(self, period: Period, wanted: Period) -> str:
        """What a period lacks that has enough of a wanted one's intervals; nothing where it hasn't."""
        if (period.kind, period.interval) != (wanted.kind, wanted.interval):
            return ""
        if period.kind == "A":
            return f"it begins {day_text(period.origin)}." if period.origin <= self.window.begin_by else ""
        spans, listed = wanted.entries, self.within(period)
        begin_by, reach = self.window.begin_by, self.window.reach
        needed = [span for span in spans if span.origin <= reach and (span.end or self.last) >= begin_by]
        if not listed or listed[0] not in spans or not set(needed) <= set(listed):
            return ""
        start = spans.index(listed[0])
        if spans[start:start + len(listed)] != listed:
            return ""
        begin, end = day_text(listed[0].origin), day_text(listed[-1].end or self.last)
        return (f"its months go from {begin} to {end}; add later ones before the plan gets there: `./plan edit PLAN.db "
                "period`.")

    def period_text(self) -> str:
        """Which periods are made, and the days for which they list months."""
        if not self.periods:
            return "none"
        names = few(f"{name} of type {period.kind}" for name, period in self.periods.items())
        if all(period.kind == "A" for period in self.periods.values()):
            return names
        return (f"{names}; months are listed from {day_text(self.first)} to {day_text(self.last)} (--from and --to "
                "name others)")

    def within(self, period: Period) -> list[Entry]:
        """What a period lists within the days that are asked for."""
        return [Entry(*span) for span in period.listed()
                if span.first <= self.last and (span.last is None or self.first <= span.last)]

    def month_spans(self, months: set[int]) -> list[Entry]:
        """The first and the last day of each month that is meant and has a day within the days that are asked for."""
        spans: list[Entry] = []
        day = EPOCH.toordinal()
        at = EPOCH.fromordinal(day + self.first)
        year, month = at.year, at.month
        while (begin := EPOCH.replace(year, month).toordinal() - day) <= self.last:
            if month in months:
                spans.append(Entry(begin, begin + calendar.monthrange(year, month)[1] - 1))
            year, month = year + month // 12, month % 12 + 1
        return spans


def days_of(line: Line) -> list[Way]:
    """The days of a line, as ways of counting them."""
    days, weekdays = line.days != EVERY_DAY, line.weekdays != EVERY_WEEKDAY
    either = line.days_given and line.weekdays_given
    if not days and not weekdays or either and not (days and weekdays):
        return [Way("day", EVERY_MONTH, {1}) if line.months == EVERY_MONTH else Way("month", line.months, EVERY_DAY)]
    if days and weekdays and not either:
        raise UnsupportedLine("it means days of the week that are certain days of the month too, which no run cycle "
                              "can name")
    if weekdays and line.months != EVERY_MONTH:
        raise UnsupportedLine("it means days of the week in some months only, which no period has")
    ways = [Way("week", EVERY_MONTH, line.weekdays)] if weekdays else []
    if days and min(line.days) > max(LONGEST_MONTHS[month] for month in line.months):
        raise UnsupportedLine("no such day is in its months")
    return [*ways, Way("month", line.months, line.days)] if days else ways


def way_text(kind: str, months: set[int], numbers: set[int]) -> str:
    """A way of counting days in words."""
    if kind == "day":
        return "each day"
    if kind == "week":
        return f"on {', '.join(('MON', 'TUE', 'WED', 'THU', 'FRI', 'SAT', 'SUN')[day] for day in sorted(numbers))}"
    of = "each month" if months == EVERY_MONTH else ", ".join(MONTHS[month - 1] for month in sorted(months))
    days = f"day{'s' if len(numbers) > 1 else ''} {', '.join(map(str, sorted(numbers)))}"
    return f"on {'each day' if numbers == EVERY_DAY else days} of {of}"


def name_of(line: Line) -> str:
    """A name for the application that runs a line's command."""
    bare = re.sub(r"['\"()]", " ", line.command)
    parts = [part.split() for part in re.split(r"&&|\|\||[;|&]", bare)]
    words: list[str] = next((part for part in parts if part and part[0] not in ASIDE), [])
    here = next((part[1] for part in parts if part[:1] == ["cd"] and len(part) > 1), "")
    is_module = False
    while len(words) > 1 and is_before(words[0]):
        is_module = words[0] == "-m"
        words = words[2 if words[0] in WITH_VALUE else 1 :]
    folder, _, base = "".join(words[:1]).rpartition("/")
    folder = here if folder in ("", ".") else folder
    if is_module:
        folder, _, base = "".join(words[:1]).rpartition(".")
    name = letters_of(base.partition(".")[0] or base)
    above = letters_of(re.split("[/.]" if is_module else "/", folder)[-1])
    if name in GENERIC and above not in ("", name, *PLACES):
        name = f"{above}{name}"
    return name.lstrip("0123456789")[:16] or f"CRON{line.number}"[:16]


def letters_of(text: str) -> str:
    """Those signs of a text that a name may have."""
    return re.sub(r"[^A-Z0-9@#$]", "", text.upper())


def is_before(word: str) -> bool:
    """Whether a word stands before the command proper: a program that runs another one, an option, a variable."""
    return word.rpartition("/")[2] in BEFORE or re.match(r"-|[A-Za-z_][A-Za-z0-9_]*=", word) is not None


def free_name(name: str, longest: int, used: Container[str]) -> str:
    """A name that isn't used: this one, or one with a number behind it."""
    tried, number = name, 1
    while tried in used:
        number += 1
        tried = f"{name[: longest - len(str(number))]}{number}"
    return tried
