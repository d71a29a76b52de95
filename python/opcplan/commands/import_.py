"""./plan import: holidays or a crontab, as the job stream that gives them to a plan."""

import argparse
import dataclasses
import datetime
import sys

from opcplan.acts import loaded
from opcplan.cli import words
from opcplan.commands import cron_jobs, edit_change, edit_words, import_cron, import_csv, import_forms, import_ics
from opcplan.commands.import_result import Changes
from opcplan.edits import calendars, words as edit_texts
from opcplan.edits.calendars import Entry
from opcplan.edits.changes import ChangeRefused
from opcplan.plans import plan_definitions, plan_file, stream_file
from opcplan.plans.plan_file import Plan
from opcplan.rules import stream
from opcplan.rules.definitions import FIRST_DAY, LAST_DAY, LAST_PLANNING_DAY, Definitions
from opcplan.rules.moments import DAY, EPOCH, day_text
from opcplan.rules.naming_words import count_text, few

SUMMARY = "the job stream that gives a plan holidays (iCalendar, CSV), or a crontab's jobs"
LONGEST = 1461  # days that a plan may reach on
OF_FILE = stream.Bounds(16 << 20, 1_000_000)


@dataclasses.dataclass(frozen=True)
class Settings:
    """The file and its form, the calendar, which days are taken, and what is made of a crontab."""

    path: str
    form: str
    calendar: str | None
    is_new: bool  # whether the calendar may be a new one
    first: int | None
    last: int | None
    is_system: bool  # whether the lines of the crontab name a user
    jobs: str | None
    job: int | None


def add_words(parser: words.Parser) -> None:
    """Adds its words to a parser."""
    parser.description = (
        "Prints the job stream that puts what FILE has into the definitions of PLAN.db. Of iCalendar (--ics) each "
        "all-day event makes its days free in the calendar; events of several days and yearly rules too. Of CSV "
        "(--csv) each record is `date[,status[,comment]]`; the status is free, also if it is missing, or work. Other "
        "days of the calendar stay. Of a crontab (--cron) each line makes an application with its run cycles, and the "
        "periods in which they count if the plan has none that fits. Standard error says what is imported, what isn't, "
        "and why. The exit status is 1 if something is left out or nothing would change, and 2 if the words or the "
        f"file's records are wrong. A file of more than {OF_FILE} isn't read."
    )
    kinds = parser.add_mutually_exclusive_group(required=True)
    kinds.add_argument("--ics", metavar="FILE", type=words.file,
                       help="an iCalendar file (needs Debian's python3-icalendar)")
    kinds.add_argument("--csv", metavar="FILE", type=words.file, help="a file of records `date[,status[,comment]]`")
    kinds.add_argument("--cron", metavar="FILE", type=words.file, help="a crontab, as `crontab -l` prints it")
    parser.add_argument("--calendar", metavar="NAME", type=edit_words.name,
                        help="the calendar that gets the days, or that a crontab's applications use")
    parser.add_argument("--new", action="store_true", help="make the calendar if the plan has none of this name")
    parser.add_argument("--from", dest="first", metavar="D", type=edit_words.day,
                        help="the first day to import (else the plan's first day, or the year's; of CSV: each)")
    parser.add_argument("--to", dest="last", metavar="D", type=edit_words.day,
                        help=f"the last day to import (else {LONGEST:,} days on; of CSV: each)")
    parser.add_argument("--system", action="store_true",
                        help="the lines of the crontab name a user before the command, as in /etc/crontab")
    parser.add_argument("--jobs", metavar="DIR", type=words.file,
                        help="write a job file into this folder for each application of the crontab, as `./plan agent "
                        "--jobs DIR` runs it")
    edit_words.add_job(parser)
    words.add_plan(parser)


def run(given: argparse.Namespace) -> int:
    """Does what the words ask for; the exit status."""
    form = "ics" if given.ics else "csv" if given.csv else "cron"
    return printed(Settings(given.ics or given.csv or given.cron, form, given.calendar, given.new, given.first,
                            given.last, given.system, given.jobs, given.job), given.plan)


def printed(given: Settings, plan_path: str) -> int:
    """Prints the job stream that takes a file into a plan; the exit status."""
    if given.form == "ics":
        import_ics.ask_library()
    with plan_file.opened(plan_path) as plan:
        ask_words(given)
        found = plan_definitions.of_plan(plan)
        ask_calendar(found, given)
        changes, sentences, left, lines = taken(plan, found, given)
        if given.jobs:
            cron_jobs.ask_folder(given.jobs, list(lines))
        text, job = edit_change.stream_of(plan, changes, given.job) if changes else ("", 0)
        if given.jobs:
            sentences += [f"{given.jobs}: {count_text(len(lines), 'job file')}, {few(lines)}.",
                          *cron_jobs.write(given.jobs, lines)]
        sentences += edit_change.way_into(plan, changes, job)
    edit_words.print_sentences([*left, *sentences])
    sys.stdout.write(text)
    return 1 if left or not changes else 0


def ask_words(given: Settings) -> None:
    """Asks that the words fit together."""
    is_cron = given.form == "cron"
    if given.calendar is None and not is_cron:
        raise ChangeRefused("--calendar NAME is missing, the calendar that gets the days", 2)
    if given.is_new and is_cron or (given.is_system or given.jobs) and not is_cron:
        raise ChangeRefused("--new is for holidays, and --system and --jobs are for a crontab", 2)
    if given.first is not None and given.last is not None and given.last < given.first:
        raise ChangeRefused("--to is before --from", 2)


def ask_calendar(found: Definitions, given: Settings) -> None:
    """Asks that the calendar is defined."""
    if given.calendar is None or given.calendar in found.calendars or given.is_new:
        return
    new = "" if given.form == "cron" else "; --new makes it"
    raise ChangeRefused(edit_texts.lack("calendar", given.calendar, found.calendars) + new)


def taken(plan: Plan, found: Definitions, given: Settings) -> Changes:
    """The changes, what is told of them, and what is left out, in sentences."""
    path, name = given.path, given.calendar
    data = bytes_of(path)
    if other := import_forms.other_form(data, given.form):
        raise ChangeRefused(f"{path}: {other}", 2)
    if given.form == "cron":
        return import_cron.changes(found, data, path, name, given.is_system, cron_window(plan, given))
    assert name is not None, "ask_words asks for it"
    if given.form == "csv":
        first, last = given.first or FIRST_DAY, LAST_DAY if given.last is None else given.last
        days, sentences, left = import_csv.days(data, path, first, last)
    else:
        days, sentences, left = import_ics.days(data, path, *window(plan, given))
    if not days:
        raise ChangeRefused(" ".join([f"{path}: it has no day to import.", *left, *sentences]))
    wanted: calendars.Wanted = {Entry("date", day): days[day] for day in sorted(days)}
    change = calendars.of_entries(loaded.world_of(plan), found, name, wanted)
    if name not in found.calendars:
        sentences.append(f"{name} is new: it lists no weekday, so Saturdays and Sundays are work days in it.")
    return Changes([change], [*sentences, *change.sentences], left)


def bytes_of(path: str) -> bytes:
    """The bytes of a file, or of standard input for `-`. Raises Unreadable."""
    with stream_file.opened(path, OF_FILE) as source:
        return b"".join(source.pieces())


def window(plan: Plan, given: Settings) -> tuple[int, int]:
    """The first and the last day that are taken."""
    new_year = (datetime.datetime(datetime.date.today().year, 1, 1) - EPOCH).days
    begin, end = (plan.meta["first_day"], plan.meta["plan_end"] // DAY) if plan.is_created else (new_year, new_year)
    first = begin if given.first is None else given.first
    last = min(LAST_PLANNING_DAY, max(end, first) + LONGEST) if given.last is None else given.last
    if last < first:
        raise ChangeRefused(f"--to {day_text(last)} is before {day_text(first)}, the first day to import", 2)
    return first, last


def cron_window(plan: Plan, given: Settings) -> import_cron.Window:
    """The days of a crontab's periods: those that nobody named may be fewer, down to those of the long-term plan."""
    first, last = window(plan, given)
    begin_by = last if given.first is None and not plan.is_created else first
    reach = last if given.last is not None else plan.meta["last_day"] if plan.is_created else first
    return import_cron.Window(first, last, begin_by, reach)
