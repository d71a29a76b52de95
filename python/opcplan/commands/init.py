"""./plan init: a new plan with the definitions that everybody begins with."""

import argparse
import contextlib
import dataclasses
import os
import re
import sys
from typing import NamedTuple

from opcplan.cli import colours, words
from opcplan.commands import edit_words, import_csv, import_forms, import_ics, run as run_command
from opcplan.edits import periods as period_edits
from opcplan.errors import Unreadable
from opcplan.plans import stream_file, tempfiles
from opcplan.rules import moments, record_texts
from opcplan.rules.definitions import WEEKDAYS, Calendar, Period, weekday_of
from opcplan.rules.stream import Bounds

SUMMARY = "makes a new plan with weekends, holidays, and days, weeks, months and quarters"
OF_FILE = Bounds(16 << 20, 1_000_000)
FIRST_YEAR, LAST_YEAR, MOST_YEARS = 1972, 2065, 30


class Years(NamedTuple):
    """The first and the last year for which months and quarters are listed and holidays are taken."""

    first: int
    last: int

    @property
    def days(self) -> tuple[int, int]:
        """Their first and their last day."""
        first, last = moments.day_of(f"{self.first}-01-01"), moments.day_of(f"{self.last}-12-31")
        assert first is not None and last is not None, "years are those of a plan"
        return first, last


@dataclasses.dataclass(frozen=True)
class Settings:
    """The plan, what its first definitions have (None where that isn't said), and how it is made."""

    plan: str
    years: Years | None
    weekend: tuple[int, ...] | None
    holidays: list[str] | None
    is_stream: bool  # whether the job stream alone is printed
    is_agreed: bool  # whether it is made without asking
    program: str | None
    color: str


def add_words(parser: words.Parser) -> None:
    """Adds its words to a parser."""
    parser.description = (
        "Makes a new plan in PLAN.db with the calendar DEFAULT (the weekend and holidays are free) and the periods "
        "DAY, WEEK, MONTH and QUARTER. On a terminal it asks for what you give no option for; otherwise it uses the "
        "usual values. It shows the definitions, asks, and runs them as `./plan run --new` does, with the same exit "
        "statuses. With --stream it prints them as a job stream and makes no plan."
    )
    words.add_plan(parser)
    parser.add_argument("--years", type=years, metavar="Y[..Y]", help="the years for which months and quarters are "
                        "listed, as 2027..2028 (else this year and the next one)")
    parser.add_argument("--weekend", type=weekend, metavar="DAYS", help="the days of the week that are free, as "
                        "SAT,SUN or FRI,SAT, or none (else SAT,SUN)")
    parser.add_argument("--holidays", type=words.file, metavar="FILE", action="append",
                        help="a file of holidays, iCalendar or CSV as `./plan import` reads them; you may give it "
                             "repeatedly")
    parser.add_argument("--stream", action="store_true", help="print the job stream alone")
    parser.add_argument("--yes", action="store_true", help="make it without asking")
    parser.add_argument("--program", metavar="FILE", type=words.file,
                        help="the planner that makes it (else the one that is built here)")
    colours.add_words(parser)


def years(text: str) -> Years:
    """Years, for `type=`."""
    found = re.fullmatch(r"([0-9]{4})(?:\.\.([0-9]{4}))?", text.strip())
    first, last = (int(found[1]), int(found[2] or found[1])) if found else (0, 0)
    if not FIRST_YEAR <= first <= last <= LAST_YEAR or last - first >= MOST_YEARS:
        raise argparse.ArgumentTypeError(f"{text!r} is neither a year such as 2027 nor years such as 2027..2028, at "
                                         f"most {MOST_YEARS} from {FIRST_YEAR} to {LAST_YEAR}")
    return Years(first, last)


def weekend(text: str) -> tuple[int, ...]:
    """Days of the week, for `type=`."""
    names = [name for name in re.split("[ ,]+", text.strip().upper()) if name and name != "NONE"]
    if wrong := [name for name in names if name not in WEEKDAYS]:
        raise argparse.ArgumentTypeError(f"{wrong[0]!r} is not a day of the week ({', '.join(WEEKDAYS)}) and not none")
    return tuple(sorted(map(WEEKDAYS.index, set(names))))


def run(given: argparse.Namespace) -> int:
    """Does what the words ask for; the exit status."""
    return made(Settings(given.plan, given.years, given.weekend, given.holidays, given.stream, given.yes,
                         given.program, given.color))


def made(given: Settings) -> int:
    """Makes a plan, or prints the job stream that makes it; the exit status."""
    if not given.is_stream and os.path.lexists(given.plan):
        raise Unreadable(f"{given.plan}: the file exists already, and `init` makes a new plan; `./plan edit` changes "
                         "an old one")
    is_asking = sys.stdin is not None and sys.stdin.isatty() and sys.stderr.isatty() and not given.is_agreed
    if given.holidays or is_asking:
        with contextlib.suppress(Unreadable):
            import_ics.ask_library()
    if is_asking:
        given = asked(given)
    span = given.years or Years(this_year(), this_year() + 1)
    text = stream_of(span, (5, 6) if given.weekend is None else given.weekend, given.holidays or [])
    if given.is_stream:
        sys.stdout.write(text)
        return 0
    with tempfiles.folder("init-") as folder:
        path = os.path.join(folder, "init.in")
        with open(path, "w", encoding="ascii") as file:
            file.write(text)
        print(text)
        status = run_command.run_stream(run_command.Settings(
            given.plan, path, given.program, is_agreed=given.is_agreed, color=given.color, is_new=True))
    if status == 0:
        plan = given.plan
        words.print_message(
            f"`./plan edit {plan} application NAME new period=DAY ia=20.00 deadline=0/23.00 | ./opcplan --db {plan}` "
            f"makes the first application. `./plan send --db {plan} ltp-create --from DAY --to DAY` makes the "
            f"long-term plan, and `./plan roll {plan}` the first daily plan")
    return status


def this_year() -> int:
    """The year of the clock."""
    return int(moments.day_text(moments.now() // moments.DAY)[:4])


def asked(given: Settings) -> Settings:
    """The settings with what somebody answers on the terminal, who is asked for what no option says."""
    now = this_year()
    questions = (("years", f"Years [{now}..{now + 1}]: ", years),
                 ("weekend", "Free days of the week [SAT,SUN]: ", weekend),
                 ("holidays", "File of holidays, iCalendar or CSV [none]: ", lambda text: [words.file(text)]))
    for name, question, read in questions:
        while getattr(given, name) is None:
            print(question, end="", file=sys.stderr, flush=True)
            line = sys.stdin.readline()
            if not line.strip():
                break
            try:
                given = dataclasses.replace(given, **{name: read(line.strip())})
            except argparse.ArgumentTypeError as wrong:
                words.print_message(str(wrong))
    return given


def stream_of(span: Years, free: tuple[int, ...], files: list[str]) -> str:
    """The job stream of the first definitions. Raises ChangeRefused and Unreadable."""
    first, last = span.days
    calendar = Calendar({day: False for day in free})
    for path in files:
        calendar.dates.update(days_of(path, first, last))
    calendar.dates = dict(sorted(calendar.dates.items()))
    monday = first - weekday_of(first)
    months = f"{span.first}-01..{span.last}-12"
    periods = {
        "DAY": Period("A", first, 1),
        "WEEK": Period("A", monday, 7),
        **{name: Period("N", entries=period_edits.with_span(Period("N"), verb, [months]))
           for name, verb in (("MONTH", "months"), ("QUARTER", "quarters"))},
    }
    if not calendar.weekdays and not calendar.dates:
        calendar.weekdays[0] = True  # a calendar lists something
    records = {"calendars": {"DEFAULT": record_texts.calendar_records("DEFAULT", calendar)},
               "periods": {name: record_texts.period_records(name, period) for name, period in periods.items()}}
    return "".join(f"define {kind} --job {number}\n{data}/*\n"
                   for number, (kind, data) in enumerate(((kind, "".join(record_texts.blocks_of(kind, found)))
                                                          for kind, found in records.items()), 1))


def days_of(path: str, first: int, last: int) -> dict[int, bool]:
    """The days of a file of holidays. Raises ChangeRefused and Unreadable."""
    with stream_file.opened(path, OF_FILE) as source:
        data = b"".join(source.pieces())
    if import_forms.is_ics(data.decode("utf-8-sig", "replace")):
        import_ics.ask_library()
        found = import_ics.days(data, path, first, last)
    else:
        found = import_csv.days(data, path, first, last)
    edit_words.print_sentences([*found.left, *found.sentences])
    return found.days
