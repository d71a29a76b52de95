"""./plan import: the days of iCalendar and CSV files, and the days of crontabs, by tools/reference/plain_planner.py."""

import datetime
import tempfile
import unittest
from pathlib import Path
from unittest import mock

from support import plans

from opcplan.commands import import_, import_ics, init
from opcplan.errors import Unreadable


plain, plan_rows = plans.plain, plans.plan_rows
BASE = b"""define calendars --job 1
DEFAULT,SAT,FREE
DEFAULT,SUN,FREE
DEFAULT,2027-01-01,FREE
DEFAULT,2027-12-24,WORK
/*
define periods --job 2
DAY,A,2027-01-01,1
WEEKS,A,2026-12-31,7
/*
define applications --job 3
SYNC,A,
/*
ltp-create --from 2027-01-01 --to 2027-03-31 --job 4
"""


def has_library():
    """Whether an interpreter that ./plan takes has the library."""
    asked = [import_ics.DEBIAN, "-c", f"import {', '.join(import_ics.LIBRARIES)}"]
    return Path(import_ics.DEBIAN).exists() and plans.subprocess.run(asked, capture_output=True).returncode == 0


def days_of(*texts):
    return {plain.read_day(text) for text in texts}


def each_day(first, last):
    return set(range(plain.read_day(first), plain.read_day(last) + 1))


# of each event its lines, and the days of 2027 and 2028 that it has by the rules of iCalendar; None: it is left out
EVENTS = [
    (["DTSTART;VALUE=DATE:20270106"], days_of("2027-01-06")),
    (["DTSTART;VALUE=DATE:20270201", "DTEND;VALUE=DATE:20270204"], each_day("2027-02-01", "2027-02-03")),
    (["DTSTART;VALUE=DATE:20270301", "DTEND;VALUE=DATE:20270301"], days_of("2027-03-01")),
    (["DTSTART;VALUE=DATE:20270310", "DURATION:P3D"], each_day("2027-03-10", "2027-03-12")),
    (["DTSTART:20270401", "SUMMARY:a name that is fold", " ed\\, and has \\n signs; of its own"],
     days_of("2027-04-01")),
    (["DTSTART;VALUE=DATE:20200501", "RRULE:FREQ=YEARLY"], days_of("2027-05-01", "2028-05-01")),
    (["DTSTART;VALUE=DATE:20200502", "RRULE:FREQ=YEARLY;UNTIL=20270502"], days_of("2027-05-02")),
    (["DTSTART;VALUE=DATE:20200503", "RRULE:FREQ=YEARLY;UNTIL=20270502T235959Z"], set()),
    (["DTSTART;VALUE=DATE:20200504", "RRULE:FREQ=YEARLY;COUNT=8"], days_of("2027-05-04")),
    (["DTSTART;VALUE=DATE:20210505", "RRULE:FREQ=YEARLY;INTERVAL=2"], days_of("2027-05-05")),
    (["DTSTART;VALUE=DATE:20200506", "RRULE:FREQ=YEARLY", "EXDATE;VALUE=DATE:20250506,20270506"],
     days_of("2028-05-06")),
    (["DTSTART;VALUE=DATE:20200507", "RRULE:FREQ=YEARLY", "EXDATE;VALUE=DATE:20270507", "EXDATE:20280507"], set()),
    (["DTSTART;VALUE=DATE:20201126", "RRULE:FREQ=YEARLY;BYMONTH=11;BYDAY=4TH"], days_of("2027-11-25", "2028-11-23")),
    (["DTSTART;VALUE=DATE:20200601", "DTEND;VALUE=DATE:20200603", "RRULE:FREQ=YEARLY"],
     days_of("2027-06-01", "2027-06-02", "2028-06-01", "2028-06-02")),
    (["DTSTART;VALUE=DATE:20200229", "RRULE:FREQ=YEARLY"], days_of("2028-02-29")),
    (["DTSTART;VALUE=DATE:20200610", "RDATE;VALUE=DATE:20270611,20280612"], days_of("2027-06-11", "2028-06-12")),
    (["DTSTART;VALUE=DATE:20261230", "DTEND;VALUE=DATE:20270103"], days_of("2027-01-01", "2027-01-02")),
    (["DTSTART;VALUE=DATE:20281230", "DTEND;VALUE=DATE:99990101"], days_of("2028-12-30", "2028-12-31")),
    (["DTSTART;VALUE=DATE:20300101"], set()),
    (["DTSTART:20270701T000000", "DTEND:20270703T000000"], days_of("2027-07-01", "2027-07-02")),
    (["DTSTART;VALUE=DATE:20270707", "STATUS:CANCELLED"], set()),
    (["UID:moved", "DTSTART;VALUE=DATE:20200808", "RRULE:FREQ=YEARLY"], days_of("2028-08-08")),
    (["UID:moved", "RECURRENCE-ID;VALUE=DATE:20270808", "DTSTART;VALUE=DATE:20270809"], days_of("2027-08-09")),
    (["DTSTART;VALUE=DATE:20200229", "RRULE:FREQ=YEARLY;BYMONTH=2;BYMONTHDAY=29;COUNT=2"], set()),
    (["DTSTART:20270702T100000Z", "DTEND:20270702T110000Z"], None),
    (["DTSTART:20270702T000000Z"], None),
    (["DTSTART;VALUE=DATE:20270710", "DTEND;VALUE=DATE:20270709"], None),
    (["DTSTART;VALUE=DATE:20270711", "DURATION:-P1D"], None),
    (["DTSTART;VALUE=DATE:20270712", "RRULE:FREQ=MONTHLY"], None),
    (["DTSTART;VALUE=DATE:20270713", "RRULE:FREQ=YEARLY;INTERVAL=0"], None),
    (["DTSTART;VALUE=DATE:20270714", "RRULE:FREQ=YEARLY;BYHOUR=1,2,3"], None),
    (["DTSTART;VALUE=DATE:20270715", "RRULE:FREQ=YEARLY;COUNT=many"], None),
    (["DTSTART;VALUE=DATE:20270715", "RRULE:FREQ=YEARLY;BYMONTH=13"], None),
    (["DTSTART;VALUE=DATE:20270716", "RRULE:FREQ=YEARLY", "RRULE:FREQ=YEARLY"], None),
    (["DTSTART;VALUE=DATE:20270717", "EXDATE:tomorrow"], None),
    (["DTSTART;VALUE=DATE:20270718", "RDATE;VALUE=PERIOD:20270718T000000Z/PT1H"], None),
    (["DTSTART;VALUE=DATE:20270230"], None),
    (["DTSTART;VALUE=DATE:20270719", "DTSTART;VALUE=DATE:20270720"], None),
    (["SUMMARY:no day"], None),
    (["DTSTART;VALUE=DATE:20270721", "no line of iCalendar"], None),
]
# lines that fit, those that don't, and the name that each command gets
CRONTAB = """# m h dom mon dow command
PATH=/usr/bin:/bin
30 2 * * * /usr/local/bin/backup.sh --full
0 6-18/4 * * mon-fri\tcd /srv/sync && ./sync.py a
15 3 1,15,31 * * /usr/sbin/monthly >/dev/null 2>&1
0 3 1 1,4,7,10 * FOO=1 nice -n 5 /usr/sbin/quarter-report
0 4 13 * 5 /usr/bin/unlucky
5 4 * 2 * february
10 4 */10 * * tens
20 4 29 feb * leap
25 4 * * 7 sunday
35 4 * * */3 thirds
40 4 1-31 * 1 always
45 4 1 * 1,3-4 both
50 4 1-31 3 1-7 march
@daily /usr/bin/sweep.day
@weekly 7up
@monthly /opt/2027/report.v2.sh
@yearly happy; new year
30 2 1 * * /usr/local/bin/backup.sh --full
0,30 23 * * 0,6 backup.pl
5 5 * * * && ;
6 5 * * * sudo -u
7 5 * * * /bin/sh -c "env A=1 /opt/x/tidy-up.sh"
"""
NAMES = """BACKUP SYNC2 MONTHLY QUARTERREPORT UNLUCKY FEBRUARY TENS LEAP SUNDAY THIRDS ALWAYS BOTH MARCH SWEEP UP
    REPORT HAPPY BACKUP2 CRON22 U TIDYUP""".split()
UNFIT = """*/5 * * * * often
@reboot boot
@often x
0 4 31 2 * never
0 4 */2 * 1 and
0 4 * 2 1 some
61 * * * * x
* 24 * * * x
0 4 0 * * x
0 4 * 13 * x
0 4 * * 8 x
0 4 * * fri-mon x
0 4 * * fre x
5-1 * * * * x
*/0 * * * * x
0 4 L * * x
0 4 * * 1#2 x
~ 4 * * * x
1/5 4 * * * x
0 4 * * *
0 4 * *
@daily
x
0,, 4 * * * x
-1 4 * * * x
0 4 ? * * x
\x1b[2J 4 * * * x
\N{LATIN SMALL LETTER A WITH DIAERESIS} 4 * * * x
\N{ARABIC-INDIC DIGIT THREE} 4 * * * x""".split("\n")


def cron_sets(text):
    """The five sets of a line, and whether each begins with a star: by `man 5 crontab`, once more."""
    short = {"@daily": "0 0 * * *", "@weekly": "0 0 * * 0", "@monthly": "0 0 1 * *", "@yearly": "0 0 1 1 *"}
    fields = short.get(text.split()[0], text).split()[:5]
    names = "jan feb mar apr may jun jul aug sep oct nov dec".split(), "sun mon tue wed thu fri sat".split()
    sets = []
    for place, (field, low, high) in enumerate(zip(fields, (0, 0, 1, 1, 0), (59, 23, 31, 12, 7))):
        chosen = set()
        for part in field.split(","):
            span, _, step = part.partition("/")
            for known, first in zip(names, (1, 0)):
                for number, name in enumerate(known, first):
                    span = span.replace(name, str(number)) if place > 2 else span
            ends = [low, high] if span == "*" else [*map(int, span.split("-"))]
            chosen |= set(range(ends[0], ends[-1] + 1, int(step or 1)))
        sets.append(chosen | ({0} if place == 4 and 7 in chosen else set()))
    return sets, fields[2].startswith("*"), fields[4].startswith("*")


def cron_runs(lines, first, last):
    """The minutes at which lines run, from one day to another."""
    runs = set()
    for text in lines:
        (minutes, hours, days, months, weekdays), any_day, any_weekday = cron_sets(text)
        for number in range(first, last + 1):
            date = datetime.date(1970, 1, 1) + datetime.timedelta(number)
            by_day, by_weekday = date.day in days, date.isoweekday() % 7 in weekdays
            is_day = by_day and by_weekday if any_day or any_weekday else by_day or by_weekday
            if is_day and date.month in months:
                runs |= {number * 1440 + hour * 60 + minute for hour in hours for minute in minutes}
    return runs


class Import(unittest.TestCase):
    maxDiff = None

    def setUp(self):
        room = tempfile.TemporaryDirectory(prefix="import-")
        self.addCleanup(room.cleanup)
        self.room = Path(room.name)
        self.planner = plain.Planner()
        plain.run(BASE, self.planner)
        self.plan = self.room / "plan.db"
        plans.write(self.planner, self.plan)

    def asked(self, data, *words):
        given = self.room / "given"
        given.write_bytes(data)
        words = [given if word == "given" else word for word in words]
        # iCalendar may want another interpreter
        if "--ics" in words:
            return plans.plan("import", *words, self.plan)
        return plans.plan_here(import_, *words, self.plan)

    def ask_printed(self, ran, status=0):
        """Asks that a stream was printed, and takes it; answers what it changes of DEFAULT."""
        self.assertEqual(ran.returncode, status, ran.stderr)
        before = dict(self.planner.defined["calendars"].get("DEFAULT", {}))
        self.assertEqual({line.split()[1] for line in plain.run(ran.stdout.encode(), self.planner)}, {"defined"})
        after = self.planner.defined["calendars"]["DEFAULT"]
        return {key: work for key, work in after.items() if before.get(key) is not work}, before.keys() - after.keys()

    def check_error(self, ran, status, says):
        self.assertEqual((ran.returncode, ran.stdout), (status, ""), ran.stderr)
        self.assertTrue(ran.stderr.startswith("plan: ") and ran.stderr[:-1].isprintable(), ran.stderr)
        self.assertIn(says, ran.stderr)

    # iCalendar

    @unittest.skipUnless(has_library(), "python3-icalendar isn't there")
    def test_each_event_has_its_days(self):
        events = [["BEGIN:VEVENT", f"SUMMARY:event {number}", *lines, "END:VEVENT"] if "SUMMARY" not in "".join(lines)
                  else ["BEGIN:VEVENT", *lines, "END:VEVENT"] for number, (lines, _) in enumerate(EVENTS)]
        wanted = {("date", day): False for _, days in EVENTS for day in days or ()}
        wanted.pop(("date", plain.read_day("2027-01-01")))  # listed so already
        lines = ["BEGIN:VCALENDAR", "VERSION:2.0", *(line for event in events for line in event), "END:VCALENDAR", ""]
        for mark, end in (("", "\n"), ("\ufeff", "\r\n")):
            ran = self.asked((mark + end.join(lines)).encode(), "--ics", "given", "--calendar", "default",
                             "--from", "2027-01-01", "--to", "2028-12-31")
            copy = self.planner.copy()
            self.assertEqual(self.ask_printed(ran, 1), (wanted, set()))
            self.planner = copy
            left = [line.split("'")[1] for line in ran.stderr.splitlines() if "left out:" in line]
        names = [next((line[8:] for line in lines if line.startswith("SUMMARY:")), f"event {number}")
                 for number, (lines, _) in enumerate(EVENTS)]
        self.assertEqual(left, [name for name, (_, days) in zip(names, EVENTS) if days is None])

    @unittest.skipUnless(has_library(), "python3-icalendar isn't there")
    def test_default_days_and_new_calendars(self):
        text = (b"BEGIN:VCALENDAR\nBEGIN:VEVENT\nDTSTART;VALUE=DATE:20200506\nRRULE:FREQ=YEARLY\n"
                b"END:VEVENT\nEND:VCALENDAR\n")
        ran = self.asked(text, "--ics", "given", "--calendar", "DEFAULT")
        wanted = {("date", day): False for day in days_of("2027-05-06", "2028-05-06", "2029-05-06", "2030-05-06")}
        self.assertIn("from 2027-01-01 to 2031-01-01", ran.stderr)
        planner = self.planner.copy()
        self.assertEqual(self.ask_printed(ran), (wanted, set()))
        self.planner = planner
        self.check_error(self.asked(text, "--ics", "given", "--calendar", "BANK"), 1, "no calendar BANK")
        ran = self.asked(text, "--ics", "given", "--calendar", "BANK", "--new", "--to", "2027-12-31")
        self.assertIn("Saturdays", ran.stderr)
        self.ask_printed(ran)
        self.assertEqual(self.planner.defined["calendars"]["BANK"], {("date", plain.read_day("2027-05-06")): False})

    @unittest.skipUnless(has_library(), "python3-icalendar isn't there")
    def test_what_is_no_calendar_is_reported(self):
        for data, says in ((b"", "no calendar"), (b"no calendar", "iCalendar"), (b"\xff\xfe\x00", "iCalendar"),
                           (b"END:VCALENDAR\n", "iCalendar"), (b"BEGIN:VCALENDAR\nBEGIN:VEVENT\n", "in the middle"),
                           (b"DTSTART:20270101\n", "iCalendar"), (b"BEGIN:VCALENDAR\nEND:VCALENDAR\n", "no day"),
                           (b"SQLite format 3\0" * 100, "iCalendar"),
                           (b"BEGIN:VCALENDAR\nBEGIN:VEVENT\nDTSTART:20270101\nRRULE:FREQ=YEARLY;BYMO\r\n NTH\n"
                            b"END:VEVENT\nEND:VCALENDAR\n", "without a sign =")):
            status = 1 if says == "no day" else 2
            self.check_error(self.asked(data, "--ics", "given", "--calendar", "DEFAULT"), status, says)

    def test_lack_of_the_library_is_reported(self):
        for debian in ("/nowhere/python3", "/bin/false"):
            is_lacking = mock.patch("importlib.util.find_spec", return_value=None)
            with is_lacking, mock.patch.object(import_ics, "DEBIAN", debian):
                with self.assertRaisesRegex(Unreadable, "apt-get install python3-icalendar"):
                    import_ics.ask_library()

    # CSV

    def test_records_give_days(self):
        data = ('Date,Status,Comment\r\n2027-05-01\r\n2027-05-06,free\r\n\r\n2027-12-24,,"Heiligabend, ""halb"""\r\n'
                ' 2027-12-31 , WORK ,\r\n2027-05-06\r\n2027-01-01,FREE').encode("utf-8-sig") + b",\xe4\n"
        wanted = {("date", day): False for day in days_of("2027-05-01", "2027-05-06", "2027-12-24")}
        wanted["date", plain.read_day("2027-12-31")] = True
        self.assertEqual(self.ask_printed(self.asked(data, "--csv", "given", "--calendar", "DEFAULT")), (wanted, set()))

    def test_records_within_days_are_taken_alone(self):
        ran = self.asked(b"2027-05-01\n2027-05-02\n2027-05-03\n2027-05-04\n", "--csv", "given", "--calendar", "DEFAULT",
                         "--from", "2027-05-02", "--to", "2027-05-03")
        wanted = {("date", day): False for day in days_of("2027-05-02", "2027-05-03")}
        self.assertEqual(self.ask_printed(ran), (wanted, set()))

    def test_wrong_records_are_reported(self):
        for data, says in ((b"2027-02-30\n", "line 1: there is no 30 February in 2027"),
                           (b"01.05.2027\n", "line 1: as YYYY-MM-DD it is 2027-05-01"),
                           (b"2027-05-01;free\n", "semicolons"), (b"2027-05-01,closed\n", "'closed'"),
                           (b"2027-05-01,free,a,b\n", "4 fields"), (b"2027-05-01\n\n2027-05-01,work\n", "line 3:"),
                           (b'"2027-05-01\n', "isn't CSV"), ("2027-05-01\n".encode("utf-16"), "UTF-16"),
                           (b"2027-05-01,\x1b[2J\n", "neither free nor work"), (b"2027-05-0\xff\n", "byte"),
                           (b"2072-01-01\n", "2071"), (b'2027-05-01,"' + b"x" * 200_000 + b'"\n', "isn't CSV"),
                           (b"x\n" * 9, "and 4 more lines")):
            self.check_error(self.asked(data, "--csv", "given", "--calendar", "DEFAULT"), 2, says)
        self.check_error(self.asked(b"\n\n", "--csv", "given", "--calendar", "DEFAULT"), 1, "no day")
        self.check_error(self.asked(b"2027-01-01\n", "--csv", "given", "--calendar", "DEFAULT"), 1, "nothing would "
                         "change")

    # Crontabs

    def cron_planner(self, ran, status):
        """The plain planner with what a crontab gave, and the names that are new."""
        known = set(self.planner.defined["applications"])
        self.ask_printed(ran, status)
        return [name for name in self.planner.defined["applications"] if name not in known]

    def ask_runs(self, lines, app, first, last):
        """Asks that an application is named when its lines run."""
        first, last = plain.read_day(first), plain.read_day(last)
        named = {day * 1440 + time for day, time in self.planner.named(app, first, last)}
        self.assertEqual(named, cron_runs(lines, first, last), (app, lines))

    def test_each_application_is_named_when_its_lines_run(self):
        ran = self.asked(CRONTAB.encode(), "--cron", "given", "--from", "2027-01-15", "--to", "2030-12-31")
        names = self.cron_planner(ran, 0)
        lines = [line for line in CRONTAB.splitlines() if line[0] not in "#P"]
        commands = {}
        for line in lines:
            commands.setdefault(line.split(None, 1 if line[0] == "@" else 5)[-1], []).append(line)
        self.assertEqual(names, NAMES)
        for app, own in zip(names, commands.values()):
            for first, last in (("2027-01-15", "2029-12-31"), ("2028-06-01", "2030-12-31")):
                self.ask_runs(own, app, first, last)
        # those of the plan that are alike are taken: WEEKS begins on a Thursday
        self.assertEqual(sorted(self.planner.defined["periods"]), "DAY FEB JAN MAR MONTH MONTHS WEEKS".split())

    def test_from_the_first_day_that_there_is(self):
        """1972-01-01 is a Saturday: the week is counted from it."""
        lines = ["0 5 * * 1,6 first", "30 6 * * 0 second"]
        ran = self.asked("\n".join([*lines, ""]).encode(), "--cron", "given", "--from", "1972-01-01",
                         "--to", "1973-06-30")
        self.assertEqual(self.cron_planner(ran, 0), ["FIRST", "SECOND"])
        for app, line in zip(("FIRST", "SECOND"), lines):
            self.ask_runs([line], app, "1972-01-01", "1973-06-30")

    def test_again_it_takes_its_own_periods(self):
        words = "--cron", "given", "--from", "2027-01-15", "--to", "2028-12-31"
        self.cron_planner(self.asked(CRONTAB.encode(), *words), 0)
        self.plan.unlink()
        plans.write(self.planner, self.plan)
        ran = self.asked(CRONTAB.encode(), *words, "--calendar", "DEFAULT")
        self.assertNotIn("define periods", ran.stdout)
        names = self.cron_planner(ran, 0)
        self.assertEqual(len(names), len(NAMES))
        self.assertEqual({self.planner.defined["applications"][name] for name in names}, {(True, "DEFAULT")})

    def plan_of(self, text):
        """Takes another plan, of a stream."""
        self.planner = plain.Planner()
        plain.run(text.encode(), self.planner)
        self.plan.unlink()
        plans.write(self.planner, self.plan)

    def test_periods_that_init_makes_are_taken(self):
        """Also where they begin next year or end before the days that are usual, while nobody named days."""
        lines = ["0 5 * * 1-5 first", "30 6 1,15 * * second", "15 7 * * * third"]
        data, year = "\n".join([*lines, ""]).encode(), datetime.date.today().year
        for first, last, planned in ((year, year + 1, ""), (year + 1, year + 1, ""), (year + 1, year + 2, ""),
                                     (year, year + 1, f"{year}-03-04 {year + 1}-12-31"),
                                     (year + 1, year + 1, f"{year + 1}-02-03 {year + 1}-07-31")):
            with self.subTest((first, last, planned)):
                text = init.stream_of(init.Years(first, last), (5, 6), [])
                begin, end = planned.split() or (f"{first}-01-01", f"{last}-12-31")
                self.plan_of(text + (f"ltp-create --from {begin} --to {end} --job 90\n" if planned else ""))
                ran = self.asked(data, "--cron", "given")
                self.assertEqual(self.cron_planner(ran, 0), ["FIRST", "SECOND", "THIRD"])
                self.assertEqual(sorted(self.planner.defined["periods"]), "DAY MONTH QUARTER WEEK".split())
                self.assertIn(f"MONTH of the plan is used; its months go from {max(begin[:7], f'{first}-01')}-01 "
                              f"to {last}-12-31", ran.stderr)
                self.assertEqual("DAY of the plan is used; it begins" in ran.stderr, first > year and not planned)
                for app, line in zip(("FIRST", "SECOND", "THIRD"), lines):
                    self.ask_runs([line], app, begin, end)

    def test_periods_that_lack_days_of_the_plan_are_not_taken(self):
        """Nor is one of the usual name that is something else, or that has a hole."""
        months = [(f"2027-{number:02}", (31, 28, 31, 30, 31)[number - 1]) for number in range(1, 6)]
        month = [f"MONTH,N,{name}-01,{name}-{last}\n" for name, last in months]
        create = "ltp-create --from 2027-01-01 --to 2027-05-31 --job 9\n"
        for periods, words, made in (("".join(month), "", ""), ("".join(month[:-1]), "", "MONTH2"),
                                     ("".join(month[:2] + month[3:]), "", "MONTH2"),
                                     ("".join(month), "--to 2027-12-31", "MONTH2"),
                                     ("".join(month), "--to 2027-05-31", ""),
                                     ("MONTH,A,2027-01-01,30\n", "", "MONTH2"),
                                     ("MONTH,N,2027-01-01,2027-05-31\n", "", "MONTH2")):
            with self.subTest((periods, words)):
                self.plan_of(f"define periods --job 1\n{periods}/*\n{create}")
                ran = self.asked(b"0 4 1,15 * * job\n", "--cron", "given", *words.split())
                self.cron_planner_alone(ran)
                self.assertEqual(set(self.planner.defined["periods"]), {"MONTH", *([made] if made else [])})
                self.ask_runs(["0 4 1,15 * * job"], "JOB", "2027-01-01", "2027-05-31")

    def cron_planner_alone(self, ran):
        """Takes what a crontab gave into a plan that has no calendar."""
        self.assertEqual(ran.returncode, 0, ran.stderr)
        self.assertEqual({line.split()[1] for line in plain.run(ran.stdout.encode(), self.planner)}, {"defined"})

    def test_lines_that_do_not_fit_are_reported_with_their_number(self):
        text = "\n".join(["0 1 * * * good", *UNFIT])
        ran = self.asked(text.encode(), "--cron", "given")
        self.assertEqual(self.cron_planner(ran, 1), ["GOOD"])
        stderr = [line.split(" is left out: ") for line in ran.stderr.splitlines() if "left out" in line]
        self.assertEqual([start for start, _ in stderr],
                         [f"plan: line {number}" for number in range(2, len(UNFIT) + 2)])
        self.assertTrue(all(line.isprintable() for line in ran.stderr.splitlines()))
        self.check_error(self.asked(b"* * * * * often\n", "--cron", "given"), 1, "1,440 times a day")
        self.check_error(self.asked(b"CRON_TZ=UTC\n0 1 * * x\n", "--cron", "given"), 1, "time zone")

    def test_lines_with_users(self):
        data = b"0 1 * * * root /bin/good\n@daily www-data /bin/fine\n0 2 * * * root\n"
        ran = self.asked(data, "--cron", "given", "--system")
        self.assertEqual(self.cron_planner(ran, 1), ["GOOD", "FINE"])

    @unittest.skipUnless(plans.PROGRAM.exists(), "opcplan is not built")
    def test_program_takes_a_crontab_and_holidays(self):
        plan = plans.copy_of(plans.of_stream(BASE), self.room)
        for data, words in ((CRONTAB.encode(), ("--cron", "given")),
                            (b"2027-02-01\n2027-12-24,free\n", ("--csv", "given", "--calendar", "DEFAULT"))):
            text = self.asked(data, *words).stdout.encode() + b"ltp-modify-all --job %d\n" % (90 + len(data))
            answers, status = plan_rows.run(text, plan)
            self.assertEqual((answers.decode().splitlines(), status), (plain.run(text, self.planner), 0))
        found = {table: sorted(rows, key=repr) for table, rows in plan_rows.table_rows(self.planner).items()}
        self.assertEqual(plan_rows.rows_of(plan), found)

    # Words and files

    def test_wrong_words_and_files_are_reported(self):
        before = plans.prints(self.plan)
        (self.room / "given").write_bytes(b"2027-05-01\n")
        for words, status, says in (
            ("--csv given", 2, "--calendar"), ("--csv nowhere --calendar DEFAULT", 1, "nowhere"),
            ("--csv / --calendar DEFAULT", 1, "read"), ("--calendar DEFAULT", 2, "--ics --csv --cron"),
            ("--csv given --cron given --calendar DEFAULT", 2, "not allowed"), ("--cron given --new", 2, "--new"),
            ("--csv given --calendar DEFAULT --system", 2, "--system"), ("--csv given --calendar 9", 2, "name"),
            ("--csv given --calendar DEFAULT --from 2027-05-02 --to 2027-05-01", 2, "before"),
            ("--csv given --calendar DEFAULT --job 4", 2, "job 4 is used"),
            ("--csv /dev/zero --calendar DEFAULT", 1, "16 MiB"), ("--cron given --calendar NONE", 1, "NONE"),
            ("--csv given --calendar DEFAULT --from 2027-5-2", 2, "2027-05-02"),
        ):
            with self.subTest(words):
                words = [self.room / word if word in ("given", "nowhere") else word for word in words.split()]
                self.check_error(plans.plan_here(import_, *words, self.plan), status, says)
        (self.room / "given").unlink()
        self.assertEqual(plans.prints(self.plan), before)


if __name__ == "__main__":
    unittest.main()
