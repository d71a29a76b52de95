"""What ./plan says of words that are likely meant otherwise: what is missing, exchanged, or called by another name."""

import os
import sqlite3
import tempfile
import unittest
from contextlib import closing
from pathlib import Path
from unittest import mock

from support import plans

BASE = """define calendars --job 1
DEFAULT,SAT,FREE
USA,SUN,FREE
/*
define periods --job 2
DAY,A,2027-01-01,1
MONTH,N,2027-01-01,2027-01-31
/*
define applications --job 3
LEDGER,A,
SALES,A,
/*
define run-cycles --job 4
LEDGER,DAILY,N,DAY,3,1,2027-01-01,,20.00,0,23.00
/*
ltp-create --from 2027-01-01 --to 2027-01-31 --job 5
"""
CALENDAR = "BEGIN:VCALENDAR\nVERSION:2.0\nEND:VCALENDAR\n"
CRONTAB = "PATH=/bin\n30 1 * * 1-5 /usr/local/bin/fetch\n"
DAYS = "date,status\n2027-05-06,free,Ascension Day\n"
# words, with names of files in the room, and what is said of them
SAID = (
    (["why-day", "plan.db", "LEDGER", "24.12.2027"], "as YYYY-MM-DD it is 2027-12-24"),
    (["rows", "cp", "plan.db"], "PLAN.db comes first: ./plan rows plan.db cp;"),
    (["why", "LEDGER", "2027-01-05/20.00", "plan.db"],
     "PLAN.db comes first: ./plan why plan.db LEDGER 2027-01-05/20.00;"),
    (["edit", "calendar", "plan.db", "DEFAULT", "2027-12-24", "free"],
     "PLAN.db comes first: ./plan edit plan.db calendar DEFAULT 2027-12-24 free;"),
    (["rows", "plan.db", "list"], "invalid choice: 'list'"),
    (["edit", "plan.db", "calendar", "2027-12-24", "free"],
     "the calendar's name is missing before 2027-12-24: the plan has DEFAULT, USA;"),
    (["edit", "plan.db", "run-cycle", "LEDGER", "deadline=18.00"],
     "the run cycle's name is missing before deadline=18.00: LEDGER has DAILY;"),
    (["edit", "plan.db", "run-cycle", "LEGDER", "deadline=18.00"],
     "there is no application LEGDER (did you mean LEDGER?)"),
    (["edit", "plan.db", "holiday", "2027-12-24"],
     "`./plan edit PLAN.db calendar DEFAULT 2027-12-24 free` makes a day a holiday;"),
    (["edit", "plan.db", "predecessor", "LEDGER", "add", "SALS"], "there is no application SALS (did you mean SALES?)"),
    (["edit", "plan.db", "period", "MONHT", "months", "..2027-06"], "there is no period MONHT (did you mean MONTH?)"),
    (["page", "--hlep"], "there is no option --hlep (did you mean --help?);"),
    (["late", "plan.db", "--nwo", "06.00"], "there is no option --nwo (did you mean --now?);"),
    (["list", "plan.db"], "there is no subcommand 'list' (did you mean rows?);"),
    (["holidays"], "there is no subcommand 'holidays' (did you mean import?);"),
    (["gantt", "plan.db"], "there is no subcommand 'gantt': `./plan page PLAN.db` draws each day"),
    (["history"], "there is no subcommand 'history': `./plan rows PLAN.db history` prints what is complete, and "),
    (["forecast", "plan.db"], "there is no subcommand 'forecast': `./plan late PLAN.db --journal FILE` says when"),
    (["help", "pgae"], "there is no subcommand 'pgae' (did you mean page?);"),
    (["run", "plan.bd", "base.in"], "plan.bd: there is no such file (did you mean plan.db?); --new makes a new plan "
                                    "there"),
    (["run", "other/plann", "base.in"], "other/plann: there is no such file; --new makes a new plan there"),
    (["import", "--cron", "days.ics", "plan.db"], "days.ics: it is an iCalendar file, not a crontab; did you mean "
                                                  "--ics?"),
    (["import", "--csv", "days.ics", "--calendar", "USA", "plan.db"],
     "days.ics: it is an iCalendar file, not a file of days; did you mean --ics?"),
    (["import", "--cron", "days.csv", "plan.db"], "days.csv: it is a file of days, not a crontab; did you mean --csv?"),
    (["import", "--csv", "crontab", "--calendar", "USA", "plan.db"],
     "crontab: it is a crontab, not a file of days; did you mean --cron?"),
    (["explain", "base.out", "base.in"], "base.in isn't the output of base.out"),
    (["days", "plan.db", "LEDGER", "2027-01-05", "2027-01-07"],
     "2027-01-05 and 2027-01-07 need their options: ./plan days plan.db LEDGER --from 2027-01-05 --to 2027-01-07;"),
    (["days", "plan.db", "2027-01-05", "LEDGER"],
     "2027-01-05 needs its option: ./plan days plan.db LEDGER --from 2027-01-05;"),
    (["days", "plan.db", "LEDGER", "2027-01-05", "--from", "2027-01-01"],
     "2027-01-05 needs its option: ./plan days plan.db LEDGER --from 2027-01-01 --to 2027-01-05;"),
    (["days", "plan.db", "--try", "period=MONTH", "2027-01-05", "2027-01-07"],
     ": ./plan days plan.db --try period=MONTH --from 2027-01-05 --to 2027-01-07;"),
    (["rows", "plan.db", "LEDGER"], "LEDGER needs its option: ./plan rows plan.db --app LEDGER;"),
    (["rows", "plan.db", "ltp", "started"], "started needs its option: ./plan rows plan.db ltp --status started;"),
    (["rows", "plan.db", "ltp", "S"], "'S' needs an option before it: --app or --status;"),
    (["late", "plan.db", "2027-01-05", "06.00"], ": ./plan late plan.db --now '2027-01-05 06.00';"),
    (["late", "plan.db", "2027-01-05"], "a moment goes with --now, as `--now 2027-01-05/06.00`;"),
    (["export", "plan.db", "csv", "ltp"], "csv and ltp need their options: ./plan export plan.db --csv --set ltp;"),
    (["next-job", "plan.db", "7"], "'7' is one word too many;"),
    (["import", "days.ics", "plan.db"], "days.ics needs its option: ./plan import plan.db --ics days.ics;"),
    (["import", "crontab", "plan.db"], "crontab needs its option: ./plan import plan.db --cron crontab;"),
    (["lint", "base.in", "plan.db"], "plan.db needs its option: ./plan lint base.in --plan plan.db;"),
    (["run", "http://127.0.0.1:7411", "base.in"], ": ./plan run base.in --desk http://127.0.0.1:7411;"),
    (["run", "base.in", "http://127.0.0.1:7411"], ": ./plan run base.in --desk http://127.0.0.1:7411;"),
    (["page", "http://127.0.0.1:7411"], "'http://127.0.0.1:7411' is the address of a desk, not a file;"),
    (["edit", "plan.db", "calendar", "DEFAULT", "2027-01-05", "2027-01-06", "free"],
     "'2027-01-06' is not one of free, work and unlist (give days as FIRST..LAST);"),
    (["why", "plan.db", "LEDGER", "2027-01-05/20.00", "06.00"],
     "LEDGER 2027-01-05/20.00 is the whole key, so 06.00 is too much (did you mean --now 06.00?)"),
    (["why-day", "plan.db", "LEDGER", "2027-01-05", "2027-01-06"],
     "LEDGER 2027-01-05 is the whole key, so 2027-01-06 is too much; `./plan days PLAN.db LEDGER --from D --to D`"),
    (["send", "plan.db", "start", "LEDGER", "2027-01-05/20.00"],
     "plan.db needs its option: ./plan send --db plan.db start LEDGER 2027-01-05/20.00; nothing was sent"),
    (["send", "--db", "plan.db", "dp-extend", "2027-01-05"],
     "(did you mean `--to 2027-01-05/00.00`?); nothing was sent"),
    (["send", "--db", "plan.db", "list", "cp", "LEDGER"], "(did you mean `--app LEDGER`?); nothing was sent"),
)


class Slips(unittest.TestCase):
    def setUp(self):
        room = tempfile.TemporaryDirectory(prefix="slips-")
        self.addCleanup(room.cleanup)
        self.addCleanup(os.chdir, os.getcwd())
        self.room = Path(room.name)
        os.chdir(self.room)
        plans.copy_of(plans.of_stream(BASE), self.room)
        (self.room / "other").mkdir()
        for name, text in (("base.in", BASE), ("base.out", "ok defined 1\nok defined 1\n"), ("days.ics", CALENDAR),
                           ("crontab", CRONTAB), ("days.csv", DAYS), ("other/plan", "#!/bin/sh\n")):
            (self.room / name).write_text(text)
        self.plan = self.room / "plan.db"

    def test_what_is_meant_is_said_in_one_sentence(self):
        before = plans.prints(self.plan)
        for words, said in SAID:
            with self.subTest(" ".join(words)):
                ran = plans.plan_in_here(*words)
                self.assertIn(ran.returncode, (1, 2))
                self.assertEqual((ran.stdout, ran.stderr.count("\n")), ("", 1), ran.stderr)
                self.assertIn(said, ran.stderr)
        self.assertEqual(plans.prints(self.plan), before)

    def test_exchanged_files_are_reported_by_explain(self):
        self.assertTrue(plans.plan_in_here("explain", "base.out", "base.in").stderr.endswith("did you swap them?\n"))
        self.assertNotIn("swap", plans.plan_in_here("explain", "base.in", "crontab").stderr)

    def test_help_of_a_subcommand(self):
        for name in ("page", "send"):
            ran = plans.plan_in_here("help", name)
            self.assertEqual((ran.returncode, ran.stdout), (0, plans.plan_in_here(name, "--help").stdout))

    def test_a_crontab_of_which_nothing_fits_is_reported_in_five_lines_at_most(self):
        (self.room / "crontab").write_text("".join(f"@reboot job{number}\n" for number in range(12)))
        ran = plans.plan_in_here("import", "--cron", "crontab", "plan.db")
        self.assertEqual((ran.returncode, ran.stderr.count("is left out")), (1, 5))
        self.assertTrue(ran.stderr.endswith(" and 7 more lines\n"), ran.stderr)

    def test_refusals_say_which_name_is_meant(self):
        text = BASE.replace("LEDGER,DAILY,N,DAY", "LEDGER,DAILY,N,DYA") + "undefine calendars --name USB --job 6\n"
        (self.room / "slip.in").write_text(text)
        answers = [*["ok defined 2"] * 3, "ok defined 1", "refused 23 LEDGER", "refused 13", ""]
        (self.room / "slip.out").write_text("\n".join(answers))
        output = plans.plan_in_here("explain", "slip.in", "slip.out").stdout
        self.assertIn("DAILY names the period DYA (line 14) (did you mean DAY?)", " ".join(output.split()))
        self.assertIn("the name USB isn't defined in calendars (did you mean USA?)", output)

    def test_a_field_with_a_blank_before_it(self):
        (self.room / "blank.in").write_text("define calendars --job 7\nDEFAULT, 2027-12-24,FREE\n/*\n")
        (self.room / "blank.out").write_text("refused 11 1\n")
        output = " ".join(plans.plan_in_here("explain", "blank.in", "blank.out").stdout.split())
        self.assertIn("it has to be MON, TUE, WED, THU, FRI, SAT, SUN or a day YYYY-MM-DD (without the blanks it would "
                      "be)", output)

    def test_a_calendar_that_nobody_goes_by(self):
        ran = plans.plan_in_here("edit", "plan.db", "calendar", "USA", "2027-12-24", "free")
        self.assertIn("plan: No application uses USA.\n", ran.stderr)


class Numbers(unittest.TestCase):
    """The job numbers of streams that are printed: none of a desk's own, and none of two streams alike."""

    def setUp(self):
        room = tempfile.TemporaryDirectory(prefix="numbers-")
        self.addCleanup(room.cleanup)
        self.plan = plans.copy_of(plans.of_stream(BASE), room.name)
        self.room = Path(room.name)
        patch = mock.patch.dict(os.environ, XDG_STATE_HOME=str(self.room / "state"))
        patch.start()
        self.addCleanup(patch.stop)

    def keep(self, *numbers):
        with closing(sqlite3.connect(self.plan)) as db, db:
            db.executemany("INSERT INTO job (number, body, reply) VALUES (?, CAST('dp-replan' AS BLOB), 'refused 20')",
                           [(number,) for number in numbers])

    def numbers(self, *words):
        ran = plans.plan_in_here(*words)
        return [int(line.partition("--job ")[2]) for line in ran.stdout.splitlines() if "--job " in line]

    def edit(self, day):
        return self.numbers("edit", self.plan, "calendar", "DEFAULT", day, "free")

    def test_numbers_of_a_desk_are_never_printed(self):
        self.keep(500_000_001, 500_000_002)
        self.assertEqual(self.edit("2027-12-24"), [6])
        self.assertEqual(self.numbers("dump", self.plan), [6, 7, 8, 9, 10])
        ran = plans.plan_in_here("next-job", self.plan)
        self.assertEqual(ran.stdout, "greatest used: 5, apart from a desk's own numbers\nnext: 7\n")
        self.keep(499_999_999)
        self.assertEqual(self.numbers("dump", self.plan), [500_000_000, *range(600_000_000, 600_000_004)])
        self.keep(500_000_000)
        self.assertEqual(self.edit("2027-12-24"), [600_000_000])
        self.keep(600_000_007)
        self.assertEqual(self.edit("2027-12-24"), [600_000_008])

    def test_two_streams_that_nobody_ran_have_numbers_of_their_own(self):
        self.assertEqual([self.edit("2027-12-24"), self.edit("2027-12-27"), self.edit("2027-12-24")], [[6], [7], [6]])
        self.assertEqual(plans.plan_in_here("next-job", self.plan, "--short").stdout, "8\n")
        (self.room / "days.csv").write_text("2027-05-06\n")
        self.assertEqual(self.numbers("import", "--csv", self.room / "days.csv", "--calendar", "USA", self.plan), [8])
        self.keep(7)
        self.assertEqual(self.edit("2027-12-28"), [9])
        self.keep(8, 9)
        self.assertEqual(self.edit("2027-12-29"), [10])


if __name__ == "__main__":
    unittest.main()
