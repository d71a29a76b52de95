"""./plan init and the definitions that `edit` makes anew: the plan that comes of them, by the plain planner."""

import os
import pty
import subprocess
import tempfile
import unittest
from pathlib import Path

from support import expected, plans
from support.plans import plain

from opcplan.commands import import_ics

HOLIDAYS = "2027-05-06,free,Ascension Day\n2029-01-01,free,outside\n"
CALENDAR = """BEGIN:VCALENDAR
VERSION:2.0
BEGIN:VEVENT
UID:1
DTSTART;VALUE=DATE:20270101
RRULE:FREQ=YEARLY
SUMMARY:New Year
END:VEVENT
END:VCALENDAR
""".replace("\n", "\r\n")


def definitions_of(text):
    """What the plain planner has defined after a stream."""
    planner = plain.Planner()
    plain.run(text.encode(), planner)
    return planner.defined


@unittest.skipUnless(plans.PROGRAM.exists(), "opcplan is not built")
class Init(unittest.TestCase):
    def setUp(self):
        room = tempfile.TemporaryDirectory(prefix="init-")
        self.addCleanup(room.cleanup)
        self.room = Path(room.name)
        self.plan = self.room / "new.db"

    def stream(self, *words):
        ran = plans.plan_in_here("init", self.plan, "--stream", *words)
        self.assertEqual((ran.returncode, self.plan.exists()), (0, False), ran.stderr)
        return definitions_of(ran.stdout)

    def test_weekends_holidays_and_periods(self):
        (self.room / "days.csv").write_text(HOLIDAYS)
        defined = self.stream("--years", "2027..2028", "--weekend", "fri,sat", "--holidays", self.room / "days.csv")
        self.assertEqual(defined["calendars"], {"DEFAULT": {
            ("weekday", 4): False, ("weekday", 5): False, ("date", plain.read_day("2027-05-06")): False}})
        text = "DAY,A,2027-01-01,1\nWEEK,A,2026-12-28,7\n"
        for year in (2027, 2028):
            for month in range(1, 13):
                last = 29 if (year, month) == (2028, 2) else (31, 28, 31, 30, 31, 30, 31, 31, 30, 31, 30, 31)[month - 1]
                text += f"MONTH,N,{year}-{month:02}-01,{year}-{month:02}-{last}\n"
        for year in (2027, 2028):
            text += "".join(f"QUARTER,N,{year}-{month:02}-01,{year}-{month + 2:02}-{last}\n"
                            for month, last in ((1, 31), (4, 30), (7, 30), (10, 31)))
        self.assertEqual(defined["periods"], definitions_of(f"define periods --job 1\n{text}/*\n")["periods"])

    @unittest.skipUnless(Path(import_ics.DEBIAN).exists(), "there is no Debian Python")
    def test_holidays_of_an_icalendar_file(self):
        (self.room / "days.ics").write_text(CALENDAR)
        ran = plans.plan("init", self.plan, "--stream", "--years", "2027..2028", "--holidays", self.room / "days.ics")
        if "python3-icalendar" in ran.stderr:
            self.skipTest("the library isn't there")
        self.assertEqual({day for kind, day in definitions_of(ran.stdout)["calendars"]["DEFAULT"] if kind == "date"},
                         {plain.read_day("2027-01-01"), plain.read_day("2028-01-01")})

    def test_a_plan_is_made_once(self):
        words = ("init", self.plan, "--years", "2027", "--program", plans.PROGRAM)
        ran = plans.plan(*words, text="")
        self.assertEqual((ran.returncode, self.plan.exists()), (1, False), ran.stderr)
        self.assertIn("--yes runs it without asking", ran.stderr)
        ran = plans.plan(*words, "--yes", text="")
        self.assertEqual((ran.returncode, ran.stdout.endswith("ok defined 1\nok defined 4\n")), (0, True), ran.stderr)
        # that the file held no plan is what was asked for; opcplan says it of a name that somebody mistyped
        self.assertNotIn("the file held no plan", ran.stderr)
        self.assertTrue(ran.stderr.startswith("plan: `./plan edit"), ran.stderr)
        text = plans.plan_in_here("dump", self.plan).stdout
        self.assertEqual(definitions_of(text), self.made_by(*words[2:-2]))
        before = plans.prints(self.plan)
        ran = plans.plan(*words, "--yes", text="")
        self.assertEqual((ran.returncode, ran.stdout, ran.stderr.count("\n")), (1, "", 1))
        self.assertIn("`./plan edit` changes an old one", ran.stderr)
        self.assertEqual(plans.prints(self.plan), before)

    def test_what_it_says_comes_next_makes_a_plan_that_is_extended(self):
        said = plans.plan("init", self.plan, "--years", "2027", "--program", plans.PROGRAM, "--yes", text="").stderr
        edit, create, roll = (part.removeprefix("./plan ") for part in said.splitlines()[-1].split("`")[1::2])
        edit, _, run = edit.partition(" | ")
        self.assertEqual(run, f"./opcplan --db {self.plan}")
        text = plans.plan(*edit.replace("NAME", "PAY").split()).stdout
        self.assertEqual(expected.asked(self.plan, text.encode())[:2], (["ok defined 1"] * 2, 0))
        create = create.replace("DAY", "2027-05-03", 1).replace("DAY", "2027-05-31", 1)
        ran = plans.plan(*create.split())
        # 21 work days from Monday on, since no holiday is listed
        self.assertEqual((ran.returncode, ran.stdout), (0, "ok made 21 withdrawn 0\n"))
        # 48 hours ahead is 2027-05-05 08.00, and the daily plan ends at midnight
        ran = plans.plan(*roll.split(), "--reserve", "1d", "--now", "2027-05-03/08.00")
        self.assertEqual(ran.returncode, 0, ran.stderr)
        rows = plans.plan_in_here("rows", self.plan, "cp").stdout.splitlines()
        self.assertEqual([row.split()[3:5] for row in rows[:-1]], [["DAY", f"2027-05-0{day}"] for day in (3, 4, 5)])

    def made_by(self, *words):
        return definitions_of(plans.plan_in_here("init", self.room / "other.db", "--stream", *words).stdout)

    def test_it_asks_on_a_terminal(self):
        ours, theirs = pty.openpty()
        self.addCleanup(os.close, ours)
        with subprocess.Popen([plans.TOP / "plan", "init", self.plan, "--program", plans.PROGRAM], stdin=theirs,
                              stdout=subprocess.PIPE, stderr=theirs) as ran:
            os.close(theirs)
            os.write(ours, b"2O27\n2027\nSUN\n\ny\n")
            ran.stdout.read()
        self.assertEqual(ran.returncode, 0)
        text = plans.plan_in_here("dump", self.plan).stdout
        self.assertEqual(definitions_of(text), self.made_by("--years", "2027", "--weekend", "SUN"))

    def test_what_is_no_year_and_no_day_is_reported(self):
        for words in (["--years", "27"], ["--years", "2028..2027"], ["--years", "2000..2060"], ["--weekend", "SAT,SON"],
                      ["--holidays", self.room / "none.csv"]):
            ran = plans.plan_in_here("init", self.plan, "--stream", *words)
            self.assertIn(ran.returncode, (1, 2))
            self.assertEqual((ran.stdout, ran.stderr.count("\n")), ("", 1), ran.stderr)


@unittest.skipUnless(plans.PROGRAM.exists(), "opcplan is not built")
class New(unittest.TestCase):
    """`edit .. new`: what is made is what a block by hand gives."""

    BASE = """define calendars --job 1
DEFAULT,SAT,FREE
USA,SUN,FREE
/*
define periods --job 2
MONTH,N,2027-01-01,2027-01-31
/*
define applications --job 3
LEDGER,A,
/*
define run-cycles --job 4
LEDGER,DAILY,N,MONTH,E,1,2027-01-01,,20.00,0,23.00
/*
ltp-create --from 2027-01-04 --to 2027-01-31 --job 5
"""

    def setUp(self):
        room = tempfile.TemporaryDirectory(prefix="new-")
        self.addCleanup(room.cleanup)
        self.plan = plans.copy_of(plans.of_stream(self.BASE), room.name)

    def edited(self, *words):
        ran = plans.plan_in_here("edit", self.plan, *words)
        return ran.returncode, ran.stdout, ran.stderr

    def test_new_definitions_are_those_of_a_block(self):
        for words, block in (
            ("application PAY new calendar=usa cycle=MONTHLY period=MONTH rule=1 offsets=25 ia=08.00 deadline=0/16.00",
             "define applications --job 6\nPAY,A,USA\n/*\ndefine run-cycles --job 7\n"
             "PAY,MONTHLY,N,MONTH,1,25,2027-01-04,,08.00,0,16.00\n/*\n"),
            ("application IDLE new pending", "define applications --job 6\nIDLE,P,\n/*\n"),
            ("application SHORT new period=MONTH ia=08.00 deadline=16.00",
             "define applications --job 6\nSHORT,A,\n/*\ndefine run-cycles --job 7\n"
             "SHORT,MONTH,N,MONTH,E,1,2027-01-04,,08.00,0,16.00\n/*\n"),
            ("run-cycle LEDGER SECOND new period=MONTH offsets=-1 ia=21.00 deadline=1/02.00 in-effect=2027-01-10",
             "define run-cycles --job 6\nLEDGER,DAILY,N,MONTH,E,1,2027-01-01,,20.00,0,23.00\n"
             "LEDGER,SECOND,N,MONTH,E,-1,2027-01-10,,21.00,1,02.00\n/*\n"),
            ("run-cycle LEDGER FREE new type=x period=MONTH rule=3 offsets=5 ia=20.00",
             "define run-cycles --job 6\nLEDGER,DAILY,N,MONTH,E,1,2027-01-01,,20.00,0,23.00\n"
             "LEDGER,FREE,X,MONTH,3,5,2027-01-04,,20.00,,\n/*\n"),
            ("period QUARTER new quarters 2027-01..2027-06",
             "define periods --job 6\nQUARTER,N,2027-01-01,2027-03-31\nQUARTER,N,2027-04-01,2027-06-30\n/*\n"),
            ("period WEEK new type=A origin=2027-01-04 interval=7",
             "define periods --job 6\nWEEK,A,2027-01-04,7\n/*\n"),
        ):
            with self.subTest(words):
                status, text, message = self.edited(*words.split(), "--job", "6")
                self.assertEqual(status, 0, message)
                self.assertEqual(definitions_of(self.BASE + text), definitions_of(self.BASE + block))
                copy = plans.copy_of(self.plan, self.plan.parent, "try.db")
                self.assertEqual(expected.asked(copy, text.encode())[1], 0)
                os.remove(self.plan.parent / "try.db")

    def test_a_new_application_comes_into_the_plan(self):
        words = "application PAY new period=MONTH rule=3 offsets=25 ia=08.00 deadline=0/16.00".split()
        status, text, message = self.edited(*words)
        self.assertIn("`ltp-modify-one --app PAY --job 8` for PAY only,", message)
        text += "ltp-modify-one --app PAY --job 8\nlist ltp --app PAY\n"
        self.assertEqual(expected.asked(self.plan, text.encode())[0],
                         plans.plain.run(text.encode(), plans.planner_of(self.BASE).copy()))

    def test_what_can_not_be_made_is_reported(self):
        for words, status, said in (
            ("application LEDGER new", 1, "LEDGER exists already"),
            ("application LEGDER active", 1, "(did you mean LEDGER?); `./plan edit PLAN.db application LEGDER new"),
            ("application PAY new period=MONTH ia=08.00", 2, "deadline= is missing"),
            ("application PAY new ia=08.00 deadline=0/09.00", 2, "period= is missing"),
            ("application PAY new period=MONHT ia=08.00 deadline=0/09.00", 1, "did you mean MONTH?"),
            ("application PAY new calendar=UAS", 1, "did you mean USA?"),
            ("application LEDGER period=MONTH", 2, "`./plan edit PLAN.db run-cycle LEDGER NAME period=..`"),
            ("run-cycle LEDGER DAILY new period=MONTH ia=08.00 deadline=0/09.00", 1, "has a run cycle DAILY already"),
            ("run-cycle LEDGER DIALY offsets=2", 1, "(did you mean DAILY?)"),
            ("run-cycle NOBODY X new period=MONTH ia=08.00 deadline=0/09.00", 1, "`application NOBODY new` makes one"),
            ("period MONTH new months 2027-01..2027-02", 1, "MONTH exists already"),
            ("period YEAR new months ..2027-02", 2, "FIRST..LAST"),
            ("period YEAR new type=A", 2, "type A needs origin= too"),
        ):
            with self.subTest(words):
                found, text, message = self.edited(*words.split())
                self.assertEqual((found, text, message.count("\n")), (status, "", 1), message)
                self.assertIn(said, message)


if __name__ == "__main__":
    unittest.main()
