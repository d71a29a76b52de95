"""./plan edit: its streams are taken by the program and by tools/reference/plain_planner.py, and change what is wanted
alone."""

import contextlib
import sqlite3
import sys
import tempfile
import unittest
from collections import Counter
from pathlib import Path

from support import plans

from opcplan.commands import dump, edit
from opcplan.plans import plan_file


plain, plan_rows = plans.plain, plans.plan_rows
BASE = b"""define calendars --job 1
DEFAULT,SAT,FREE
DEFAULT,SUN,FREE
DEFAULT,2027-01-01,FREE
DEFAULT,2027-01-09,WORK
BANK,SUN,FREE
ONE,2027-03-01,FREE
SPARE,MON,FREE
/*
define periods --job 2
DAY,A,2027-01-01,1
WORK5,W,2027-01-04,5
MONTH,N,2027-01-01,
MONTH,N,2027-02-01,2027-02-20
MONTH,N,2027-03-01,2027-03-31
LONE,N,2027-05-01,
/*
define applications --job 3
SALES,A,
LEDGER,A,BANK
BACKUP,A,
TAXES,P,NOWHERE
TRIAL,P,
SHOP,A,ONE
/*
define run-cycles --job 4
SALES,DAILY,N,DAY,E,1,2027-01-01,,18.00,0,20.00
SALES,NOT,X,MONTH,3,1 15,2027-01-01,2027-03-01,18.00,,
LEDGER,DAILY,N,DAY,E,1,2027-01-01,,20.00,0,23.00
BACKUP,FIFTH,N,WORK5,1,-1,2027-01-01,,22.00,1,05.00
TRIAL,DAILY,N,NOPERIOD,3,1,2027-01-01,,10.00,0,11.00
SHOP,MONTHLY,N,MONTH,2,-1 1,2027-01-01,,12.00,0,13.00
/*
define predecessors --job 5
LEDGER,SALES,
BACKUP,LEDGER,12
BACKUP,BACKUP,
/*
ltp-create --from 2027-01-04 --to 2027-03-31 --job 6
dp-extend --to 2027-01-05/06.00 --job 7
cp-start --app SALES --ia 2027-01-04/18.00 --job 8
"""
# one after the other over one plan: words, the records that go, those that come
EDITS = [
    ("calendar DEFAULT 2027-01-06 free", [], ["DEFAULT,2027-01-06,FREE"]),
    ("calendar default 2027-01-06 work", ["DEFAULT,2027-01-06,FREE"], ["DEFAULT,2027-01-06,WORK"]),
    ("calendar DEFAULT 2027-01-06 unlist", ["DEFAULT,2027-01-06,WORK"], []),
    ("calendar DEFAULT 2026-12-31..2027-01-02 free", [], ["DEFAULT,2026-12-31,FREE", "DEFAULT,2027-01-02,FREE"]),
    ("calendar DEFAULT 2027-01-01..2027-12-31 unlist",
     ["DEFAULT,2027-01-01,FREE", "DEFAULT,2027-01-02,FREE", "DEFAULT,2027-01-09,WORK"], []),
    ("calendar DEFAULT sat work", ["DEFAULT,SAT,FREE"], ["DEFAULT,SAT,WORK"]),
    ("calendar DEFAULT SAT unlist", ["DEFAULT,SAT,WORK"], []),
    ("calendar DEFAULT MON free", [], ["DEFAULT,MON,FREE"]),
    ("calendar BANK 2027-02-28..2027-03-01 work", [], ["BANK,2027-02-28,WORK", "BANK,2027-03-01,WORK"]),
    ("calendar SPARE MON unlist", ["SPARE,MON,FREE"], []),
    ("application SALES pending", ["SALES,A,"], ["SALES,P,"]),
    ("application SALES active calendar=BANK", ["SALES,P,"], ["SALES,A,BANK"]),
    ("application LEDGER calendar=", ["LEDGER,A,BANK"], ["LEDGER,A,"]),
    ("application TAXES calendar=ONE active", ["TAXES,P,NOWHERE"], ["TAXES,A,ONE"]),
    ("run-cycle SALES DAILY offset=1 deadline=1/02.30", ["SALES,DAILY,N,DAY,E,1,2027-01-01,,18.00,0,20.00"],
     ["SALES,DAILY,N,DAY,E,1,2027-01-01,,18.00,1,02.30"]),
    ("run-cycle SALES DAILY deadline=04.00 rule=3 ia=17.59", ["SALES,DAILY,N,DAY,E,1,2027-01-01,,18.00,1,02.30"],
     ["SALES,DAILY,N,DAY,3,1,2027-01-01,,17.59,1,04.00"]),
    ("run-cycle sales not offsets=1,-1,1999 out-of-effect= type=x",
     ["SALES,NOT,X,MONTH,3,1 15,2027-01-01,2027-03-01,18.00,,"], ["SALES,NOT,X,MONTH,3,1 -1 1999,2027-01-01,,18.00,,"]),
    ("run-cycle SALES NOT type=N deadline-day=0 deadline-time=18.30",
     ["SALES,NOT,X,MONTH,3,1 -1 1999,2027-01-01,,18.00,,"],
     ["SALES,NOT,N,MONTH,3,1 -1 1999,2027-01-01,,18.00,0,18.30"]),
    ("run-cycle SALES NOT type=X deadline= in-effect=2027-02-01 out-of-effect=2027-02-28 period=DAY",
     ["SALES,NOT,N,MONTH,3,1 -1 1999,2027-01-01,,18.00,0,18.30"],
     ["SALES,NOT,X,DAY,3,1 -1 1999,2027-02-01,2027-02-28,18.00,,"]),
    ("run-cycle TRIAL DAILY period=DAY input-arrival=09.00", ["TRIAL,DAILY,N,NOPERIOD,3,1,2027-01-01,,10.00,0,11.00"],
     ["TRIAL,DAILY,N,DAY,3,1,2027-01-01,,09.00,0,11.00"]),
    ("predecessor LEDGER add SALES 9999", ["LEDGER,SALES,"], ["LEDGER,SALES,9999"]),
    ("predecessor BACKUP add SALES", [], ["BACKUP,SALES,"]),
    ("predecessor BACKUP remove BACKUP", ["BACKUP,BACKUP,"], []),
    ("predecessor BACKUP remove LEDGER", ["BACKUP,LEDGER,12"], []),
    ("predecessor SALES add SALES", [], ["SALES,SALES,"]),
    ("predecessor SALES add BACKUP 1 --job 1000000", None, None),
    ("predecessor BACKUP remove SALES", ["BACKUP,SALES,"], []),
    ("predecessor SALES add BACKUP 1", [], ["SALES,BACKUP,1"]),
    ("predecessor SALES remove SALES", ["SALES,SALES,"], []),
    ("period MONTH add 2027-04-01", [], ["MONTH,N,2027-04-01,"]),
    ("period MONTH add 2027-01-16 2027-01-20", [], ["MONTH,N,2027-01-16,2027-01-20"]),
    ("period MONTH remove 2027-01-01", ["MONTH,N,2027-01-01,"], []),
    ("period month end 2027-02-01", ["MONTH,N,2027-02-01,2027-02-20"], ["MONTH,N,2027-02-01,"]),
    ("period MONTH end 2027-04-01 2027-04-30", ["MONTH,N,2027-04-01,"], ["MONTH,N,2027-04-01,2027-04-30"]),
    ("period MONTH months ..2027-06", [], ["MONTH,N,2027-05-01,2027-05-31", "MONTH,N,2027-06-01,2027-06-30"]),
    ("period MONTH months 2026-12..2027-02", [], ["MONTH,N,2026-12-01,2026-12-31", "MONTH,N,2027-01-01,2027-01-31"]),
    ("period MONTH quarters ..2027-12", [], ["MONTH,N,2027-09-01,2027-11-30", "MONTH,N,2027-12-01,2028-02-29"]),
    ("period LONE weeks ..2027-05-17", [],
     ["LONE,N,2027-05-08,2027-05-14", "LONE,N,2027-05-15,2027-05-21"]),
    ("period LONE remove 2027-05-08", ["LONE,N,2027-05-08,2027-05-14"], []),
    ("period LONE remove 2027-05-15", ["LONE,N,2027-05-15,2027-05-21"], []),
    ("period DAY origin=2027-01-02", ["DAY,A,2027-01-01,1"], ["DAY,A,2027-01-02,1"]),
    ("period WORK5 interval=1999 type=a", ["WORK5,W,2027-01-04,5"], ["WORK5,A,2027-01-04,1999"]),
    ("period LONE type=W origin=2027-05-03 interval=3", ["LONE,N,2027-05-01,"], ["LONE,W,2027-05-03,3"]),
    ("period LONE type=N", ["LONE,W,2027-05-03,3"], ["LONE,N,2027-05-03,"]),
    ("period LONE remove 2027-05-03", ["LONE,N,2027-05-03,"], []),
    ("options max_extension_hours=48", ["max_extension_hours = 504"], ["max_extension_hours = 48"]),
    ("options default_calendar=BANK", ['default_calendar = "DEFAULT"'], ['default_calendar = "BANK"']),
    ("options max_extension_hours=504", ["max_extension_hours = 48"], ["max_extension_hours = 504"]),
    ("options default_calendar=DEFAULT max_extension_hours=1",
     ['default_calendar = "BANK"', "max_extension_hours = 504"],
     ['default_calendar = "DEFAULT"', "max_extension_hours = 1"]),
    ("options default_calendar=BANK", ['default_calendar = "DEFAULT"'], ['default_calendar = "BANK"']),
    ("calendar BANK 2027-02-28..2027-03-01 unlist", ["BANK,2027-02-28,WORK", "BANK,2027-03-01,WORK"], []),
    ("calendar BANK SUN unlist", ["BANK,SUN,FREE"], []),
]
# what is told of each, and the status
REFUSED = [
    ("calendar DEFALT 2027-01-06 free", 1, "no calendar DEFALT"),
    ("calendar DEFAULT 2027-01-01 free", 1, "nothing would change"),
    ("calendar DEFAULT SUN free", 1, "nothing would change"),
    ("calendar DEFAULT 2027-02-01..2027-02-27 unlist", 1, "nothing would change"),
    ("calendar DEFAULT 2027-02-30 free", 2, "there is no 30 February in 2027"),
    ("calendar DEFAULT 2072-01-01 free", 2, "from 1972 to 2071"),
    ("calendar DEFAULT 30.10.2027 free", 2, "as YYYY-MM-DD it is 2027-10-30"),
    ("calendar DEFAULT SATURDAY free", 2, "a weekday, MON to SUN, or a day YYYY-MM-DD"),
    ("calendar DEFAULT 2027-02-03..2027-02-01 free", 2, "before the first"),
    ("calendar DEFAULT 2027-02-03.. free", 2, "YYYY-MM-DD"),
    ("calendar DEFAULT 2027-02-03 2027-02-05 free", 2, "FIRST..LAST"),
    ("calendar DEFAULT 2027-02-03 closed", 2, "free, work and unlist"),
    ("calendar DEFAULT 2027-02-03", 2, "STATUS"),
    ("calendar DEFAULT,X 2027-02-03 free", 2, "name"),
    ("calendar DEFAULT 1972-01-01..2071-12-31 free", 1, "at most 262144"),
    ("calendar ONE 2027-03-01 unlist", 1, "SHOP uses it"),
    ("application SALSE pending", 1, "no application SALSE"),
    ("application SALES active", 1, "nothing would change"),
    ("application SALES sleeping", 2, "active, pending"),
    ("application SALES calendar=BNAK", 1, "no calendar BNAK"),
    ("application SALES active pending", 2, "twice"),
    ("application TAXES active", 1, "NOWHERE"),
    ("application TRIAL active", 1, "NOPERIOD"),
    ("run-cycle SALES WEEKLY offset=1", 1, "no run cycle WEEKLY of SALES"),
    ("run-cycle NOBODY DAILY offset=1", 1, "no run cycle DAILY of NOBODY"),
    ("run-cycle SALES DAILY offset=1", 1, "nothing would change"),
    ("run-cycle SALES DAILY offset=0", 2, "isn't an offset"),
    ("run-cycle SALES DAILY offset=2000", 2, "1999"),
    ("run-cycle SALES DAILY offset=", 2, "offset"),
    ("run-cycle SALES DAILY deadline=24.00", 2, "00.00 of the next day"),
    ("run-cycle SALES DAILY deadline=100/10.00", 2, "0 to 99"),
    ("run-cycle SALES DAILY deadline=", 2, "0 to 99"),
    ("run-cycle SALES DAILY ia=8.00", 2, "08.00"),
    ("run-cycle SALES DAILY ia=08.00 input-arrival=09.00", 2, "twice"),
    ("run-cycle SALES DAILY rule=5", 2, "one of E, 1, 2, 3, 4"),
    ("run-cycle SALES DAILY type=A", 2, "one of N, X"),
    ("run-cycle SALES DAILY period=YEAR", 1, "no period YEAR"),
    ("run-cycle SALES DAILY in-effect=2027-02-29", 2, "there is no 29 February in 2027"),
    ("run-cycle SALES DAILY colour=red", 2, "no field 'colour'"),
    ("run-cycle SALES DAILY offset", 2, "KEY=VALUE"),
    ("predecessor LEDGER add SALES", 1, "nothing would change"),
    ("predecessor LEDGER add SALSE", 1, "no application SALSE"),
    ("predecessor LEDGRE add SALES", 1, "no application LEDGRE"),
    ("predecessor LEDGER remove BACKUP", 1, "doesn't wait for BACKUP"),
    ("predecessor SALES add BACKUP", 1, "SALES waits for BACKUP waits for LEDGER waits for SALES"),
    ("predecessor LEDGER add SALES 0", 2, "1 to 9999"),
    ("predecessor LEDGER add SALES 1.5", 2, "1 to 9999"),
    ("predecessor LEDGER remove SALES 5", 2, "hours"),
    ("predecessor LEDGER drop SALES", 2, "add nor remove"),
    ("period YEAR add 2027-01-01", 1, "no period YEAR"),
    ("period MONTH add 2027-01-01", 1, "already"),
    ("period MONTH add 2027-04-05 2027-04-04", 2, "before its origin"),
    ("period MONTH remove 2027-01-02", 1, "no interval from 2027-01-02"),
    ("period MONTH end 2027-03-01 2027-03-31", 1, "nothing would change"),
    ("period MONTH remove", 1, "NOT of SALES, MONTHLY of SHOP count in MONTH"),
    ("period MONTH add 2027-13-01", 2, "there is no month 13"),
    ("period MONTH interval=5", 2, "type N"),
    ("period MONTH type=A interval=5", 2, "origin="),
    ("period DAY add 2027-01-05", 1, "type A"),
    ("period DAY interval=2000", 2, "1 to 1999"),
    ("period DAY interval=1", 1, "nothing would change"),
    ("period DAY type=Q", 2, "one of A, W, N"),
    ("period DAY length=5", 2, "'length'"),
    ("period DAY grow", 2, "KEY=VALUE"),
    ("options max_extension_hours=505", 2, "1 to 504"),
    ("options max_extension_hours=504", 1, "nothing would change"),
    ("options default_calendar=BNAK", 1, "no calendar BNAK"),
    ("options default_calendar=", 2, "name"),
    ("options colour=red", 2, "no such option"),
    ("options max_extension_hours=1 max_extension_hours=2", 2, "twice"),
    ("options max_extension_hours=5 --job 7", 2, "job 7 is used"),
    ("options max_extension_hours=5 --job 0", 2, "is not a job number"),
    ("calendars DEFAULT 2027-01-06 free", 2, "invalid choice"),
    ("", 2, "WHAT"),
]


def edited(file, given):
    """What ./plan edit answers: status, standard output and standard error."""
    ran = plans.plan_here(edit, file, *given.split())
    return ran.returncode, ran.stdout, ran.stderr


def records(file):
    """The records of a plan's dump, each as often as it stands there, predecessors with their third field."""
    with plan_file.opened(file) as plan:
        kinds = {kind: "".join(blocks) for kind, _, blocks in dump.kinds_of(plan)}
    found = Counter(line for text in kinds.values() for line in text.splitlines())
    if "," in kinds.get("predecessors", ",,").splitlines()[0].partition(",")[2]:
        return found
    listed = Counter(kinds["predecessors"].splitlines())
    return found - listed + Counter({f"{line},": count for line, count in listed.items()})


class Edit(unittest.TestCase):
    def setUp(self):
        room = tempfile.TemporaryDirectory(prefix="edit-")
        self.addCleanup(room.cleanup)
        self.room = Path(room.name)

    def written(self, planner):
        """The file of what a plain planner knows."""
        file = self.room / "written.db"
        for tail in ("", "-wal", "-shm"):
            Path(f"{file}{tail}").unlink(missing_ok=True)
        plans.write(planner, file)
        return file

    def ask_differs(self, given, before, after, gone, come):
        self.assertEqual((before - after, after - before), (Counter(gone), Counter(come)), given)

    def test_each_change_is_the_wanted_one_alone_by_the_plain_planner(self):
        planner = plain.Planner()
        plain.run(BASE, planner)
        file = self.written(planner)
        for given, gone, come in EDITS:
            with self.subTest(given):
                status, text, message = edited(file, given)
                if gone is None:
                    self.assertEqual((status, text), (1, ""), message)
                    continue
                self.assertEqual(status, 0, message)
                number = max(planner.jobs) + 1
                self.assertIn(f" --job {number}\n", text)
                way = "at once" if given.startswith("options max") else "isn't an active" if "TRIAL" in given else None
                self.assertIn(way or f"`ltp-modify-all --job {number + 1}`", message)
                before = records(file)
                self.assertIn(plain.run(text.encode(), planner), (["ok defined 1"], ["ok undefined"]))
                file = self.written(planner)
                self.ask_differs(given, before, records(file), gone, come)

    @unittest.skipUnless(plans.PROGRAM.exists(), "opcplan is not built")
    def test_program_takes_each_and_agrees_with_the_plain_planner(self):
        planner = plain.Planner()
        plain.run(BASE, planner)
        file = plans.copy_of(plans.of_stream(BASE), self.room)
        for given, gone, come in EDITS:
            with self.subTest(given):
                _, text, _ = edited(file, given)
                before = records(file)
                wanted = plain.run(text.encode(), planner)
                answers, status = plan_rows.run(text.encode(), file)
                self.assertEqual((answers.decode().splitlines(), status), (wanted, 0))
                self.ask_differs(given, before, records(file), gone or [], come or [])
        modify = b"ltp-modify-all --job 999\n"
        self.assertEqual(plan_rows.run(modify, file)[0].decode().splitlines(), plain.run(modify, planner))
        found = {table: sorted(rows, key=repr) for table, rows in plan_rows.table_rows(planner).items()}
        self.assertEqual(plan_rows.rows_of(file), found)

    def test_what_is_no_change_is_reported_and_prints_nothing(self):
        file = self.written(plans.planner_of(BASE))
        before = plans.prints(file)
        for given, wanted, says in REFUSED:
            with self.subTest(given):
                status, text, message = edited(file, given)
                self.assertEqual((status, text), (wanted, ""), message)
                self.assertRegex(message, r"\Aplan: [^\n]+\n\Z")
                self.assertIn(says, message)
        self.assertEqual(plans.prints(file), before)

    def test_the_last_interval_of_a_period_in_use_stays(self):
        """Without it the period would be undefined, and run cycles that count in it would have none."""
        text = BASE + b"""define periods --job 20
ONE,N,2027-01-01,
TWO,N,2027-01-01,2027-01-31
/*
define run-cycles --job 21
SALES,FIRST,N,ONE,3,1,2027-01-01,,08.00,0,10.00
LEDGER,FIRST,N,ONE,3,1,2027-01-01,,08.00,0,10.00
/*
"""
        file = self.written(plans.planner_of(text))
        before = records(file)
        self.assertTrue(any(line.startswith("ONE,N,") for line in before))
        status, text, message = edited(file, "period ONE remove 2027-01-01")
        self.assertEqual((status, text), (1, ""))
        self.assertIn("no interval of ONE would be left", message)
        self.assertIn("FIRST of LEDGER, FIRST of SALES count in it", message)
        status, text, _ = edited(file, "period TWO remove 2027-01-01")
        self.assertEqual((status, text.split(" --job")[0]), (0, "undefine periods --name TWO"))

    def test_words_of_no_text_are_reported(self):
        file = self.written(plans.planner_of(BASE))
        for given in (b"calendar DEFAULT 2027-01-0\xff free", b"run-cycle SALES DAILY offset=\x1b[2J1",
                      b"run-cycle SALES DAILY \x1b[2J=1", b"options default_calendar=A\xff", b"period DAY \x1b=1",
                      "calendar DEFÄULT 2027-01-06 free".encode(), b"options default_calendar=A\"\nB",
                      b"application SALES calendar=A\n/*\nltp-modify-all"):
            ran = plans.subprocess.run([plans.TOP / "plan", "edit", file, *given.split(b" ")], capture_output=True,
                                       check=False)
            self.assertEqual((ran.returncode, ran.stdout), (2, b""), ran)
            stderr = ran.stderr.decode()
            self.assertTrue(stderr.startswith("plan: ") and stderr.endswith("\n") and stderr[:-1].isprintable(), stderr)

    def test_rows_that_no_record_can_give_are_reported(self):
        planner = plans.planner_of(BASE)
        for change, given in (
            ("UPDATE calendar_entry SET calendar = 'A' || char(10) WHERE calendar = 'BANK'", "calendar BANK MON free"),
            ("UPDATE calendar_entry SET day = 99999 WHERE calendar = 'BANK'", "calendar BANK MON free"),
            ("UPDATE run_cycle SET period = 'A,B' WHERE app = 'SALES'", "run-cycle SALES DAILY offset=2"),
            ("UPDATE run_cycle SET period = 'A,B' WHERE name = 'NOT'", "run-cycle SALES DAILY offset=2"),
            ("UPDATE run_cycle SET period = '/*' || char(10) WHERE name = 'NOT'", "run-cycle SALES DAILY offset=2"),
            ("UPDATE predecessor SET pred = 'a b' WHERE pred = 'BACKUP'", "predecessor BACKUP add SALES"),
            ("UPDATE plan_meta SET default_calendar = '\"'", "options max_extension_hours=5"),
            ("UPDATE application SET calendar = 'x' WHERE name = 'LEDGER'", "application LEDGER pending"),
        ):
            with self.subTest(change):
                file = self.written(planner)
                with contextlib.closing(sqlite3.connect(file)) as db:
                    db.execute("PRAGMA foreign_keys = OFF")
                    db.execute(change)
                    db.commit()
                status, text, message = edited(file, given)
                self.assertEqual((status, text), (1, ""), message)
                self.assertRegex(message, r"\Aplan: [ -~]+\n\Z")

    def test_a_number_that_is_free_is_taken(self):
        text = BASE + b"undefine periods --name LONE --job 999999999\n"
        file = self.written(plans.planner_of(text))
        status, text, message = edited(file, "options max_extension_hours=48")
        self.assertEqual((status, text), (1, ""))
        self.assertIn("--job", message)
        _, text, _ = edited(file, "options max_extension_hours=48 --job 9")
        self.assertTrue(text.startswith("define options --job 9\n"), text)

    def test_what_is_reported(self):
        """Each stream that is printed here and not run has a number of its own, from 9 on."""
        file = self.written(plans.planner_of(BASE))
        for given, says in (
            ("calendar DEFAULT 2027-01-04 free",
             ["2027-01-04 (MON), not listed, a work day -> free", "Its 4 other entries stay",
              "BACKUP, SALES, TRIAL use DEFAULT", "before 2027-01-05 06.00"]),
            ("calendar DEFAULT SUN unlist", ["SUN, free -> not listed, a work day"]),
            ("calendar DEFAULT 2027-01-08..2027-01-10 work",
             ["in 2 entries", "2027-01-10 (SUN), not listed, free by its weekday", "1 of this was so already"]),
            ("application SALES pending", ["active -> pending", "2 run cycles", "(LEDGER)"]),
            ("run-cycle SALES DAILY deadline=17.00", ["deadline time: 20.00 -> 17.00", "before it arrives", "NOT",
                                                      "`ltp-modify-one --app SALES --job 14`"]),
            ("run-cycle BACKUP FIFTH offset=6", ["past each interval of WORK5"]),
            ("predecessor LEDGER add BACKUP 12", ["loop"]),
            ("predecessor SALES add SHOP", ["SALES waits for SHOP, without a limit", "waits for nothing else"]),
            ("period MONTH add 2027-01-16", ["- 2027-01-01 to 2027-01-31; + 2027-01-01 to 2027-01-15; + 2027-01-16 to "
                                             "2027-01-31; 2 stay", "NOT of SALES, MONTHLY of SHOP"]),
            ("period WORK5 interval=6", ["intervals of 5 work days", "FIFTH of BACKUP"]),
        ):
            with self.subTest(given):
                message = edited(file, given)[2]
                for part in says:
                    self.assertIn(part, message)

    def test_without_standard_error_the_stream_stands_alone(self):
        file = self.written(plans.planner_of(BASE))
        words = [sys.executable, plans.TOP / "plan", "edit", file, "options", "max_extension_hours=5"]
        ran = plans.subprocess.run(["sh", "-c", '"$@" 2>&-', "sh", *words], stdout=plans.subprocess.PIPE, check=False)
        self.assertEqual((ran.returncode, ran.stdout.decode()), (0, edited(file, "options max_extension_hours=5")[1]))

    def test_plan_without_long_term_plan(self):
        file = self.written(plans.planner_of(BASE.partition(b"ltp-create")[0]))
        status, text, message = edited(file, "calendar DEFAULT 2027-01-06 free")
        self.assertEqual((status, text.count("\n")), (0, 7))
        self.assertIn("`ltp-create` will use this", message)


if __name__ == "__main__":
    unittest.main()
