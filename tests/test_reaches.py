"""What ends before the plan does is told by lint, check, run and the page; the plain planner names nothing after it."""

import random
import re
import tempfile
import unittest
from pathlib import Path

from support import page_reader as read, plans

from opcplan.plans import stream_state
from opcplan.rules import horizons, moments

from test_why_day import defined_by

BASE = """define calendars --job 1
DEFAULT,SAT,FREE
DEFAULT,SUN,FREE
DEFAULT,2026-12-25,FREE
DEFAULT,2027-01-01,FREE
BANK,SUN,FREE
/*
define periods --job 2
DAY,A,2027-01-01,1
MONTH,N,2027-01-01,2027-01-31
MONTH,N,2027-02-01,2027-02-28
/*
define applications --job 3
WAGES,A,BANK
BALANCE,A,BANK
LEDGER,A,BANK
SALES,A,
OLD,P,
/*
define run-cycles --job 4
WAGES,PAYDAY,N,MONTH,1,25,2027-01-01,,18.00,0,20.00
BALANCE,LAST,N,MONTH,3,-1,2027-01-01,,18.00,0,20.00
LEDGER,CLOSE,N,MONTH,3,-1,2027-01-01,,18.00,0,20.00
LEDGER,DAILY,N,DAY,3,1,2027-01-01,,18.00,0,20.00
SALES,DAILY,N,DAY,E,1,2027-01-01,2027-07-01,18.00,0,20.00
OLD,PAYDAY,N,MONTH,1,25,2027-01-01,,18.00,0,20.00
/*
ltp-create --from 2027-01-01 --to 2027-02-28 --job 5
"""
EXTEND = "ltp-extend --to 2027-12-31 --job 6\n"
MONTH = ("MONTH ends 2027-02-28, but the plan goes to 2027-12-31: BALANCE, WAGES have no occurrence after it, and "
         "CLOSE of LEDGER names no day after it. `./plan edit PLAN.db period MONTH months ..2027-12` adds the rest.")
DATES = ("DEFAULT lists no date after 2027-01-01, but the plan goes to 2027-12-31: SALES uses it. `./plan edit PLAN.db "
         "calendar DEFAULT DAY free` adds a holiday, `./plan import --ics FILE --calendar DEFAULT PLAN.db` those of a "
         "file.")
OVER = ("run cycle DAILY of SALES is out of effect from 2027-07-01 on, but the plan goes to 2027-12-31: SALES has no "
        "occurrence after 2027-06-30. `./plan edit PLAN.db run-cycle SALES DAILY out-of-effect=` keeps it in effect.")
ALL = [DATES, MONTH, OVER]


def joined(output):
    """What a command printed, its wrapped lines joined."""
    return output.replace("\n    ", " ")


def found_in(output):
    """The findings that a command printed."""
    return sorted(re.findall("(?m)^line [0-9]+: (.*)$", joined(output)))


class Reported(unittest.TestCase):
    maxDiff = None

    def setUp(self):
        room = tempfile.TemporaryDirectory(prefix="reaches-")
        self.addCleanup(room.cleanup)
        self.room = Path(room.name)
        self.plan = plans.copy_of(plans.of_stream(BASE), self.room)

    def stream(self, text):
        file = self.room / "x.in"
        file.write_text(text, encoding="ascii")
        return file

    def test_lint_reports_it_by_a_stream_alone_and_over_a_plan(self):
        whole = plans.plan("lint", self.stream(BASE + EXTEND))
        self.assertEqual((found_in(whole.stdout), whole.returncode), (sorted(ALL), 1), whole.stderr)
        lines = {line.split(":")[0] for line in whole.stdout.splitlines() if line[0] != " "}
        self.assertEqual(lines, {f"line {BASE.count(chr(10)) + 1}"})
        self.assertEqual(plans.plan("lint", self.stream(BASE)).stdout, "")
        over = plans.plan("lint", self.stream(EXTEND), "--plan", self.plan)
        self.assertEqual((found_in(over.stdout), over.returncode), (sorted(ALL), 1), over.stderr)

    def test_what_was_short_before_is_reported_at_an_extension_alone(self):
        extended = plans.copy_of(plans.of_stream(BASE + EXTEND), self.room, "extended.db")
        again = plans.plan("lint", self.stream("ltp-modify-all --job 9\n"), "--plan", extended)
        self.assertEqual((again.stdout, again.returncode), ("", 0))
        more = plans.plan("lint", self.stream("ltp-extend --to 2028-01-31 --job 9\n"), "--plan", extended)
        self.assertEqual(found_in(more.stdout)[1], MONTH.replace("2027-12-31", "2028-01-31").replace("..2027-12",
                                                                                                     "..2028-01"))

    def test_the_edits_that_are_named_mend_it(self):
        texts = []
        for words in (["period", "MONTH", "months", "..2027-12"], ["calendar", "DEFAULT", "2027-12-24", "free"],
                      ["run-cycle", "SALES", "DAILY", "out-of-effect="]):
            ran = plans.plan("edit", self.plan, *words, "--job", 10 + len(texts))
            self.assertEqual(ran.returncode, 0, ran.stderr)
            texts.append(ran.stdout)
        ran = plans.plan("lint", self.stream("".join(texts) + EXTEND), "--plan", self.plan)
        changed = "changes run cycle DAILY of SALES: out of effect 2027-07-01, then never"
        self.assertEqual(found_in(ran.stdout), [changed])

    @unittest.skipUnless(plans.PROGRAM.exists(), "opcplan is not built")
    def test_check_run_and_the_page_report_it(self):
        program = ("--program", plans.PROGRAM)
        checked = plans.plan("check", self.plan, self.stream(EXTEND), *program)
        self.assertEqual((found_in(checked.stdout), checked.returncode), (sorted(ALL), 1), checked.stderr)
        self.assertEqual(self.on_the_page(read.page_of(self.plan)), [])
        ran = plans.plan("run", self.plan, self.stream(EXTEND), "--yes", *program)
        self.assertEqual((found_in(ran.stdout), ran.returncode), (sorted(ALL), 0), ran.stderr)
        page = read.page_of(self.plan)
        self.assertEqual(sorted(self.on_the_page(page)), sorted(ALL))
        plain = re.search(r"<noscript>(.*?)</noscript>", page, re.S)[1]
        self.assertTrue(all(f"<p>Needs a person: {text}. First: " in plain for text in ALL))

    def on_the_page(self, page):
        """What the page says of definitions that end."""
        return [one["text"] for one in read.data_in(page)["needs"]["needs"] if one["kind"] == "definitions"]


class Forms(unittest.TestCase):
    """The command that adds the rest goes by what the intervals are."""

    def way(self, *records):
        text = "define periods --job 1\n" + "".join(f"P,N,{record}\n" for record in records) + "/*\n"
        now = stream_state.Known()
        for item in plans.items_of(text):
            now.take(item)
        return horizons.way_on("P", now.defined.periods["P"], moments.day_of("2027-12-31")).split("`")[1]

    def test_forms(self):
        edit = "./plan edit PLAN.db period P"
        for records, wanted in (
            (["2027-01-01,", "2027-02-01,"], "months ..2027-12"),
            (["2027-02-01,2027-02-28"], "months ..2027-12"),
            (["2026-10-01,", "2027-01-01,2027-03-31"], "quarters ..2027-12"),
            (["2027-01-04,", "2027-01-11,"], "weeks ..2027-12-31"),
            (["2027-01-01,", "2028-01-01,"], "add ORIGIN END"),
            (["2027-01-01,2027-01-20"], "add ORIGIN END"),
            (["2027-01-02,", "2027-02-02,"], "add ORIGIN END"),
            (["2027-01-01,"], "add ORIGIN END"),
        ):
            self.assertEqual(self.way(*records), f"{edit} {wanted}", records)


class ByThePlainPlanner(unittest.TestCase):
    """Over definitions at random: an application is told exactly where nothing of it is named after the day."""

    def test_a_run_cycle_that_excludes_no_day_any_more(self):
        """Where the next interval would have begun in the plan; not a month of a year, nor one that is meant to end."""
        text = """define periods --job 1
DAY,A,2027-01-01,1
MONTH,N,2027-01-01,2027-01-31
MONTH,N,2027-02-01,2027-02-28
AUGUST,N,2027-08-01,2027-08-31
/*
define applications --job 2
LEDGER,A,
SALES,A,
WAGES,A,
/*
define run-cycles --job 3
LEDGER,DAILY,N,DAY,3,1,2027-01-01,,18.00,0,20.00
LEDGER,NOTLAST,X,MONTH,3,-1,2027-01-01,,18.00,,
SALES,DAILY,N,DAY,3,1,2027-01-01,,18.00,0,20.00
SALES,HOLIDAYS,X,AUGUST,3,1,2027-01-01,,18.00,,
SALES,OLD,X,MONTH,3,1,2027-01-01,2027-03-01,18.00,,
WAGES,MONTHLY,N,MONTH,3,2,2027-01-01,,18.00,0,20.00
WAGES,NOTFIRST,X,MONTH,3,1,2027-01-01,,18.00,,
/*
"""
        now = stream_state.Known()
        for item in plans.items_of(text):
            now.take(item)
        first, last = moments.day_of("2027-01-01"), moments.day_of("2027-12-31")
        self.assertEqual([one.text for one in horizons.shortfalls(now.defined, first, last)], [
            "MONTH ends 2027-02-28, but the plan goes to 2027-12-31: WAGES has no occurrence after it, and NOTLAST of "
            "LEDGER excludes no day after it. `./plan edit PLAN.db period MONTH months ..2027-12` adds the rest."])
        days = defined_by(text.encode()).named("LEDGER", first, last)
        gone = {day for day in range(first, last + 1)} - {day for day, _ in days}
        self.assertEqual(sorted(map(moments.day_text, gone)), ["2027-01-31", "2027-02-28"])
        (august,) = [one for one in horizons.shortfalls(now.defined, first, moments.day_of("2028-12-31"))
                     if one.text.startswith("AUGUST")]
        self.assertIn(", but the plan goes to 2028-12-31: HOLIDAYS of SALES excludes no day after it. ", august.text)

    def test_at_random(self):
        first, last, seen = moments.day_of("2027-01-01"), moments.day_of("2027-06-30"), 0
        for seed in range(60):
            text = self.text(random.Random(seed))
            now = stream_state.Known()
            for item in plans.items_of(text):
                now.take(item)
            planner = defined_by(text.encode())
            found = horizons.shortfalls(now.defined, first, last)
            said = {}
            for one in found:
                for apps, end in re.findall(r"(?:: | and )([A-C, ]+) ha(?:s|ve) no occurrence after (\S+?)[.,]? ",
                                            one.text + " "):
                    ended = re.search(r" ends (\S+),", one.text)
                    day = moments.day_of(ended[1] if end == "it" else end)
                    said |= {app: day for app in apps.split(", ")}
            for app in "ABC":
                days = sorted({day for day, _ in planner.named(app, first, last)})
                with self.subTest(seed=seed, app=app):
                    if app in said:
                        seen += 1
                        self.assertEqual([day for day in days if day > said[app]], [], text)
                    else:
                        self.assertTrue(days and days[-1] > last - 31, text)
        self.assertGreater(seen, 30)

    def text(self, any_of):
        """Three applications over a listed period and another, some with validities that end."""
        months = any_of.randint(2, 6)
        period = "".join(f"M,N,2027-0{month}-01,{'' if month < months or any_of.random() < 0.3 else self.end(month)}\n"
                         for month in range(1, months + 1))
        cycles = []
        for app in "ABC":
            for name in ("R", "S")[:any_of.randint(1, 2)]:
                kind, rule = any_of.choice(["M", "M", "DAY"]), any_of.choice("1234E")
                offset = 1 if kind == "DAY" else any_of.choice([1, 2, 10])
                until = any_of.choice(["", "", "2027-04-01"])
                cycles.append(f"{app},{name},N,{kind},{rule},{offset},2027-01-01,{until},18.00,5,20.00\n")
        return ("define calendars --job 1\nDEFAULT,SAT,FREE\nDEFAULT,SUN,FREE\n/*\n"
                f"define periods --job 2\nDAY,A,2027-01-01,1\n{period}/*\n"
                "define applications --job 3\nA,A,\nB,A,\nC,A,\n/*\n"
                f"define run-cycles --job 4\n{''.join(cycles)}/*\n")

    @staticmethod
    def end(month):
        return moments.day_text(horizons.months_after(moments.day_of(f"2027-0{month}-01"), 1) - 1)


if __name__ == "__main__":
    unittest.main()
