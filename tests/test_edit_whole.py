"""./plan edit: whole definitions removed, renamed and copied, by the plain planner; and periods of weekdays of a month,
by dateutil."""

import datetime
import tempfile
import unittest
from collections import Counter
from pathlib import Path

from support import plans

from opcplan.rules import nth_weekday
from opcplan.rules.nth_weekday import Month, Nth

from test_edit import BASE, edited, records

try:
    from dateutil import rrule
except ImportError:
    rrule = None

plain, plan_rows = plans.plain, plans.plan_rows
WEEKDAYS = "MON TUE WED THU FRI SAT SUN".split()
MORE = b"""ltp-add --app BACKUP --ia 2027-02-02/09.00 --job 9
ltp-delete --app BACKUP --ia 2027-02-04/22.00 --job 10
"""
DAILY = "DAILY,N,DAY,E,1,2027-01-01,,18.00,0,20.00"
NOT = "NOT,X,MONTH,3,1 15,2027-01-01,2027-03-01,18.00,,"
FIFTH = "FIFTH,N,WORK5,1,-1,2027-01-01,,22.00,1,05.00"
MONTHLY = "MONTHLY,N,{},2,-1 1,2027-01-01,,12.00,0,13.00"
MONTHS = ["2027-01-01,", "2027-02-01,2027-02-20", "2027-03-01,2027-03-31"]
# one after the other over one plan: words, how many statements, the records that go, those that come, what is told
EDITS = [
    ("application SALES rename SHIP", 5,
     ["SALES,A,", f"SALES,{DAILY}", f"SALES,{NOT}", "LEDGER,SALES,"],
     ["SHIP,A,", f"SHIP,{DAILY}", f"SHIP,{NOT}", "LEDGER,SHIP,"], "LEDGER waits for SHIP then"),
    ("application BACKUP rename SAFE", 6,
     ["BACKUP,A,", f"BACKUP,{FIFTH}", "BACKUP,LEDGER,12", "BACKUP,BACKUP,"],
     ["SAFE,A,", f"SAFE,{FIFTH}", "SAFE,LEDGER,12", "SAFE,SAFE,"], "No other application waits for it"),
    ("application COPY like SAFE", 3, [], ["COPY,A,", f"COPY,{FIFTH}", "COPY,LEDGER,12", "COPY,COPY,"],
     "waits for COPY, LEDGER"),
    ("application HARBOUR like SHIP", 2, [], ["HARBOUR,A,", f"HARBOUR,{DAILY}", f"HARBOUR,{NOT}"],
     "LEDGER waits for SHIP, and not for HARBOUR; `./plan edit PLAN.db predecessor LEDGER add HARBOUR`"),
    ("application LEDGER remove", 4,
     ["LEDGER,A,BANK", "LEDGER,DAILY,N,DAY,E,1,2027-01-01,,20.00,0,23.00", "LEDGER,SHIP,", "SAFE,LEDGER,12",
      "COPY,LEDGER,12"], [], "COPY, SAFE no longer wait for it"),
    ("application HARBOUR remove", 2, ["HARBOUR,A,", f"HARBOUR,{DAILY}", f"HARBOUR,{NOT}"], [],
     "No other application waits for it"),
    ("application TRIAL remove", 2, ["TRIAL,P,", "TRIAL,DAILY,N,NOPERIOD,3,1,2027-01-01,,10.00,0,11.00"], [], "goes"),
    ("run-cycle SHIP DAILY rename NIGHT", 1, [f"SHIP,{DAILY}"], [f"SHIP,{DAILY.replace('DAILY', 'NIGHT')}"],
     "is called NIGHT then"),
    ("run-cycle ship late like night ia=19.00 deadline=1/02.00", 1, [],
     ["SHIP,LATE,N,DAY,E,1,2027-01-01,,19.00,1,02.00"], "like NIGHT, but for input arrival 19.00"),
    ("run-cycle SHIP MONTHLY like SHOP/MONTHLY", 1, [], [f"SHIP,{MONTHLY.format('MONTH')}"], "like MONTHLY of SHOP"),
    ("run-cycle SHIP NOT remove", 1, [f"SHIP,{NOT}"], [], "Its other run cycles stay: LATE, MONTHLY, NIGHT"),
    ("run-cycle SHOP MONTHLY remove", 1, [f"SHOP,{MONTHLY.format('MONTH')}"], [], "SHOP has no run cycle then"),
    ("calendar BANK like DEFAULT", None, None, None, "there is a calendar BANK already"),
    ("calendar COPY like DEFAULT", 1, [],
     ["COPY,SAT,FREE", "COPY,SUN,FREE", "COPY,2027-01-01,FREE", "COPY,2027-01-09,WORK"], "2 weekdays and 2 days"),
    ("calendar BANK rename USB", 2, ["BANK,SUN,FREE"], ["USB,SUN,FREE"], "No application names it"),
    ("calendar ONE rename UNO", 3, ["ONE,2027-03-01,FREE", "SHOP,A,ONE"], ["UNO,2027-03-01,FREE", "SHOP,A,UNO"],
     "SHOP names it so then"),
    ("calendar DEFAULT rename USUAL", 3,
     ["DEFAULT,SAT,FREE", "DEFAULT,SUN,FREE", "DEFAULT,2027-01-01,FREE", "DEFAULT,2027-01-09,WORK",
      'default_calendar = "DEFAULT"'],
     ["USUAL,SAT,FREE", "USUAL,SUN,FREE", "USUAL,2027-01-01,FREE", "USUAL,2027-01-09,WORK",
      'default_calendar = "USUAL"'], "as USUAL then"),
    ("calendar SPARE remove", 1, ["SPARE,MON,FREE"], [], "No application uses it"),
    ("period MONTH rename CIVIL", 3, [*(f"MONTH,N,{one}" for one in MONTHS), f"SHIP,{MONTHLY.format('MONTH')}"],
     [*(f"CIVIL,N,{one}" for one in MONTHS), f"SHIP,{MONTHLY.format('CIVIL')}"], "so then: MONTHLY of SHIP"),
    ("period SAME like CIVIL", 1, [], [f"SAME,N,{one}" for one in MONTHS], "type N, 3 intervals from 2027-01-01 on"),
    ("period SAME remove", 1, [f"SAME,N,{one}" for one in MONTHS], [], "No run cycle counts in it"),
    ("period LONE remove", 1, ["LONE,N,2027-05-01,"], [], "No run cycle counts in it"),
    # the 15th of January, the 19th of February and of March are Fridays, and so is the 16th of April
    ("period THIRD weekday 3FRI 2027-01..2027-03", 1, [],
     ["THIRD,N,2027-01-15,2027-02-18", "THIRD,N,2027-02-19,2027-03-18", "THIRD,N,2027-03-19,2027-04-15"],
     "THIRD is new: type N, 3 intervals from 2027-01-15 on"),
    ("period THIRD weekday 3fri ..2027-04", 1, [], ["THIRD,N,2027-04-16,2027-05-20"], "+ 2027-04-16 to 2027-05-20"),
    # the last Sundays of February and of March, and that of April
    ("period LAST new weekday -1SUN 2027-02..2027-03", 1, [],
     ["LAST,N,2027-02-28,2027-03-27", "LAST,N,2027-03-28,2027-04-24"], "2 intervals"),
    # January has the only fifth Sunday of the first four months of 2027; the next one is the 30th of May
    ("period FIVE weekday 5SUN 2027-01..2027-04", 1, [], ["FIVE,N,2027-01-31,2027-05-29"], "1 interval"),
]
REFUSED = [
    ("application NOBODY remove", 1, "no application NOBODY"),
    ("application SALES remove now", 2, "takes no further word"),
    ("application SALES rename", 2, "needs one name"),
    ("application SALES rename LEDGER", 1, "there is an application LEDGER already"),
    ("application SALES rename 1A", 2, "name"),
    ("application LEDGER like SALES", 1, "there is an application LEDGER already"),
    ("application NEW like NOBODY", 1, "no application NOBODY"),
    ("run-cycle SALES WEEKLY remove", 1, "no run cycle WEEKLY of SALES"),
    ("run-cycle NOBODY DAILY remove", 1, "no application NOBODY"),
    ("run-cycle SALES DAILY rename NOT", 1, "a run cycle of SALES NOT already"),
    ("run-cycle SALES NEW like LEDGER/NOT", 1, "no run cycle NOT of LEDGER"),
    ("run-cycle SALES NEW like A/B/C", 2, "APP/OTHER"),
    ("run-cycle SALES NEW like DAILY ia=25.00", 2, "there is no 25.00"),
    ("run-cycle SALES NEW like DAILY period=YEAR", 1, "no period YEAR"),
    ("calendar DEFAULT remove", 1, "DEFAULT is the default calendar"),
    ("calendar BANK remove", 1, "LEDGER uses BANK; `./plan edit PLAN.db application LEDGER calendar=OTHER`"),
    ("calendar BNAK remove", 1, "did you mean BANK?"),
    ("calendar BANK rename NOWHERE", 1, "TAXES names NOWHERE already"),
    ("period DAY remove", 1, "DAILY of LEDGER, DAILY of SALES count in DAY"),
    ("period DAY rename NOPERIOD", 1, "DAILY of TRIAL names NOPERIOD already"),
    ("period DAY like MONTH", 1, "there is a period DAY already"),
    ("period NEW like YEAR", 1, "no period YEAR"),
    ("period THIRD weekday 6FRI 2027..2030", 2, "3FRI 2027..2030"),
    ("period THIRD weekday 0FRI 2027..2030", 2, "3FRI 2027..2030"),
    ("period THIRD weekday 3FRIDAY 2027..2030", 2, "3FRI 2027..2030"),
    ("period THIRD weekday 3FRI", 2, "FIRST..LAST"),
    ("period THIRD weekday 3FRI ..2030", 2, "no last interval"),
    ("period THIRD weekday 3FRI 2027..2026", 2, "lists nothing"),
    ("period THIRD weekday 3FRI 2027..2027-13", 2, "'2027-13'"),
    ("period DAY weekday 3FRI 2027..2028", 1, "type A"),
]


class Whole(unittest.TestCase):
    def setUp(self):
        room = tempfile.TemporaryDirectory(prefix="edit-whole-")
        self.addCleanup(room.cleanup)
        self.room = Path(room.name)

    def written(self, planner):
        """The file of what a plain planner knows."""
        file = self.room / "written.db"
        for tail in ("", "-wal", "-shm"):
            Path(f"{file}{tail}").unlink(missing_ok=True)
        plans.write(planner, file)
        return file

    def test_each_change_is_the_wanted_one_alone(self):
        planner = plain.Planner()
        plain.run(BASE, planner)
        file = self.written(planner)
        for given, count, gone, come, says in EDITS:
            with self.subTest(given):
                status, text, message = edited(file, given)
                self.assertIn(says, message)
                self.assertEqual((status, text == ""), (0, False) if count else (1, True), message)
                if not count:
                    continue
                before = records(file)
                replies = plain.run(text.encode(), planner)
                self.assertEqual(len(replies), count, text)
                self.assertTrue(all(reply.startswith("ok ") for reply in replies), replies)
                file = self.written(planner)
                after = records(file)
                self.assertEqual((before - after, after - before), (Counter(gone), Counter(come)), given)

    def test_what_is_refused_prints_nothing_and_says_by_whom(self):
        file = self.written(plans.planner_of(BASE))
        before = plans.prints(file)
        for given, wanted, says in REFUSED:
            with self.subTest(given):
                status, text, message = edited(file, given)
                self.assertEqual((status, text), (wanted, ""), message)
                self.assertRegex(message, r"\Aplan: [^\n]+\n\Z")
                self.assertIn(says, message)
        self.assertEqual(plans.prints(file), before)

    def test_a_renamed_application_has_the_occurrences_of_the_old_one(self):
        """After `ltp-modify-all` the plan has them under the new name, each with its deadline and its run cycle, and
        nothing else differs; what somebody added stays, and what an operator deleted comes again. It is told."""
        planner = plain.Planner()
        plain.run(BASE + MORE, planner)
        file = self.written(planner)
        status, text, message = edited(file, "application BACKUP rename SAFE")
        self.assertEqual(status, 0)
        rows = [row[1:] for row in planner.planned.values()]
        named = [row for row in rows if row[0] == "BACKUP" and row[3]]
        self.assertIn(f"{len(named)} occurrences of its run cycles in the long-term plan come again as SAFE.", message)
        self.assertIn("1 occurrence that somebody added to the long-term plan stays as BACKUP;", message)
        self.assertIn("1 occurrence of BACKUP that an operator deleted comes again as SAFE.", message)
        plain.run(text.encode() + b"ltp-modify-all --job 999\n", planner)
        after = [row[1:] for row in planner.planned.values()]
        moved = [("SAFE", *row[1:]) for row in named]
        deleted = plain.read_day("2027-02-04") * 1440 + 22 * 60
        again = [row for row in after if row[0] == "SAFE" and row[1] == deleted]
        self.assertEqual(len(again), 1)
        self.assertEqual(sorted(after, key=repr),
                         sorted([row for row in rows if row not in named] + moved + again, key=repr))

    def test_a_stop_in_the_midst_and_the_same_stream_again(self):
        """Each statement before a stop is kept, no planning statement would be refused then, and the whole stream, run
        again, ends as one run does."""
        whole = plain.Planner()
        plain.run(BASE, whole)
        file = self.written(whole)
        for given in ("application BACKUP rename SAFE", "application LEDGER remove", "calendar DEFAULT rename USUAL",
                      "period MONTH rename CIVIL"):
            _, text, _ = edited(file, given)
            items = plan_rows.items_of(text.encode())
            ends = []
            for count in range(len(items) + 1):
                planner = plain.Planner()
                plain.run(BASE, planner)
                plain.run(b"".join(items[:count]), planner)
                tried = planner.copy()
                self.assertRegex(plain.run(b"ltp-modify-all --job 999\n", tried)[-1], "^ok made")
                plain.run(text.encode(), planner)
                ends.append((planner.defined, planner.options, planner.jobs))
            self.assertEqual(ends, ends[:1] * len(ends), given)

    @unittest.skipUnless(plans.PROGRAM.exists(), "opcplan is not built")
    def test_the_program_takes_them(self):
        planner = plain.Planner()
        plain.run(BASE, planner)
        file = plans.copy_of(plans.of_stream(BASE), self.room)
        for given, count, *_ in EDITS:
            _, text, _ = edited(file, given)
            wanted = plain.run(text.encode(), planner)
            answers, status = plan_rows.run(text.encode(), file)
            self.assertEqual((answers.decode().splitlines(), status), (wanted, 0), given)
        modify = b"ltp-modify-all --job 999\n"
        self.assertEqual(plan_rows.run(modify, file)[0].decode().splitlines(), plain.run(modify, planner))
        found = {table: sorted(rows, key=repr) for table, rows in plan_rows.table_rows(planner).items()}
        self.assertEqual(plan_rows.rows_of(file), found)

    def test_another_name_that_changes_which_run_cycle_counts_is_told(self):
        text = BASE + b"""define run-cycles --job 20
SALES,DAILY,N,DAY,E,1,2027-01-01,,18.00,0,20.00
SALES,MONTHLY,N,MONTH,1,1,2027-01-01,,18.00,0,22.00
/*
"""
        file = self.written(plans.planner_of(text))
        for new, is_told in (("ANY", False), ("EVERY", False), ("NIGHT", True)):
            _, stream, message = edited(file, f"run-cycle SALES DAILY rename {new}")
            self.assertEqual(f"{new} is after MONTHLY, and DAILY wasn't" in message, is_told, message)
            planner = plans.planner_of(text).copy()
            plain.run(stream.encode() + b"ltp-modify-all --job 999\n", planner)
            after = {row[1:] for row in planner.planned.values() if row[1] == "SALES"}
            plain.run(b"ltp-modify-all --job 998\n", usual := plans.planner_of(text).copy())
            before = {row[1:] for row in usual.planned.values() if row[1] == "SALES"}
            self.assertEqual({row[:3] for row in before} != {row[:3] for row in after}, is_told)


@unittest.skipUnless(rrule, "there is no python3-dateutil")
class Weekdays(unittest.TestCase):
    def test_days_are_those_of_dateutil(self):
        first, last = datetime.datetime(2023, 1, 1), datetime.datetime(2030, 12, 31)
        months = [Month(year, month) for year in range(2023, 2031) for month in range(1, 13)]
        for weekday in range(7):
            for number in (1, 2, 3, 4, 5, -1, -2, -3, -4, -5):
                nth = Nth(number, weekday)
                rule = rrule.rrule(rrule.MONTHLY, dtstart=first, until=last, byweekday=rrule.weekday(weekday, number))
                wanted = [(day.date() - datetime.date(1970, 1, 1)).days for day in rule]
                self.assertEqual([day for month in months if (day := nth.day_in(month)) is not None], wanted, nth.text)
                self.assertEqual([nth.after(day) for day in wanted[:-1]], wanted[1:])
                found = nth_weekday.entries(nth, months[0], months[-1])
                self.assertEqual([entry.origin for entry in found], wanted)
                self.assertEqual([entry.end + 1 for entry in found[:-1]], wanted[1:])
                self.assertEqual(nth_weekday.of_text(nth.text), nth)
                # of those that agree for the days the first is named: 12 Mondays may be the second and the last but two
                again = nth_weekday.of_origins(wanted)
                self.assertEqual([again.day_in(nth_weekday.month_of(day)) for day in wanted], wanted)

    def test_days_that_are_no_such_weekdays(self):
        self.assertIsNone(nth_weekday.of_origins([20000]))
        self.assertIsNone(nth_weekday.of_origins([20000, 20001]))
        self.assertIsNone(nth_weekday.of_origins([20000, 20007]))
        for text in ("FRI", "6FRI", "-6FRI", "3FR", "3", "", "+3FRI", "33FRI"):
            self.assertIsNone(nth_weekday.of_text(text), text)

    def test_the_last_days_of_all_have_an_interval(self):
        for weekday in WEEKDAYS:
            nth = nth_weekday.of_text(f"-1{weekday}")
            (entry,) = nth_weekday.entries(nth, Month(2071, 12), Month(2071, 12))
            self.assertEqual(entry.end, plain.read_day("2071-12-31"))


if __name__ == "__main__":
    unittest.main()
