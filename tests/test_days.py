"""./plan days, cal and the table of ready: the days of the definitions, by the plain planner and dateutil."""

import calendar
import datetime
import os
import re
import unittest

from support import data_centre, plans
from support.plans import plain

from opcplan.rules import moments

FIRST, LAST = "2026-11-19", "2027-01-15"
BASE = """define calendars --job 1
DEFAULT,SAT,FREE
DEFAULT,SUN,FREE
DEFAULT,2027-01-06,FREE
BUSY,SUN,WORK
/*
define periods --job 2
MONTH,N,2027-01-01,
MONTH,N,2027-02-01,2027-02-20
TEN,A,2027-01-03,10
WORK,W,2027-01-04,5
/*
"""


def named_by_planner(planner, first, last):
    """The lines of `days` of each active application, with its name before them."""
    found = []
    for app in planner.active():
        lines = plain.run(f"days --app {app} --from {first} --to {last}\n".encode(), planner.copy())[:-1]
        found += [(line[:16], app, line) for line in lines]
    return [f"{app:16} {line}" for _, app, line in sorted(found)]


class Days(unittest.TestCase):
    def asked(self, *words):
        return plans.plan_in_here("days", *words)

    def test_days_of_all_and_of_one_are_those_of_the_plain_planner(self):
        path, planner = plans.of_stream(data_centre.whole()), plans.planner_of(data_centre.whole())
        wanted = named_by_planner(planner, FIRST, LAST)
        ran = self.asked(path, "--from", FIRST, "--to", LAST)
        self.assertEqual((ran.returncode, ran.stdout.splitlines()), (0, wanted))
        one = planner.active()[3]
        self.assertEqual(self.asked(path, one, "--from", FIRST, "--to", LAST).stdout.splitlines(),
                         [line for line in wanted if line.split()[0] == one])

    def test_a_run_cycle_that_is_tried_names_the_days_that_it_would_name(self):
        path = plans.of_stream(BASE)
        for fields in ("period=MONTH rule=1 offsets=25", "period=MONTH rule=2 offsets=6,-1", "period=MONTH",
                       "period=MONTH rule=3 offsets=2,3", "period=TEN rule=4 offsets=1,5", "period=WORK offsets=2,-1",
                       "period=TEN rule=2 offsets=7 calendar=BUSY", "period=MONTH offsets=3 in-effect=2027-02-01"):
            with self.subTest(fields):
                given = dict(one.split("=") for one in fields.split())
                record = ",".join(["A", "RC", "N", given["period"], given.get("rule", "E"),
                                   given.get("offsets", "1").replace(",", " "), given.get("in-effect", "1972-01-01"),
                                   "", "00.00", "0", "23.59"])
                text = f"{BASE}define applications --job 3\nA,A,{given.get('calendar', '')}\n/*\n" \
                    f"define run-cycles --job 4\n{record}\n/*\n"
                lines = named_by_planner(plans.planner_of(text), "2027-01-01", "2027-03-31")
                wanted = [line.split()[1] for line in lines]
                ran = self.asked(path, "--from", "2027-01-01", "--to", "2027-03-31", "--try", *fields.split())
                self.assertEqual([re.search("[0-9-]{10}", line)[0] for line in ran.stdout.splitlines()], wanted)
                for line in ran.stdout.splitlines():
                    day = datetime.date.fromisoformat(re.search("[0-9-]{10}", line)[0])
                    self.assertTrue(line.startswith(calendar.day_name[day.weekday()]), line)

    def test_what_names_nothing_or_is_wrong_is_reported(self):
        path = plans.of_stream(BASE)
        for words, status in ((["NOBODY"], 1), (["--try", "rule=1"], 2), (["--try", "period=MONHT"], 1),
                              (["--try", "period=MONTH", "offsets=0"], 2),
                              (["--from", "2027-02-01", "--to", "2027-01-01"], 2),
                              (["--from", "2027-02-01", "--to", "2037-01-01"], 2),
                              (["--try", "period=MONTH", "calendar=USA"], 1)):
            ran = self.asked(path, *words)
            self.assertEqual((ran.returncode, ran.stdout, ran.stderr.count("\n")), (status, "", 1), (words, ran.stderr))
        ran = self.asked(path, "--from", "2027-02-01", "--to", "2027-02-28")
        self.assertEqual((ran.returncode, ran.stdout), (1, "No day is named from 2027-02-01 to 2027-02-28.\n"))


class Cal(unittest.TestCase):
    def marks(self, *words):
        """What is behind each day of a year, by day."""
        ran = plans.plan_in_here("cal", plans.of_stream(BASE), *words)
        self.assertEqual((ran.returncode, ran.stderr), (0, ""))
        year, found = int(words[1]), {}
        lines = ran.stdout.splitlines()[2:]
        for block in range(4):
            rows = lines[block * 9 : block * 9 + 8]
            for column in range(3):
                month, text = block * 3 + column + 1, [row[column * 24 : column * 24 + 21].ljust(21) for row in rows]
                self.assertEqual(text[0].strip(), calendar.month_name[month])
                weeks = calendar.Calendar().monthdayscalendar(year, month)
                for week, row in zip(weeks, text[2:]):
                    for place, day in enumerate(week):
                        cell = row[place * 3 : place * 3 + 3]
                        self.assertEqual(cell[:2].strip(), f"{day or ''}")
                        if day:
                            found[datetime.date(year, month, day)] = cell[2]
        return found

    def test_free_days_have_a_star(self):
        for year in (2027, 2028, 1972, 2071):
            for day, mark in self.marks("DEFAULT", str(year)).items():
                free = day.weekday() > 4 or day.isoformat() == "2027-01-06"
                self.assertEqual(mark, "*" if free else " ", day)

    def test_intervals_begin_and_end(self):
        month = self.marks("MONTH", "2027")
        wanted = {datetime.date(2027, 1, 1): "(", datetime.date(2027, 1, 31): ")", datetime.date(2027, 2, 1): "(",
                  datetime.date(2027, 2, 20): ")"}
        for day, mark in month.items():
            inside = day < datetime.date(2027, 2, 21)
            self.assertEqual(mark, wanted.get(day, " " if inside else "-"), day)
        begin = datetime.date(2027, 1, 3)
        for day, mark in self.marks("TEN", "2027").items():
            place = (day - begin).days
            self.assertEqual(mark, "-" if place < 0 else {0: "(", 9: ")"}.get(place % 10, " "), day)
        count = 0
        for day, mark in self.marks("WORK", "2027").items():
            is_work = day >= datetime.date(2027, 1, 4) and day.weekday() < 5 and day != datetime.date(2027, 1, 6)
            self.assertEqual(mark, "(" if is_work and count % 5 == 0 else " ", day)
            count += is_work

    def test_what_is_not_there(self):
        ran = plans.plan_in_here("cal", plans.of_stream(BASE), "MONHT")
        self.assertEqual((ran.returncode, ran.stdout), (1, ""))
        self.assertIn("no calendar and no period MONHT (did you mean MONTH?)", ran.stderr)
        self.assertEqual(plans.plan_in_here("cal", plans.of_stream(BASE), "MONTH", "27").returncode, 2)


class Table(unittest.TestCase):
    def test_ready_for_people_has_the_rows_of_the_lines(self):
        path = plans.of_stream(data_centre.whole())
        lines = plans.plan_in_here("ready", path, "--now", data_centre.NOW, "--lines").stdout.splitlines()
        table = plans.plan_in_here("ready", path, "--now", data_centre.NOW, "--table").stdout.splitlines()
        self.assertEqual(len(table), len(lines) + 1)
        rows = {row[0]: row for row, _ in plans.planner_of(data_centre.whole()).current.values()}
        now = moments.moment_of(data_centre.NOW)
        for line, shown in zip(lines, table[1:]):
            app, ia, serial = line.split()
            row = rows[int(serial)]
            self.assertEqual(shown.split()[:3], [app, *ia.split("/")])
            self.assertIn(f"  {moments.moment_text(row[3])}  ", shown)
            self.assertEqual("late by" in shown, row[3] < now)
            self.assertTrue(shown.endswith(f"  {serial}"))

    def test_a_terminal_gets_the_table(self):
        ours, theirs = os.openpty()
        path = plans.of_worked("monday")
        ran = plans.subprocess.run([plans.TOP / "plan", "ready", path, "--now", "2024-01-02/12.00", "--color", "never"],
                                   stdout=theirs, stderr=plans.subprocess.PIPE, check=False)
        os.close(theirs)
        shown = os.read(ours, 100_000).decode()
        os.close(ours)
        self.assertEqual(ran.returncode, 0)
        self.assertTrue(shown.startswith("application  arrives"), shown)


if __name__ == "__main__":
    unittest.main()
