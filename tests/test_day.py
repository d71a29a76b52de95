"""./plan day: the runs of each day by the plain planner, their reasons, and what is unusual of a day."""

import itertools
import re
import unittest

from support import plans
from support.plans import plain

from opcplan.commands import day as command
from opcplan.plans import plan_definitions, plan_file
from opcplan.rules import moments, usual_days

STREAMS = "week-of-daily-plans carried-over-five-days statuses-carried added-before-between-and-after".split()
LINE = re.compile(r"  (\d\d\.\d\d)  (\S+) +(\S.*?)  +due (\S+ \S+)  (.*?) +serial (\d+)")
PLACES = {"W": {"ready", "blocked", "its time is to come"}, "S": {"started"}, "E": {"in error"}, "C": {"complete"},
          "D": {"deleted by an operator"}, "L": {"planned"}, "H": {"complete"}, "O": {"deleted by an operator"},
          "P": {"deleted by an operator"}}
# 2024-01-01 is a Monday, and New Year's Day is free; the 25th of each month goes to the work day before, the 10th of
# February is a Saturday; X excludes the 17th, a Wednesday
WEEKS = b"""define calendars --job 1
DEFAULT,SAT,FREE
DEFAULT,SUN,FREE
DEFAULT,2024-01-01,FREE
DEFAULT,2024-01-22,FREE
/*
define periods --job 2
DAY,A,2023-01-01,1
MONTH,N,2024-01-01,2024-01-31
MONTH,N,2024-02-01,2024-02-29
/*
define applications --job 3
SALES,A,
LEDGER,A,
NIGHT,A,
WAGES,A,
/*
define run-cycles --job 4
SALES,DAILY,N,DAY,E,1,2023-01-01,,18.00,0,20.00
SALES,NOT,X,MONTH,3,17,2023-01-01,,18.00,,
LEDGER,DAILY,N,DAY,E,1,2023-01-01,,20.00,0,23.00
NIGHT,ALL,N,DAY,3,1,2023-01-01,,22.00,1,05.00
WAGES,TENTH,N,MONTH,1,10,2023-01-01,,08.00,0,16.00
/*
ltp-create --from 2024-01-01 --to 2024-02-29 --job 5
ltp-delete --app NIGHT --ia 2024-01-10/22.00 --job 6
ltp-add --app LEDGER --ia 2024-01-13/09.00 --job 7
dp-extend --to 2024-01-04/06.00 --job 8
cp-start --app SALES --ia 2024-01-02/18.00 --job 9
cp-fail --app SALES --ia 2024-01-02/18.00 --job 10
cp-delete --app NIGHT --ia 2024-01-02/22.00 --job 11
"""


def places_of(planner):
    """All rows of a plain planner by serial, each with its place; those that were withdrawn aside."""
    found = {serial: (row, "L") for serial, row in planner.planned.items()}
    found |= planner.current | {serial: (row, "H") for serial, row in planner.history.items()}
    return found | {serial: one for serial, one in planner.deleted.items() if one[1] != "W"}


def runs_of(planner):
    """The runs of each day by a plain planner: by day a set of minutes and applications."""
    found = {}
    for _, app, ia, *_ in planner.live():
        found.setdefault(ia // 1440, set()).add((ia % 1440, app))
    return found


def asked(file, text, now="2024-01-03/12.00"):
    ran = plans.plan_in_here("day", file, text, "--now", now)
    assert not ran.stderr, ran.stderr
    return ran.returncode, ran.stdout.splitlines()


class Day(unittest.TestCase):
    maxDiff = None

    def test_rows_of_each_day_are_the_planners(self):
        seen = set()
        for text in [WEEKS, *map(plans.stream, STREAMS)]:
            planner = plans.planner_of(text)
            rows = places_of(planner)
            with plan_file.opened(plans.of_stream(text)) as plan:
                defined = plan_definitions.of_plan(plan)
                days = range(planner.bounds[0] - 1, planner.bounds[1] + 2)
                for day, now in itertools.product(days, (planner.bounds[2], planner.bounds[2] - 1440)):
                    found = command.of_plan(plan, defined, day, now)
                    seen |= self.check_rows(planner, rows, day, command.run_lines(defined, found)[1:])
                    self.check_carried(planner, day, found, now)
                    self.assertEqual(found.runs, runs_of(planner).get(day, set()))
        self.assertLessEqual({"added by hand", "ready", "blocked", "planned", "complete", "in error", "started",
                              "deleted by an operator", "its time is to come", "moved"}, seen)

    def check_rows(self, planner, rows, day, lines):
        wanted = {serial: one for serial, one in rows.items() if one[0][2] // 1440 == day}
        self.assertEqual([tuple(line.split()[:2]) for line in lines],
                         sorted((plain.minute_text(row[2] % 1440), row[1]) for row, _ in wanted.values()))
        seen = set()
        for line in lines:
            time, app, state, due, reason, serial = LINE.fullmatch(line).groups()
            (_, name, ia, deadline, cycle), place = wanted.pop(int(serial))
            self.assertEqual((time, app, due), (plain.minute_text(ia % 1440), name, plain.moment_text(deadline)))
            self.assertIn(state, PLACES[place])
            seen.add(state)
            if cycle is None:
                self.assertEqual(reason, "added by hand")
                seen.add(reason)
                continue
            self.assertTrue(reason.startswith(f"by {cycle}, "), reason)
            defined = planner.defined["run-cycles"].get(app, {}).get(cycle)
            if said := re.fullmatch(r"by \S+, rule (\S), offset (\S+?)(, moved from \S+ \S+)?", reason):
                self.assertEqual(said[1], defined["rule"])
                self.assertIn(int(said[2]), defined["offsets"])
                seen |= {"moved"} if said[3] else set()
        self.assertEqual(wanted, {})
        return seen

    def check_carried(self, planner, day, found, now):
        carried = sorted(serial for serial, (row, status) in planner.current.items()
                         if status in "WSE" and row[2] < day * 1440 <= now)
        self.assertEqual(sorted(row.serial for row in found.carried), carried)

    def test_what_is_unusual_of_each_day_is_what_its_runs_say(self):
        """More than half of the other days of the weekday, of at most four before and four after, within the plan."""
        planner = plans.planner_of(WEEKS)
        runs, (first, last, _) = runs_of(planner), planner.bounds
        lacks, has = set(), set()
        for day in range(first, last + 1):
            others = [other for other in range(day - 28, day + 29, 7) if other != day and first <= other <= last]
            near = [runs.get(other, set()) for other in others]
            usual = {run for found in near for run in found if 2 * sum(run in one for one in near) > len(near)}
            own = runs.get(day, set())
            _, lines = asked(plans.of_stream(WEEKS), plain.day_text(day))
            told = {}
            for line in lines[next(at for at, line in enumerate(lines) if "Beside" in line or "beside" in line):]:
                if line.startswith("It "):
                    which = told.setdefault(line.split()[1], [])
                elif line.startswith("  "):
                    time, app = line.split()[:2]
                    which.append((int(time[:2]) * 60 + int(time[3:]), app))
            self.assertEqual(set(told.get("lacks", [])), usual - own)
            self.assertEqual(set(told.get("has", [])), own - usual)
            lacks |= usual - own
            has |= own - usual
        self.assertEqual(({app for _, app in lacks}, {app for _, app in has}), ({"SALES", "LEDGER", "NIGHT"},
                                                                                {"WAGES", "LEDGER"}))

    def test_reasons(self):
        """Worked out by hand from the definitions."""
        file = plans.of_stream(WEEKS)
        free = "the day is free (DEFAULT lists 2024-01-22 as free)"
        for text, wanted in (
            ("2024-01-17", ["Wednesday 2024-01-17, a work day by DEFAULT: 2 runs.",
                            "It lacks what a usual Wednesday has: excluded by NOT of SALES", "  18.00  SALES"]),
            ("2024-01-10", ["It lacks what a usual Wednesday has: deleted by an operator", "  22.00  NIGHT"]),
            ("2024-01-22", ["Monday 2024-01-22, a free day by DEFAULT: 1 run.",
                            f"It lacks what a usual Monday has: {free}", "  18.00  SALES", "  20.00  LEDGER"]),
            ("2024-01-13", ["It has what a usual Saturday lacks:", "  09.00  LEDGER  on 0 of the 5"]),
            ("2024-02-09", ["It has what a usual Friday lacks:", "  08.00  WAGES  on 0 of the 6"]),
        ):
            status, lines = asked(file, text)
            self.assertEqual(status, 0)
            self.assertEqual([line for line in lines if line in wanted], wanted, lines)
        _, lines = asked(file, "2024-02-09")
        self.assertIn("by TENTH, rule 1, offset 10, moved from Saturday 2024-02-10", lines[2])
        # of the 3rd, at noon: what arrived on the 2nd and isn't complete was carried
        _, lines = asked(file, "2024-01-03")
        at = lines.index("Carried from earlier days:")
        self.assertEqual([line.split()[0] for line in lines[at + 1:at + 4]], ["NIGHT", "SALES", "LEDGER"])
        self.assertNotIn("Carried from earlier days:", asked(file, "2024-01-04")[1])

    def test_what_the_definitions_name_behind_the_plan(self):
        status, lines = asked(plans.of_stream(WEEKS), "2024-03-01")
        self.assertEqual((status, lines[0]), (1, "Friday 2024-03-01, a work day by DEFAULT: no runs."))
        self.assertEqual(lines[2:6], [
            "Named, but not in the plan. It isn't planned: the long-term plan ends with 2024-02-29; `ltp-extend` goes "
            "on from there.",
            "  18.00  SALES   due 2024-03-01 20.00  by DAILY", "  20.00  LEDGER  due 2024-03-01 23.00  by DAILY",
            "  22.00  NIGHT   due 2024-03-02 05.00  by ALL"])
        self.assertEqual(lines[-1], "Nothing is unusual of it beside 4 Fridays from 2024-02-02 to 2024-02-23.")

    def test_wrong_words(self):
        for words, says in (((plans.of_stream(WEEKS),), "D"), ((plans.of_stream(WEEKS), "1.2.2024"), "2024-02-01"),
                            (("2024-01-01",), "give PLAN.db or --desk DESK")):
            ran = plans.plan_in_here("day", *words)
            self.assertEqual((ran.returncode, ran.stdout, ran.stderr.count("\n")), (2, "", 1))
            self.assertIn(says, ran.stderr)


class Usual(unittest.TestCase):
    def test_small_worlds(self):
        """All ways in which up to four other days have two runs, beside each day: what is told of a run is decided by
        that run alone, nothing is told of too few days, and a day like all others is never unusual."""
        runs = [(480, "A"), (600, "B")]
        sets = [set(), {runs[0]}, {runs[1]}, set(runs)]
        for count in range(5):
            for found in itertools.product(sets, repeat=count):
                others = dict(enumerate(found))
                for own in sets:
                    told = usual_days.unusual(own, others)
                    if count < usual_days.LEAST:
                        self.assertIsNone(told)
                        continue
                    for run in runs:
                        number = sum(run in one for one in found)
                        is_usual = number > count - number
                        self.assertEqual(told.lacks.get(run), number if is_usual and run not in own else None)
                        self.assertEqual(told.has.get(run), number if not is_usual and run in own else None)
                    if all(one == own for one in found):
                        self.assertEqual(told, ({}, {}))

    def test_the_other_days(self):
        day = moments.day_of("2024-02-05")
        wanted = ["2024-01-08", "2024-01-15", "2024-01-22", "2024-01-29", "2024-02-12", "2024-02-19", "2024-02-26",
                  "2024-03-04"]
        self.assertEqual(usual_days.others_of(day, 0, 99999), list(map(moments.day_of, wanted)))
        self.assertEqual(usual_days.others_of(day, moments.day_of("2024-01-10"), moments.day_of("2024-02-25")),
                         list(map(moments.day_of, wanted[1:-2])))


if __name__ == "__main__":
    unittest.main()
