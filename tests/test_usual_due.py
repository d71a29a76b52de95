"""Usual deadlines of what was added by hand: by the run cycle whose time is nearest; in `late`, `status`, the page, and
what needs a person."""

import shutil
import unittest

from support import page_reader, plans

from opcplan.commands import late, status
from opcplan.needs import found, loaded
from opcplan.plans import plan_definitions, plan_file
from opcplan.rules import usual_due
from opcplan.rules.definitions import Definitions, Due, RunCycle

from test_page_needs import drawn

import plain_planner as plain

# PAY is due at 22.00 of its day, NIGHT at 06.00 of the next one, FREE has no run cycle
PLAN = """define periods --job 1
DAY,A,2024-01-01,1
/*
define applications --job 2
PAY,A,
NIGHT,A,
FREE,A,
/*
define run-cycles --job 3
PAY,RC,N,DAY,3,1,2024-01-01,,20.00,0,22.00
PAY,X,X,DAY,3,1,2024-01-01,,21.00,0,21.30
NIGHT,RC,N,DAY,3,1,2024-01-01,,18.00,1,06.00
/*
ltp-create --from 2024-01-01 --to 2024-01-31 --job 4
dp-extend --to 2024-01-04/00.00 --job 5
cp-add --app PAY --ia 2024-01-01/23.00 --job 6
cp-add --app FREE --ia 2024-01-01/23.00 --job 7
cp-add --app PAY --ia 2024-01-03/08.00 --job 8
"""


def moment(text):
    return plain.read_moment(text)


def defined(*cycles):
    """Definitions in which PAY has run cycles."""
    return Definitions(run_cycles={"PAY": {cycle.name: cycle for cycle in cycles}})


def cycle(name, time, days, due, kind="N", begins="2024-01-01", ends=None):
    """A run cycle of every day."""
    last = None if ends is None else plain.read_day(ends)
    return RunCycle(name, kind, "DAY", "3", [1], plain.read_day(begins), last, plain.read_minute(time),
                    None if due is None else Due(days, plain.read_minute(due)))


class Rule(unittest.TestCase):
    """Worked by hand from the sentence of the module: the run cycle whose time is nearest, on whichever day."""

    def check(self, cycles, rows):
        for ia, wanted in rows:
            got = usual_due.of_run(defined(*cycles), "PAY", moment(ia))
            self.assertEqual(got, None if wanted is None else moment(wanted), ia)

    def test_the_nearest_time_decides(self):
        self.check([cycle("R", "20.00", 0, "22.00")], [
            ("2024-01-05/20.00", "2024-01-05/22.00"), ("2024-01-05/20.01", "2024-01-05/22.00"),
            ("2024-01-05/23.00", "2024-01-05/22.00"), ("2024-01-06/02.00", "2024-01-05/22.00"),
            ("2024-01-06/07.59", "2024-01-05/22.00"), ("2024-01-06/08.01", "2024-01-06/22.00")])
        self.check([cycle("R", "18.00", 1, "06.00")], [
            ("2024-01-05/18.30", "2024-01-06/06.00"), ("2024-01-06/02.00", "2024-01-06/06.00")])
        self.check([cycle("A", "08.00", 0, "09.00"), cycle("B", "20.00", 0, "22.00")], [
            ("2024-01-05/10.00", "2024-01-05/09.00"), ("2024-01-05/15.00", "2024-01-05/22.00")])

    def test_of_two_that_are_as_near_the_earlier_deadline_counts(self):
        self.check([cycle("R", "20.00", 0, "22.00")], [("2024-01-06/08.00", "2024-01-05/22.00")])
        for names in ("AB", "BA"):
            self.check([cycle(names[0], "08.00", 0, "09.00"), cycle(names[1], "20.00", 0, "22.00")], [
                ("2024-01-05/14.00", "2024-01-05/09.00"), ("2024-01-05/02.00", "2024-01-04/22.00")])
            self.check([cycle(names[0], "08.00", 2, "09.00"), cycle(names[1], "20.00", 0, "22.00")], [
                ("2024-01-05/14.00", "2024-01-05/22.00")])

    def test_what_does_not_count(self):
        self.check([cycle("X", "20.00", 0, "22.00", "X")], [("2024-01-05/20.00", None)])
        self.check([cycle("X", "20.00", 0, None, "X")], [("2024-01-05/20.00", None)])
        self.check([cycle("ONCE1", "20.00", 0, "22.00", "N", "2024-01-05", "2024-01-06")],
                   [("2024-01-05/20.01", None)])
        self.check([cycle("R", "20.00", 0, "22.00", "N", "2024-01-03", "2024-01-05")],
                   [("2024-01-02/20.00", None), ("2024-01-04/20.00", "2024-01-04/22.00"), ("2024-01-05/20.00", None)])
        self.check([], [("2024-01-05/20.00", None)])


class Shown(unittest.TestCase):
    def setUp(self):
        self.path = plans.of_stream(PLAN)

    def test_late_counts_it_if_told(self):
        ran = plans.plan_here(late, self.path, "--now", "2024-01-02/01.00")
        self.assertIn("1 run that was added by hand is past the usual deadline; --usual-deadlines counts that:\n"
                      "  PAY 2024-01-01 23.00  usually due 2024-01-01 22.00, by the rules due 2024-01-02 23.00, serial "
                      "63\n", ran.stdout)
        self.assertIn("PAY 2024-01-01 20.00", ran.stdout)
        self.assertIn("1 is late", ran.stdout)
        ran = plans.plan_here(late, self.path, "--now", "2024-01-02/01.00", "--usual-deadlines")
        self.assertIn("2 are late", ran.stdout)
        self.assertIn("added by hand, and usually due 22.00", ran.stdout)
        self.assertNotIn("counts that", ran.stdout)
        ran = plans.plan_here(late, self.path, "--now", "2024-01-02/23.30")
        self.assertIn("added by hand, so it is due a day after it arrives; it is usually due 22.00", ran.stdout)
        self.assertIn("FREE", ran.stdout)

    def test_status_shows_it(self):
        ran = plans.plan_here(status, self.path, "--now", "2024-01-01/22.30")
        self.assertRegex(ran.stdout, r"PAY +2024-01-01 23\.00 .*usually due 22\.00|usually due 22\.00")
        self.assertIn("is late by", ran.stdout)

    def test_alarms_count_it(self):
        now = moment("2024-01-02/01.00")
        with plan_file.opened(self.path) as plan:
            texts = [one.text for one in found.of_facts(loaded.of_plan(plan, None, now)[0]).needs]
            rules = [one.text for one in found.of_facts(loaded.of_plan(plan, None, now, by_usual=False)[0]).needs]
        of_added = [text for text in texts if text.startswith("PAY 2024-01-01 23.00")]
        self.assertEqual(len(of_added), 1, texts)
        self.assertIn("is late by 3 h by its usual deadline", of_added[0])
        self.assertEqual([text for text in rules if "23.00 (serial" in text], [])
        self.assertEqual([text for text in texts if text.startswith("FREE")], [])

    @unittest.skipUnless(shutil.which("node"), "there is no node here: Debian's package nodejs has it")
    def test_the_page_has_the_same_rule(self):
        data = page_reader.data_in(page_reader.page_of(self.path, "--now", "2024-01-02/01.00"))
        rows = page_reader.rows_in(data)
        got = drawn(data, "console.log(JSON.stringify(Array.from(ia, (_, i) => usualDue(i))));")
        with plan_file.opened(self.path) as plan:
            wanted = [usual_due.of_run(plan_definitions.of_plan(plan), app, ia) for _, app, ia, _, _ in rows]
        self.assertEqual(got, wanted)
        self.assertIn(None, wanted)


if __name__ == "__main__":
    unittest.main()
