"""./plan status: who has a plan, its ends, counts and rows by the plain planner, and what is to be done."""

import fcntl
import os
import re
import tempfile
import unittest
from collections import Counter
from pathlib import Path

from support import data_centre, desks, plans

from opcplan.plans import locks, plan_name
from opcplan.rules import moments

NAMES = ("monday", "week-of-daily-plans", "statuses-carried", "predecessor-fails-and-goes")


def wanted_counts(planner, now):
    """How many occurrences of the current plan are in error, started, ready, blocked, to come, complete, deleted."""
    complete = {serial for serial, (_, status) in planner.current.items() if status == "C"} | set(planner.history)
    open_rows = {serial for serial, (_, status) in planner.current.items() if status in "WSE"}
    found = Counter()
    for row, status in planner.current.values():
        if status == "W":
            waits = any(last in open_rows and last not in complete for first, last in planner.pairs if first == row[0])
            status = "to come" if row[2] > now else "blocked" if waits else "ready"
        found[{"E": "in error", "S": "started", "C": "complete", "D": "deleted"}.get(status, status)] += 1
    return found


class Status(unittest.TestCase):
    def setUp(self):
        room = tempfile.TemporaryDirectory(prefix="status-")
        self.addCleanup(room.cleanup)
        self.room = Path(room.name)

    def counts(self, text):
        line = next(line for line in text.splitlines() if line.startswith("The current plan has"))
        return {what: int(number.replace(",", "")) for number, what in re.findall("([0-9,]+) ([a-z ]+)(?=[,.])", line)
                if not what.startswith("occurrence")}

    def test_counts_and_ends_are_those_of_the_plain_planner(self):
        for name in NAMES:
            planner = plans.planner_of(plans.stream(name))
            for moment in (planner.bounds[2] - 2000, planner.bounds[2] - 60, planner.bounds[2] + 90):
                with self.subTest(name, moment=moment):
                    ran = plans.plan_in_here("status", plans.of_worked(name), "--now", moments.moment_word(moment))
                    self.assertEqual(ran.stderr, "")
                    self.assertEqual(self.counts(ran.stdout), {**wanted_counts(planner, moment)})
                    verb = "ended" if moment >= planner.bounds[2] else "ends"
                    self.assertIn(f"The current plan {verb} {moments.moment_text(planner.bounds[2])}, ", ran.stdout)

    def test_what_is_in_error_late_and_due_next(self):
        path = plans.of_stream(data_centre.whole())
        planner, now = plans.planner_of(data_centre.whole()), moments.moment_of(data_centre.NOW)
        ran = plans.plan_in_here("status", path, "--now", data_centre.NOW)
        self.assertEqual(ran.returncode, 1)
        open_rows = sorted((row[3], row[2], row[1], row[0], status) for row, status in planner.current.values()
                           if status in "WSE")
        shown = ran.stdout.partition("\nDue next")[2].partition("\n\n")[0].splitlines()[1:]
        serials = [int(re.search("serial ([0-9]+)", line)[1]) for line in shown]
        self.assertEqual(serials, [one[3] for one in open_rows if one[4] != "E" and one[0] >= now][:5])
        shown = ran.stdout.partition("\nNeeds a person:\n")[2].partition("\n\n")[0].splitlines()
        first = [int(re.search("serial ([0-9]+)", line)[1]) for line in shown if " is in error; it " in line]
        self.assertEqual(sorted(first), sorted(one[3] for one in open_rows if one[4] == "E"))
        self.assertTrue(any(" is late by " in line for line in shown))
        self.assertTrue(any(line.startswith("    First: ") for line in shown))

    def test_who_has_the_plan(self):
        path = plans.copy_of(plans.of_worked("monday"), self.room)
        number = os.open(path, os.O_RDWR)
        self.addCleanup(os.close, number)
        for span, said in ((None, "no program has it open"), (locks.OF_A_RUN, "opcplan or another program has it open"),
                           (locks.OF_A_DESK, "a desk has it")):
            if span:
                self.assertTrue(locks.set_lock(number, fcntl.F_WRLCK, *span))
            first = plans.plan_in_here("status", path, "--now", "2024-01-01/12.00").stdout.splitlines()[0]
            self.assertIn(said, first)
            if span:
                locks.set_lock(number, fcntl.F_UNLCK, *span)

    def test_definitions_that_end_early(self):
        text = plans.stream("monday") + b"define periods --job 50\nEND,N,2024-01-01,2024-01-07\n/*\n" \
            b"define applications --job 51\nENDS,A,\n/*\n" \
            b"define run-cycles --job 52\nENDS,RC,N,END,3,1 2,2024-01-01,,08.00,0,09.00\n/*\n"
        ran = plans.plan_in_here("status", plans.of_stream(text), "--now", "2024-01-01/12.00")
        self.assertIn("  END ends 2024-01-07, but the plan goes to 2024-01-31: ENDS has no occurrence after it.",
                      ran.stdout)
        self.assertEqual(ran.returncode, 1)

    def test_no_plan_yet(self):
        ran = plans.plan_in_here("status", plans.of_stream("define options --job 1\ndefault_calendar = \"A\"\n"
                                                           "max_extension_hours = 24\n/*\n"))
        self.assertIn("There is no long-term plan yet: `ltp-create` makes one, as `./plan send", ran.stdout)
        self.assertEqual(plans.plan_in_here("status").returncode, 2)

    def test_a_plan_before_its_first_daily_plan(self):
        text = plans.stream("monday").partition(b"dp-extend")[0]
        planner = plans.planner_of(text)
        self.assertEqual((planner.bounds[2], planner.current), (planner.bounds[0] * moments.DAY, {}))
        for word, status in (("2023-12-30/12.00", 0), ("2023-12-31/13.00", 1), ("2024-01-01/00.00", 1)):
            ran = plans.plan_in_here("status", plans.of_stream(text), "--now", word)
            self.assertIn("\nThe current plan is empty: the first `dp-extend` fills it, from 2024-01-01 00.00 on.\n",
                          ran.stdout)
            self.assertNotIn("0 occurrences", ran.stdout)
            self.assertEqual(ran.returncode, status, word)

    def test_the_words_that_make_a_long_term_plan_are_taken(self):
        text = plans.stream("monday").partition(b"ltp-create")[0]
        path = plans.copy_of(plans.of_stream(text), self.room)
        said = plans.plan_in_here("status", path).stdout
        words = re.search("`./plan (send .*)`", said)[1].replace("PLAN.db", str(path))
        for day in ("2024-01-01", "2024-01-31"):
            words = words.replace("DAY", day, 1)
        ran = plans.plan(*words.split())
        self.assertEqual((ran.returncode, ran.stdout), (0, "ok made 46 withdrawn 0\n"))

    def test_colours_only_where_they_are_wanted(self):
        path = plans.of_worked("monday")
        for words, env, is_coloured in ((["--color", "always"], {}, True), (["--color", "never"], {}, False),
                                        ([], {}, False),
                                        (["--color", "always"], {"NO_COLOR": "1"}, True)):
            ran = plans.plan("status", path, "--now", "2024-03-01/12.00", *words, env={**os.environ, **env})
            self.assertEqual("\x1b[31m" in ran.stdout, is_coloured)
            self.assertEqual(ran.stdout.replace("\x1b[31m", "").replace("\x1b[33m", "").replace("\x1b[1m", "")
                             .replace("\x1b[0m", ""), plans.plan("status", path, "--now", "2024-03-01/12.00").stdout)


@unittest.skipIf(desks.why_not(), desks.why_not())
class OfADesk(desks.Case):
    TEXT = plans.stream("monday")

    def test_a_desk_reports_the_same(self):
        """Without a desk nobody knows by which name systemd knows the plan."""
        alone = plans.plan("status", self.plan, "--now", "2024-01-01/12.00").stdout.splitlines()[1:]
        self.assertTrue(any("`journalctl -u opcplan-roll@NAME`" in line for line in alone))
        alone = [line.replace("@NAME", f"@{plan_name.of_path(self.plan)}") for line in alone]
        desk = self.desk()
        words = ["status", "--desk", desk.socket, "--now", "2024-01-01/12.00"]
        ran = plans.plan(*words)
        self.assertEqual(ran.stdout.splitlines()[1:], alone)
        self.assertIn("this desk has the plan", ran.stdout.splitlines()[0])
        self.assertIn("a desk has it", plans.plan("status", self.plan, "--now", "2024-01-01/12.00").stdout)
        self.end(desk)
        ran = plans.plan(*words)
        self.assertEqual((ran.returncode, ran.stdout, ran.stderr.count("\n")), (1, "", 1))
        self.assertIn("no desk answers there", ran.stderr)


if __name__ == "__main__":
    unittest.main()
