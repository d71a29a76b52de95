"""./plan next: the next runs of each application, by the plain planner."""

import re
import tempfile
import unittest
from pathlib import Path

from support import desks, plans
from support.plans import plain

from opcplan.commands import next as command
from opcplan.plans import plan_definitions, plan_file

STREAMS = """week-of-daily-plans carried-over-five-days statuses-carried added-before-between-and-after first-days
    batch-through-all-sets""".split()
LINE = re.compile(r"  (MON|TUE|WED|THU|FRI|SAT|SUN) (\d{4}-\d\d-\d\d \d\d\.\d\d)  (.+?)  +due (\S+ \S+)  "
                  r"(by \S+|added by hand)(?: +serial (\d+))?")
STATES = {"S": {"started"}, "E": {"in error"}, "W": {"ready", "blocked", "its time is to come"}, None: {"planned"}}


def wanted(planner, app, now, most):
    """What is to come: input arrival, statuses that it may be told with, deadline, run cycle, serial."""
    rows = [(row, status) for row, status in planner.current.values() if row[1] == app and status in "WSE"]
    rows += [(row, None) for row in planner.planned.values() if row[1] == app]
    found, left = [], most
    for (serial, _, ia, due, cycle), status in sorted(rows, key=lambda one: (one[0][2], one[0][0])):
        if left or status in ("S", "E"):
            left -= status not in ("S", "E")
            found.append((ia, STATES[status], due, cycle, serial))
    if planner.bounds and app in planner.active():
        first = planner.bounds[1] + 1
        named = planner.named(app, first, first + command.FAR - 1)
        found += [(day * 1440 + time, {command.UNPLANNED}, due, cycle, None)
                  for (day, time), (cycle, due) in sorted(named.items())[:left]]
    return found


class Next(unittest.TestCase):
    def test_the_next_runs_are_the_planners(self):
        seen = set()
        for name in STREAMS:
            planner = plans.planner_of(plans.stream(name))
            if not planner.bounds:
                continue
            with plan_file.opened(plans.of_stream(plans.stream(name))) as plan:
                defined = plan_definitions.of_plan(plan)
                for app in planner.defined["applications"]:
                    for most, back in ((1, 0), (3, 1440), (400, 0)):
                        now = planner.bounds[2] - back
                        lines = command.lines_of(app, command.coming(plan, defined, app, now, most))
                        expected = wanted(planner, app, now, most)
                        with self.subTest(name, app=app, most=most):
                            seen |= self.check(app, lines, expected)
        self.assertEqual(seen, {"started", "in error", "ready", "blocked", "planned", command.UNPLANNED,
                                "its time is to come", "added by hand", "none"})

    def check(self, app, lines, expected):
        if not expected:
            self.assertEqual(lines, [f"No run of {app} is to come."])
            return {"none"}
        self.assertEqual((lines[0], len(lines)), (f"{app}:", len(expected) + 1))
        seen = set()
        for line, (ia, states, due, cycle, serial) in zip(lines[1:], expected):
            weekday, arrives, state, deadline, by, number = LINE.fullmatch(line).groups()
            self.assertEqual(weekday, "THU FRI SAT SUN MON TUE WED".split()[ia // 1440 % 7])
            self.assertEqual((arrives, deadline), (plain.moment_text(ia), plain.moment_text(due)))
            self.assertIn(state, states)
            self.assertEqual(by, f"by {cycle}" if cycle else "added by hand")
            self.assertEqual(number, None if serial is None else str(serial))
            seen |= {state} | ({by} & {"added by hand"})
        return seen


class Command(unittest.TestCase):
    def test_what_is_printed(self):
        """Monday's LEDGER is complete in `monday`; the plan goes to the end of January."""
        file = plans.of_worked("monday")
        planner = plans.planner_of(plans.stream("monday"))
        ran = plans.plan_in_here("next", file, "LEDGER", "-n", "2", "--now", "2024-01-02/12.00")
        self.assertEqual((ran.returncode, ran.stderr, ran.stdout.count("\n")), (0, "", 3))
        (first, *_, serial), *_ = wanted(planner, "LEDGER", 0, 2)
        self.assertIn(f"{plain.moment_text(first)}  planned", ran.stdout.splitlines()[1])
        self.assertTrue(ran.stdout.splitlines()[1].endswith(f"serial {serial}"))

    def test_before_there_is_a_plan_the_definitions_are_asked(self):
        text = (b"define periods --job 1\nDAY,A,2024-01-01,1\n/*\ndefine applications --job 2\nA,A,\nB,P,\n/*\n"
                b"define run-cycles --job 3\nA,ALL,N,DAY,3,1,2024-01-01,,08.00,0,18.00\n/*\n")
        file = plans.of_stream(text)
        ran = plans.plan_in_here("next", file, "a", "-n", "2", "--now", "2024-01-01/12.00")
        self.assertEqual((ran.returncode, ran.stderr), (0, ""))
        self.assertEqual(ran.stdout, "A:\n  TUE 2024-01-02 08.00  not planned yet  due 2024-01-02 18.00  by ALL\n"
                                     "  WED 2024-01-03 08.00  not planned yet  due 2024-01-03 18.00  by ALL\n")
        ran = plans.plan_in_here("next", file, "B")
        self.assertEqual((ran.returncode, ran.stdout), (1, "No run of B is to come.\n"))
        self.assertEqual(ran.stderr, "plan: B is pending, so none of it is planned\n")

    def test_wrong_words(self):
        file = plans.of_worked("monday")
        with tempfile.TemporaryDirectory() as room:
            for words, status, says in (
                ((file, "LEDGRE"), 1, "there is no application LEDGRE (did you mean LEDGER?)"),
                ((file, "LEDGER", "-n", "0"), 2, "'0' is not a number of runs"),
                ((file, "LEDGER", "-n", "1001"), 2, "1 to 1,000"),
                ((file,), 2, "is not the name of an application"),
                (("LEDGER",), 2, "give PLAN.db or --desk DESK"),
                ((file, "LEDGER", "--desk", "http://127.0.0.1:1"), 2, "give PLAN.db or --desk DESK"),
                ((Path(room) / "none.db", "LEDGER"), 1, "none.db"),
            ):
                ran = plans.plan_in_here("next", *words)
                self.assertEqual((ran.returncode, ran.stdout, ran.stderr.count("\n")), (status, "", 1), words)
                self.assertIn(says, ran.stderr)


@unittest.skipIf(desks.why_not(), desks.why_not())
class OfADesk(desks.Case):
    TEXT = plans.stream("monday")

    def test_a_desk_gives_the_same(self):
        asked = {"next": ["LEDGER", "-n", "2"], "day": ["2024-01-02"]}
        now = ["--now", "2024-01-02/12.00"]
        alone = {name: plans.plan_in_here(name, self.plan, *words, *now) for name, words in asked.items()}
        desk = self.desk()
        for name, words in asked.items():
            ran = plans.plan_in_here(name, *words, "--desk", desk.socket, *now)
            self.assertEqual((ran.returncode, ran.stdout, ran.stderr), (0, alone[name].stdout, ""))
        self.end(desk)
        for name, words in asked.items():
            ran = plans.plan_in_here(name, *words, "--desk", desk.socket)
            self.assertEqual((ran.returncode, ran.stdout, ran.stderr.count("\n")), (1, "", 1))
            self.assertIn("no desk answers there", ran.stderr)


if __name__ == "__main__":
    unittest.main()
