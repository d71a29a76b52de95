"""opcplan.Plan and opcplan.Desk: the examples of docs/use/PYTHON.md, and rows beside the plain planner's."""

import datetime
import doctest
import os
import re
import subprocess
import sys
import unittest

from support import TOP, desks, plans
from support.plans import plain

import opcplan
from opcplan.desk import client

PAGE = TOP / "docs" / "use" / "PYTHON.md"
ADDRESS = "http://127.0.0.1:7411"
NOW = plain.read_moment("2024-01-02/09.00")
CHANGES = """cp-start --app APP00 --ia 2024-01-01/08.00 --job 20
cp-complete --app APP00 --ia 2024-01-01/08.00 --job 21
cp-start --app APP02 --ia 2024-01-01/08.02 --job 22
cp-fail --app APP02 --ia 2024-01-01/08.02 --job 23
cp-delete --app APP04 --ia 2024-01-01/08.04 --job 24
ltp-delete --app APP07 --ia 2024-01-05/08.07 --job 25
cp-add --app APP09 --ia 2024-01-02/09.30 --job 26
dp-extend --to 2024-01-04/00.00 --job 27
"""
CENTRE = desks.CENTRE + CHANGES.encode()


def moment(minutes):
    """A moment of the plain planner's as the library has it."""
    return datetime.datetime(1970, 1, 1) + datetime.timedelta(minutes=minutes)


def row_of(row, name, status=None, reason=None):
    """A row of the plain planner's as the library has it."""
    serial, app, ia, deadline, cycle = row
    return (serial, app, moment(ia), moment(deadline), cycle, name, status, reason)


def rows_of(planner):
    """The rows of each list, by the plain planner."""
    found = {"ltp": [row_of(row, "ltp") for row in planner.planned.values()],
             "cp": [row_of(row, "cp", status) for row, status in planner.current.values()],
             "history": [row_of(row, "history", "C") for row in planner.history.values()],
             "deletions": [row_of(row, "deletions", None, reason) for row, reason in planner.deleted.values()]}
    return {name: sorted(rows, key=lambda row: (row[2], row[1], row[0])) for name, rows in found.items()}


def fields(rows):
    """Rows of the library, as tuples."""
    return [(row.serial, row.app, row.ia, row.deadline, row.run_cycle, row.list, row.status, row.reason)
            for row in rows]


def examples(text):
    """The examples of a page: of each block of Python that has any."""
    for number, block in enumerate(re.findall("```python\n(.*?)```", text, re.S)):
        yield doctest.DocTestParser().get_doctest(block, {}, f"block {number}", str(PAGE), 0)


class OfAPlan(unittest.TestCase):
    def setUp(self):
        self.planner = plans.planner_of(CENTRE)
        self.plan = opcplan.Plan(plans.of_stream(CENTRE))
        self.addCleanup(self.plan.close)

    def test_rows(self):
        wanted = rows_of(self.planner)
        self.assertTrue(all(wanted.values()))
        for name, rows in wanted.items():
            self.assertEqual(fields(self.plan.rows(name)), rows)
            self.assertEqual(fields(self.plan.rows(name, app="APP01")), [row for row in rows if row[1] == "APP01"])
            first, last = "2024-01-02/08.04", datetime.datetime(2024, 1, 3, 8, 7)
            self.assertEqual(fields(self.plan.rows(name, first=first, last=last)),
                             [row for row in rows if datetime.datetime(2024, 1, 2, 8, 4) <= row[2] <= last])
        for status in ("W", "E", "WE", "C"):
            self.assertEqual(fields(self.plan.rows(status=status)), [row for row in wanted["cp"] if row[6] in status])

    def test_ready_and_why(self):
        rows = {serial: (row, status) for serial, (row, status) in self.planner.current.items() if status != "D"}
        rows |= {serial: (row, "L") for serial, row in self.planner.planned.items()}
        waiting = {serial: sorted(last for first, last in self.planner.pairs
                                  if first == serial and last in rows and rows[last][1] in "WSEL") for serial in rows}
        seen, ready = set(), []
        for serial, (row, status) in rows.items():
            why = self.plan.why(row[1], moment(row[2]), moment(NOW))
            how = "its time is to come" if row[2] > NOW else "blocked" if waiting[serial] else "ready"
            state = {"W": how, "E": "in error", "L": "planned"}[status]
            self.assertEqual((why.row.serial, why.state), (serial, state))
            if status in "WL":
                self.assertEqual(sorted(one.serial for one in why.waits_for), waiting[serial])
            seen.add(state)
            ready += [row] if state == "ready" else []
        self.assertEqual(seen, {"ready", "blocked", "its time is to come", "in error", "planned"})
        self.assertEqual([row.serial for row in self.plan.ready(moment(NOW))],
                         [row[0] for row in sorted(ready, key=lambda row: (row[3], row[2], row[1]))])
        self.assertEqual(self.plan.why("APP04", "2024-01-01/08.04").state, "deleted")
        self.assertEqual(self.plan.why("APP00", "2024-01-01/08.00").state, "complete")
        nowhere = self.plan.why("NONE", "2024-01-01/08.01")
        self.assertEqual((nowhere.row, nowhere.state, nowhere.waits_for), (None, "nowhere", ()))

    def test_definitions(self):
        self.assertEqual(self.plan.definitions().predecessors,
                         {app: dict(listed) for app, listed in self.planner.defined["predecessors"].items()})

    def test_what_is_given_wrong(self):
        for wrong in (lambda: self.plan.rows("links"), lambda: self.plan.rows(first="today"),
                      lambda: self.plan.ready(datetime.datetime(2024, 1, 1, tzinfo=datetime.timezone.utc))):
            self.assertRaises(ValueError, wrong)
        self.assertRaises(opcplan.Plan.Unreadable, opcplan.Plan, __file__)
        self.assertRaises(opcplan.Desk.Wrong, opcplan.Desk, "http://")
        self.assertRaises(AttributeError, lambda: opcplan.Row)

    def test_its_copy_goes(self):
        script = ("import opcplan, sys, glob, tempfile\nplan = opcplan.Plan(sys.argv[1])\n"
                  "assert glob.glob(tempfile.gettempdir() + '/plan-*')\n")
        room = self.enterContext(plans.tempfile.TemporaryDirectory())
        for closed in ("plan.close()\nplan.close()\n", "", "del plan\n", "raise SystemExit(0)\n"):
            words = [sys.executable, "-c", script + closed, plans.of_stream(CENTRE)]
            environment = {**os.environ, "PYTHONPATH": str(TOP / "python"), "TMPDIR": room}
            ran = subprocess.run(words, env=environment, capture_output=True, text=True, check=False)
            self.assertEqual((ran.returncode, ran.stderr, os.listdir(room)), (0, "", []))

    def test_the_command_loads_none_of_it(self):
        script = "import opcplan, opcplan.__main__, sys; print([one for one in sys.modules if 'library' in one])"
        words = [sys.executable, "-c", script]
        environment = {**os.environ, "PYTHONPATH": str(TOP / "python")}
        ran = subprocess.run(words, env=environment, capture_output=True, text=True, check=False)
        self.assertEqual((ran.stdout, ran.stderr), ("[]\n", ""))


@unittest.skipIf(desks.why_not(), desks.why_not())
class OfADesk(desks.Case):
    TEXT = CENTRE

    def test_rows(self):
        desk = self.desk()
        asked = opcplan.Desk(str(desk.socket))
        for name, rows in rows_of(plans.planner_of(CENTRE)).items():
            self.assertEqual(fields(asked.rows(name)), rows)
        day = datetime.datetime(2024, 1, 2)
        self.assertEqual({row.ia.date() for row in asked.rows(first=day, last="2024-01-02")}, {day.date()})
        self.assertRaises(ValueError, asked.rows, "links")
        with self.assertRaises(opcplan.Desk.Refused) as refused:
            asked.rows("ltp", status="W")
        self.assertEqual(refused.exception.status, 400)
        self.assertEqual(asked.log(1), "")
        client.Client(desk.socket).request("PUT", "/logs/1?try=2", "grün\n".encode())
        self.assertEqual(asked.log(1), "grün\n")
        self.end(desk)
        self.assertRaises(opcplan.Desk.Away, asked.rows)


@unittest.skipIf(desks.why_not(), desks.why_not())
class Page(desks.Case):
    TEXT = plans.stream("monday") + plans.stream("tuesday")

    def test_its_examples(self):
        desk = self.desk()
        text = PAGE.read_text(encoding="utf-8")
        self.assertIn(f'"{ADDRESS}"', text)
        text = text.replace(ADDRESS, f"http://127.0.0.1:{desk.port}").replace('"plan.db"', f'"{self.plan}"')
        names, tried, found = {}, 0, []
        for one in examples(text):
            one.globs = names
            result = doctest.DocTestRunner(verbose=False).run(one, out=found.append, clear_globs=False)
            tried += result.attempted
        self.assertEqual("".join(found), "")
        self.assertGreater(tried, 12)
        self.end(desk)


if __name__ == "__main__":
    unittest.main()
