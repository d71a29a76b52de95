"""./plan why: where each occurrence stands, what it waits for, and why one isn't there, by the plain planner."""

import re
import shutil
import tempfile
import unittest

from support import plans
from support.plans import plain

from opcplan.commands import why
from opcplan.plans import plan_file, waits
from opcplan.rules import moments


NAMES = """week-of-daily-plans batch-through-all-sets statuses-carried pairs-into-history predecessor-fails-and-goes
    carried-over-five-days deleted-and-added statuses-refused withdrawn-and-named-again successor-waits each-list
    one-key-twice each-status-under-each-action""".split()
PLACES = {
    "D": "is deleted", "S": "is started", "E": "ended in error", "C": "is complete, in the current plan",
    "W": "waits in the current plan",
}
REASONS = {
    "O": "was deleted from the long-term plan by an operator", "W": "was withdrawn from the long-term plan",
    "P": "was deleted in the current plan by an operator",
}


def texts():
    """Worked streams, each whole and cut behind two thirds of its lines, and the two days of the README."""
    for name in NAMES:
        lines = plans.stream(name).split(b"\n")
        yield name, plans.stream(name)
        yield name, b"\n".join(lines[: len(lines) * 2 // 3]) + b"\n"
    yield "tuesday", plans.stream("monday") + plans.stream("tuesday")


def all_rows(planner):
    """Each occurrence with what its line has to say."""
    found = [(row, "is in the long-term plan") for row in planner.planned.values()]
    found += [(row, PLACES[status]) for row, status in planner.current.values()]
    found += [(row, "is complete, in history") for row in planner.history.values()]
    return found + [(row, REASONS[reason]) for row, reason in planner.deleted.values()]


class Waiting:
    """What each occurrence waits for, by the plain planner's pairs."""

    def __init__(self, planner):
        complete = set(planner.history) | {serial for serial, (_, status) in planner.current.items() if status == "C"}
        waiting = set(planner.planned) | {serial for serial, (_, status) in planner.current.items() if status == "W"}
        self.pairs = {}
        for first, last in planner.pairs:
            if first in waiting and last not in complete:
                self.pairs.setdefault(first, set()).add(last)
        self.live = {row[1:3]: row[0] for row in planner.live()}

    def chain(self, serial):
        """All that it waits for, down to what waits for nothing that isn't complete."""
        found, left = {}, [serial]
        while left:
            here = left.pop()
            if here not in found:
                found[here] = self.pairs.get(here, set())
                left += found[here]
        return found


class Rows(unittest.TestCase):
    def test_each_occurrence_of_the_worked_plans(self):
        seen = set()
        for name, text in texts():
            planner = plans.planner_of(text)
            waiting = Waiting(planner)
            with plan_file.opened(plans.of_stream(text)) as plan:
                for where in {where for _, where in all_rows(planner)}:
                    rows = [row for row, place in all_rows(planner) if place == where]
                    for row in rows[:: max(1, len(rows) // 12)]:
                        with self.subTest(name, serial=row[0]):
                            self.check(waiting, plan, row, where)
                    seen.add(where)
        wanted = {"is in the long-term plan", "is complete, in history", *PLACES.values(), *REASONS.values()}
        self.assertEqual(seen, wanted)

    def check(self, waiting, plan, row, where):
        serial, app, ia, due, cycle = row
        rows = waits.rows_of_key(plan, app, ia)
        mine = next(one for one in rows if one.serial == serial)
        self.assertEqual(tuple(mine)[:5], row)
        self.assertEqual(rows[0].serial, waiting.live.get((app, ia), rows[0].serial))
        lines = why.row_lines(plan, mine, ia, True)
        self.assertTrue(lines[0].startswith(f"{app} {plain.moment_text(ia)} {where}"), lines[0])
        self.assertIn(f"serial {serial}, {'added by hand' if cycle is None else 'by ' + cycle}, due "
                      f"{plain.moment_text(due)}", lines[0])
        if mine.place in "WL":
            self.check_waiting(waiting.chain(serial), mine, lines)

    def check_waiting(self, found, mine, lines):
        """The tree has each row that isn't complete, once with what it waits for; the last ones wait for nothing."""
        text = "\n".join(lines)
        seen = re.search(r"It waits for ([0-9]+) that (?:is|are) not complete:", text)
        self.assertEqual(int(seen.group(1)) if seen else 0, len(found) - 1)
        self.assertEqual("Nothing holds it up" in text, len(found) == 1)
        if not seen:
            return
        tree, _, ends = text.partition(" not complete:\n\n")[2].partition("\n\nOf these,")
        below = self.below(tree, mine.serial)
        self.assertEqual({serial: others for serial, others in found.items() if others},
                         {serial: others for serial, others in below.items() if others})
        leaves = {serial for serial, others in found.items() if not others}
        said = {int(serial) for serial in re.findall(r"serial ([0-9]+)", ends)}
        self.assertEqual(said, leaves if leaves - found[mine.serial] else set())

    def below(self, tree, top):
        """What stands below each row of a tree, by serial, and that each row has its own key and status."""
        found, way = {top: set()}, {0: top}
        for line in tree.split("\n"):
            blanks, deep, serial = re.match(r"( *)(?:([0-9]+): )?.*serial ([0-9]+)", line).groups()
            depth, serial = int(deep or len(blanks) // 2), int(serial)
            found.setdefault(way[depth - 1], set()).add(serial)
            way[depth] = serial
        return found

    def test_a_started_one_is_refused_exactly_where_it_is_said_to_wait(self):
        for name, text in texts():
            planner = plans.planner_of(text)
            with plan_file.opened(plans.of_stream(text)) as plan:
                for row, status in list(planner.current.values())[:80]:
                    if status == "W":
                        blocked = waits.chain(plan, waits.Row(*row, "W"))[row[0]]
                        try:
                            planner.copy().act("start", row[1], row[2])
                            self.assertEqual(blocked, [], name)
                        except plain.Refusal as refused:
                            self.assertEqual(refused.line, f"refused 30 {min(one.serial for one in blocked)}", name)


class Nowhere(unittest.TestCase):
    def test_what_was_never_made(self):
        found = set()
        for name in ("week-of-daily-plans", "withdrawn-and-named-again", "made-pending", "definitions-taken-away"):
            text = plans.stream(name)
            planner = plans.planner_of(text)
            known = {row[1:3] for row, _ in all_rows(planner)}
            with plan_file.opened(plans.of_stream(text)) as plan:
                for app in [*planner.defined["applications"], "NOBODY"]:
                    for ia in self.moments(planner):
                        if (app, ia) not in known:
                            with self.subTest(name, app=app, ia=plain.moment_text(ia)):
                                found |= self.check(planner, plan, app, ia)
        self.assertEqual(found, {"names", "nothing names", "isn't defined", "pending", "no long-term plan"})

    def moments(self, planner):
        first = planner.bounds[0] if planner.bounds else moments.day_of("2024-01-01")
        times = {cycle["time"] for cycles in planner.defined["run-cycles"].values() for cycle in cycles.values()}
        return [(first + day) * plain.DAY + time for day in (-1, 0, 1, 5, 6, 11) for time in [*sorted(times)[:2], 17]]

    def check(self, planner, plan, app, ia):
        self.assertEqual(waits.rows_of_key(plan, app, ia), [])
        lines = why.nowhere_lines(plan, app, ia)
        if app not in planner.defined["applications"] and not any(row[1] == app for row, _ in all_rows(planner)):
            self.assertRegex(lines[0], rf"\AThe application {app} isn't defined( \(did you mean \w+\?\))?, and the "
                                       r"plan has no occurrence of it\.\Z")
            self.assertEqual(len(lines), 1)
            return {"isn't defined"}
        self.assertEqual(lines[0], f"{app} {plain.moment_text(ia)} is nowhere, and never was.")
        text, named = "\n".join(lines[1:]), False
        if app in planner.active():
            try:
                planner.ask_definitions([app])
                named = (ia // plain.DAY, ia % plain.DAY) in planner.named(app, ia // plain.DAY, ia // plain.DAY)
            except plain.Refusal:
                pass
        self.assertEqual("By the current definitions nothing names it" not in text, named)
        is_unknown = app not in planner.defined["applications"]
        self.assertEqual("isn't defined, so no day is named for it" in text, is_unknown)
        is_pending = not planner.defined["applications"].get(app, (True, None))[0]
        self.assertEqual("is pending, and only active applications are planned" in text, is_pending)
        self.assertEqual("There is no long-term plan yet" in text, planner.bounds is None)
        found = {"pending": is_pending, "no long-term plan": planner.bounds is None, "isn't defined": is_unknown}
        return {"names" if named else "nothing names", *(text for text, holds in found.items() if holds)}


class Command(unittest.TestCase):
    def setUp(self):
        room = tempfile.mkdtemp(prefix="why-")
        self.addCleanup(shutil.rmtree, room)
        text = plans.stream("monday") + plans.stream("tuesday")
        self.file = plans.copy_of(plans.of_stream(text), room)
        self.before = plans.prints(self.file)

    def tearDown(self):
        self.assertEqual(plans.prints(self.file), self.before)

    def ask(self, *given, status=0):
        ran = plans.plan("why", self.file, *given)
        self.assertEqual((ran.returncode, ran.stderr), (status, ""), ran)
        return ran.stdout

    def test_what_waits(self):
        output = self.ask("REPORT", "2024-01-02/20.00", "--now", "2024-01-03/08.30")
        for text in ("REPORT 2024-01-02 20.00 waits in the current plan (serial 4, by RC, due 2024-01-03 08.00).",
                     "At 2024-01-03 08.30 it is blocked, and late by 30 min.", "It waits for 1 that is not complete:",
                     "  LEDGER 2024-01-02 18.00  ready  due 2024-01-03 06.00, serial 3, late by 2 h 30 min",
                     "  job 12  cp-start: refused 30 3"):
            self.assertIn(text, output)

    def test_late_is_past_the_deadline_alone(self):
        self.assertNotIn("late", self.ask("REPORT", "2024-01-02/20.00", "--now", "2024-01-03/06.00"))
        self.assertIn("late by 1 min", self.ask("REPORT", "2024-01-02/20.00", "--now", "2024-01-03/06.01"))

    def test_jobs_of_what_is_complete(self):
        output = self.ask("ledger", "2024-01-01/18.00")
        self.assertIn("is complete, in history", output)
        self.assertIn("  job 8  cp-start: ok serial 1 status S\n  job 9  cp-complete: ok serial 1 status C\n", output)

    def test_a_name_that_is_like_another(self):
        self.assertEqual(self.ask("LEGDER", "2024-01-13/18.00", status=1),
                         "The application LEGDER isn't defined (did you mean LEDGER?), and the plan has no occurrence "
                         "of it.\n")

    def test_nowhere(self):
        self.assertIn("a free day (DEFAULT lists Saturdays as free)", self.ask("LEDGER", "2024-01-13/18.00", status=1))

    def test_wrong_words_and_files(self):
        for text in ("", "REPORT 2024-01-02/24.00", f"{'A' * 17} 2024-01-02/20.00", "REPORT 2024-13-02",
                     "REPORT 2024-01-02/20.00 --now today"):
            given = text.split()
            ran = plans.plan("why", self.file, *given)
            self.assertEqual((ran.returncode, ran.stdout), (2, ""), given)
        ran = plans.plan("why", self.file, "REPORT")  # two fit: tests/test_resolver.py has which
        self.assertEqual((ran.returncode, ran.stdout.splitlines()[0]),
                         (1, "2 occurrences fit REPORT; name one of them:"))
        ran = plans.plan("why", self.file.with_name("none.db"), "REPORT", "2024-01-02/20.00")
        self.assertEqual((ran.returncode, ran.stdout), (1, ""))

    def test_a_long_chain_is_cut(self):
        text = """define periods --job 1
DAY,W,2024-01-01,1
/*
define applications --job 2
A,A,
/*
define run-cycles --job 3
A,RC,N,DAY,3,1,2024-01-01,,08.00,0,18.00
/*
define predecessors --job 4
A,A
/*
ltp-create --from 2024-01-01 --to 2026-12-31 --job 5
"""
        path = plans.of_stream(text)
        ran = plans.plan("why", path, "A", "2026-12-31/08.00")
        self.assertEqual(ran.returncode, 0)
        self.assertIn("It waits for 1095 that are not complete:", ran.stdout)
        self.assertLess(ran.stdout.count("\n"), why.MOST_LINES + 12)
        self.assertLessEqual(max(map(len, ran.stdout.split("\n"))), 130)
        self.assertIn("A 2024-01-01 08.00  planned", ran.stdout)
        ran = plans.plan("why", path, "A", "2026-12-31/08.00", "--all")
        self.assertEqual(len(set(re.findall(r"serial ([0-9]+)", ran.stdout))), 1096)


if __name__ == "__main__":
    unittest.main()
