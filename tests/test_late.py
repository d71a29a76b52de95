"""./plan late: what is late at a moment and what holds it up, by the plain planner; and ./plan next-job."""

import re
import shutil
import sqlite3
import tempfile
import unittest
from contextlib import closing

from support import plans
from support.plans import plain

from opcplan.cli import words as module_words
from opcplan.commands import late
from opcplan.plans import plan_file, row_model, waits
from opcplan.rules import moments


NAMES = """week-of-daily-plans batch-through-all-sets statuses-carried carried-over-five-days predecessor-fails-and-goes
    added-before-between-and-after statuses-refused""".split()


def texts():
    """Worked streams, each whole and cut behind two thirds of its lines."""
    for name in NAMES:
        lines = plans.stream(name).split(b"\n")
        yield name, plans.stream(name)
        yield name, b"\n".join(lines[: len(lines) * 2 // 3]) + b"\n"


def lines_at(plan, now):
    """What is printed of a plan at a moment."""
    found = []
    for rows, pairs in (waits.late_with_waits(plan, now), waits.unfinished(plan)):
        model = row_model.of_waits(rows, pairs, now)
        places = late.in_order(rows, model)
        found.append(late.late_lines(rows, model, places, plain.moment_text(now), now) if places else [])
    assert found[0] == found[1], "what is late and what it waits for is enough"
    return found[0]


class Late(unittest.TestCase):
    def test_what_is_late_at_each_deadline(self):
        seen = set()
        for name, text in texts():
            planner = plans.planner_of(text)
            with plan_file.opened(plans.of_stream(text)) as plan:
                dues = sorted({row[3] for row, _ in planner.current.values()})
                for now in {due + more for due in dues[:: max(1, len(dues) // 8)] for more in (0, 1)}:
                    with self.subTest(name, now=plain.moment_text(now)):
                        seen |= self.check(planner, lines_at(plan, now), now)
        found = {"nothing", "late", "added by hand", "waits for", "wait for", "in error", "started", "ready",
                 "blocked"}
        self.assertEqual(seen, found)

    def check(self, planner, lines, now):
        unfinished = {serial: row for serial, (row, status) in planner.current.items() if status in "WSE"}
        wanted = sorted((row for row in unfinished.values() if row[3] < now), key=lambda row: (row[3], row[2], row[1]))
        if not wanted:
            self.assertEqual(lines, [])
            return {"nothing"}
        count = f"{len(wanted)} {'is' if len(wanted) == 1 else 'are'}"
        self.assertEqual(lines[0], f"{count} late at {plain.moment_text(now)}:")
        parts = [part.split("\n") for part in re.split(r"\n(?=[A-Z0-9@#$])", "\n".join(lines[2:]))]
        serials = [int(part[0].rpartition("serial ")[2]) for part in parts]
        by_serial = {row[0]: row for row in wanted}
        self.assertEqual(sorted(serials), sorted(by_serial))
        groups = groups_of(serials, parts)
        found = {"late"}
        for serial, part in zip(serials, parts):
            found |= self.check_part(planner, unfinished, by_serial[serial], part, now)
        # groups stand in the order of their first rows, as rows of a group do; each cause is told once
        places = [[wanted.index(by_serial[serial]) for serial in group] for group, _ in groups]
        self.assertEqual(places, sorted(map(sorted, places)))
        causes = [cause for _, cause in groups if cause]
        self.assertEqual(len(causes), len(set(causes)))
        for group, cause in groups:
            found |= self.check_cause(planner, unfinished, [by_serial[serial] for serial in group], cause)
        return found

    def check_part(self, planner, unfinished, row, part, now):
        serial, app, ia, due, cycle = row
        head, below = part[0], " ".join(part[1:])
        self.assertTrue(head.startswith(f"{app} {plain.moment_text(ia)}  "), head)
        self.assertIn(f"  due {plain.moment_text(due)}  late by ", head)
        length = minutes_of(head.partition("late by ")[2].partition("  ")[0])
        self.assertEqual(length, now - due if now - due < 1440 else (now - due) // 60 * 60)
        status, found, waits = planner.current[serial][1], set(), set()
        if status == "W":
            waits = {last for first, last in planner.pairs if first == serial and last in unfinished}
        state = {"E": "in error", "S": "started"}.get(status) or (
            "its time is to come" if ia > now else "blocked" if waits else "ready")
        self.assertIn(f"  {state} ", head)
        self.assertEqual("added by hand" in below, cycle is None)
        return found | {state} | ({"added by hand"} if cycle is None else set())

    def check_cause(self, planner, unfinished, rows, cause):
        """What some rows wait for, each of them, or nothing where one waits for nothing."""
        for serial, *_ in rows:
            waits = {last for first, last in planner.pairs if first == serial and last in unfinished}
            self.assertEqual(bool(cause), bool(waits) and planner.current[serial][1] == "W")
            if cause:
                roots = {unfinished[root][1:3] for root in self.roots(planner, unfinished, serial)}
                self.assertIn(cause, roots)
        return ({"waits for"} if cause else set()) | ({"wait for"} if cause and len(rows) > 1 else set())

    def roots(self, planner, unfinished, serial):
        """What it waits for and what waits for nothing itself."""
        found, left, seen = set(), [serial], set()
        while left:
            here = left.pop()
            waits = {last for first, last in planner.pairs if first == here and last in unfinished}
            waits = waits if planner.current[here][1] == "W" else set()
            if not waits:
                found.add(here)
            left += waits - seen
            seen |= waits
        return found - {serial}


def groups_of(serials, parts):
    """The serials of the rows that stand together, with the key of what they wait for, or None: it stands below the
    last, with how many they are."""
    groups, left = [], []
    for serial, part in zip(serials, parts):
        left.append(serial)
        said = re.search(r"(?:waits|these ([0-9]+) wait) for ([A-Z0-9@#$]+) ([0-9-]+ [0-9.]+), which is",
                         " ".join(part))
        if said is None:
            continue
        number = int(said[1] or 1)
        groups += [([serial], None) for serial in left[:-number]]
        groups.append((left[-number:], (said[2], moments.moment_of(said[3].replace(" ", "/")))))
        left = []
    return groups + [([serial], None) for serial in left]


def minutes_of(text):
    """The minutes of `3 days 4 h`, `2 h 05 min` or `45 min`."""
    units = {"day": 1440, "days": 1440, "h": 60, "min": 1}
    parts = text.split()
    return sum(int(number) * units[unit] for number, unit in zip(parts[::2], parts[1::2]))


class Command(unittest.TestCase):
    def setUp(self):
        self.room = tempfile.mkdtemp(prefix="late-")
        self.addCleanup(shutil.rmtree, self.room)
        text = plans.stream("monday") + plans.stream("tuesday")
        self.file = plans.copy_of(plans.of_stream(text), self.room)
        self.before = plans.prints(self.file)

    def test_what_is_printed(self):
        ran = plans.plan("late", self.file, "--now", "2024-01-03/08.30")
        self.assertEqual((ran.returncode, ran.stderr), (0, ""))
        self.assertEqual(ran.stdout, """3 are late at 2024-01-03 08.30:

REPORT 2024-01-01 20.00  started  due 2024-01-02 08.00  late by 1 day       serial 2
LEDGER 2024-01-02 18.00  ready    due 2024-01-03 06.00  late by 2 h 30 min  serial 3
REPORT 2024-01-02 20.00  blocked  due 2024-01-03 08.00  late by 30 min      serial 4
    waits for LEDGER 2024-01-02 18.00, which is ready and late
""")
        self.assertEqual(plans.prints(self.file), self.before)

    def test_nothing_is_late(self):
        ran = plans.plan("late", self.file, "--now", "2024-01-02/08.00")
        self.assertEqual((ran.returncode, ran.stdout), (1, "Nothing is late at 2024-01-02 08.00.\n"))

    def test_a_moment_outside_of_the_plan_is_said(self):
        ran = plans.plan("late", self.file)
        self.assertEqual(ran.returncode, 0)
        self.assertIn("the plan goes from 2024-01-01 to 2024-01-31; --now sets the moment", ran.stderr)

    def test_no_plan_yet(self):
        ran = plans.plan("late", plans.of_worked("first-days"))
        self.assertEqual(ran.returncode, 1)
        self.assertIn("there is no long-term plan yet", ran.stderr)

    def test_next_job(self):
        for name in ("first-days", "week-of-daily-plans", "empty-plan", "job-asked-again"):
            used = max(plans.planner_of(plans.stream(name)).jobs, default=0)
            ran = plans.plan("next-job", plans.of_worked(name))
            self.assertEqual((ran.returncode, ran.stderr), (0, ""))
            self.assertEqual(ran.stdout, f"greatest used: {used or 'none'}\nnext: {used + 1}\n")
            self.assertEqual(plans.plan("next-job", plans.of_worked(name), "--short").stdout, f"{used + 1}\n")

    def test_next_job_of_a_plan_without_jobs_and_of_one_without_room(self):
        self.assertEqual(plans.plan("next-job", self.file).returncode, 0)
        self.assertEqual(plans.prints(self.file), self.before)
        with closing(sqlite3.connect(self.file)) as db:
            db.execute("DELETE FROM job")
            db.commit()
        ran = plans.plan("next-job", self.file)
        self.assertEqual((ran.returncode, ran.stdout), (0, "greatest used: none\nnext: 1\n"))
        with closing(sqlite3.connect(self.file)) as db:
            db.execute("INSERT INTO job VALUES (999999999, x'00', 'ok undefined')")
            db.commit()
        ran = plans.plan("next-job", self.file, "--short")
        self.assertEqual((ran.returncode, ran.stdout), (1, ""))
        self.assertIn("999999999, is used", ran.stderr)

    def test_wrong_words_and_files(self):
        for command in ("late", "next-job"):
            for given in ((), (self.file, "more"), (self.file, "--later")):
                ran = plans.plan(command, *given)
                self.assertEqual((ran.returncode, ran.stdout), (2, ""), given)
            for path in (self.file.with_name("none.db"), self.room, plans.DATA / "monday.in"):
                ran = plans.plan(command, path)
                self.assertEqual((ran.returncode, ran.stdout), (1, ""), path)
                self.assertTrue(ran.stderr.startswith(f"plan: {path}: "))
        self.assertEqual(plans.plan("late", self.file, "--now", "2024-01-02").returncode, 2)
        for given in ("today", "yesterday"):
            ran = plans.plan("late", self.file, "--now", given)
            self.assertEqual(ran.returncode, 2)
            self.assertIn(f"`{given}` isn't a day: write it as YYYY-MM-DD", ran.stderr)

    def test_a_minute_is_one_of_today(self):
        for given in ("06.30", "06:30"):
            begin = moments.now() // moments.DAY
            found = module_words.now(given)
            self.assertIn(found - 390, {day * moments.DAY for day in (begin, moments.now() // moments.DAY)})


if __name__ == "__main__":
    unittest.main()
