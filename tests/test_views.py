"""plans/views.sql: the views over worked streams' plans, against tools/reference/plain_planner.py and ./plan's own
words."""

import shutil
import subprocess
import tempfile
import time
import unittest
from contextlib import closing
from pathlib import Path

from support import plans

from opcplan.plans import plan_file, waits
import sqlite3


plain = plans.plain
VIEWS = plans.TOP / "python" / "opcplan" / "plans" / "views.sql"
STREAMS = ["each-list", "week-of-daily-plans", "statuses-listed", "each-status-under-each-action",
           "carried-over-five-days", "two-hundred-statements", "pairs-listed"]
WORDS = {"L": "planned", "S": "started", "E": "in error", "C": "complete", "H": "complete", "w": "withdrawn"}
DEEP = b"""define periods --job 1
DAY,A,2024-01-01,1
/*
define applications --job 2
A,A,
B,A,
C,A,
D,A,
/*
define run-cycles --job 3
A,RC,N,DAY,3,1,2024-01-01,,06.00,0,07.00
B,RC,N,DAY,3,1,2024-01-01,,07.00,0,08.00
C,RC,N,DAY,3,1,2024-01-01,,08.00,0,09.00
D,RC,N,DAY,3,1,2024-01-01,,09.00,0,08.30
/*
define predecessors --job 4
B,A
C,A
D,B
D,C
D,D
/*
ltp-create --from 2024-01-01 --to 2024-01-04 --job 5
dp-extend --to 2024-01-03/00.00 --job 6
cp-start --app A --ia 2024-01-01/06.00 --job 7
cp-fail --app A --ia 2024-01-01/06.00 --job 8
cp-start --app A --ia 2024-01-02/06.00 --job 9
cp-complete --app A --ia 2024-01-02/06.00 --job 10
"""


def asked(file, query, now):
    """The rows of a query over the views as of a moment, from a copy of the plan."""
    with closing(sqlite3.connect(file)) as db:
        db.executescript(VIEWS.read_text(encoding="utf-8"))
        db.execute("UPDATE clock SET now = ?", [now])
        return db.execute(query).fetchall()


def every_row(planner):
    """Each row with the set that it stands in and the letter of its place."""
    for row in planner.planned.values():
        yield row, "long-term plan", "L"
    for row, status in planner.current.values():
        yield row, "current plan", status
    for row in planner.history.values():
        yield row, "history", "H"
    for row, reason in planner.deleted.values():
        yield row, "deletions", reason.lower()


class Expected:
    """What the views have to show of what a plain planner knows, as of a moment."""

    def __init__(self, planner, now):
        self.rows = {row[0]: (row, held, place) for row, held, place in every_row(planner)}
        self.now, self.waits = now, {}
        for first, last in planner.pairs:
            if self.rows[first][2] in "WL" and self.rows[last][2] not in "CH":
                self.waits.setdefault(first, set()).add(last)

    def state(self, serial):
        row, _, place = self.rows[serial]
        if place == "W":
            return "its time is to come" if row[2] > self.now else "blocked" if serial in self.waits else "ready"
        return WORDS.get(place, "deleted")

    def readable(self):
        return {(serial, row[1], plain.moment_text(row[2]), plain.moment_text(row[3]), held, self.state(serial),
                 row[4] or "by hand") for serial, (row, held, _) in self.rows.items()}

    def late(self):
        late = sorted((row[3], row[1], serial) for serial, (row, _, place) in self.rows.items()
                      if place in "WSE" and row[3] < self.now)
        return [(serial, self.state(serial), self.now - due) for due, _, serial in late]

    def chain(self, serial):
        found, left = set(), [serial]
        while left:
            more = self.waits.get(left.pop(), set()) - found
            found |= more
            left += more
        return found

    def why(self):
        found = {}
        for serial, (_, _, place) in self.rows.items():
            if place in "LWSE":
                chain = self.chain(serial)
                ends = sorted((self.rows[end][0] for end in chain if end not in self.waits), key=plain.in_lists)
                seen = [f"{row[1]} {plain.moment_text(row[2])} {self.state(row[0])}" for row in ends]
                found[serial] = (self.state(serial), len(chain), "; ".join(seen) or None)
        return found


class Views(unittest.TestCase):
    def setUp(self):
        room = tempfile.TemporaryDirectory(prefix="views-")
        self.addCleanup(room.cleanup)
        self.room = Path(room.name)

    def plans_and_moments(self):
        """The copy of each plan, with what has to be shown at some moments of it."""
        texts = [plans.stream(name) for name in STREAMS] + [DEEP]
        for text in texts:
            planner, file = plans.planner_of(text), plans.copy_of(plans.of_stream(text), self.room)
            first, last, end = planner.bounds
            dues = sorted(row[3] for row, _ in planner.current.values())
            for now in {first * 1440, end, end - 600, last * 1440, *dues[:1], *(due + 1 for due in dues[-1:])}:
                yield file, Expected(planner, now)

    def test_readable_shows_each_occurrence(self):
        for file, expected in self.plans_and_moments():
            shown = asked(file, "SELECT * FROM readable", expected.now)
            self.assertEqual(set(shown), expected.readable())
            self.assertEqual(len(shown), len(expected.rows))

    def test_late_shows_what_is_past_its_deadline(self):
        found = 0
        for file, expected in self.plans_and_moments():
            shown = asked(file, "SELECT serial, state, minutes_late FROM late", expected.now)
            self.assertEqual(shown, expected.late())
            found += len(shown)
        self.assertGreater(found, 10)

    def test_blocked_by_shows_one_step(self):
        for file, expected in self.plans_and_moments():
            query = "SELECT serial, its_serial, its_state, waits_for, its_arrival, application, arrives FROM blocked_by"
            wanted = set()
            for first, others in expected.waits.items():
                for last in others:
                    (_, app, arrival, *_), (_, other, its_arrival, *_) = expected.rows[first][0], expected.rows[last][0]
                    wanted.add((first, last, expected.state(last), other, plain.moment_text(its_arrival), app,
                                plain.moment_text(arrival)))
            self.assertEqual(set(asked(file, query, expected.now)), wanted)

    def test_why_goes_down_to_what_waits_for_nothing(self):
        deepest = 0
        for file, expected in self.plans_and_moments():
            shown = asked(file, "SELECT serial, state, waits_for, down_to FROM why", expected.now)
            self.assertEqual({serial: tuple(rest) for serial, *rest in shown}, expected.why())
            deepest = max(deepest, *(row[2] for row in shown), 0)
        self.assertGreater(deepest, 3)

    def test_views_say_what_the_commands_say(self):
        for file, expected in self.plans_and_moments():
            states = dict(asked(file, "SELECT serial, state FROM readable", expected.now))
            late = {serial for (serial,) in asked(file, "SELECT serial FROM late", expected.now)}
            with plan_file.opened(file) as plan:
                for row in waits.rows_where(plan, "1 = 1"):
                    is_blocked = bool(waits.open_predecessors(plan, row.serial))
                    self.assertEqual(states[row.serial], waits.state(row, is_blocked, expected.now), row)
                    self.assertEqual(row.serial in late, waits.is_late(row, expected.now), row)

    @unittest.skipUnless(shutil.which("sqlite3"), "there is no sqlite3 here")
    def test_stock_shell_reads_them_and_leaves_the_file(self):
        file = plans.copy_of(plans.of_stream(DEEP), self.room)
        with closing(sqlite3.connect(file)) as db:
            db.execute("PRAGMA wal_checkpoint(TRUNCATE)")
        before = file.read_bytes()
        query = "UPDATE clock SET now = strftime('%s', '2024-01-01 09:00') / 60; SELECT application, arrives FROM late"
        words = ["sqlite3", file, "-init", VIEWS, query]
        ran = subprocess.run(words, capture_output=True, encoding="utf-8", check=False)
        self.assertEqual(ran.stdout, "A|2024-01-01 06.00\nB|2024-01-01 07.00\nD|2024-01-01 09.00\n")
        self.assertEqual(ran.returncode, 0)
        self.assertEqual(file.read_bytes(), before)

    def test_clock_is_the_local_one(self):
        file = plans.copy_of(plans.of_stream(DEEP), self.room)
        with closing(sqlite3.connect(file)) as db:
            db.executescript(VIEWS.read_text(encoding="utf-8"))
            (now,) = db.execute("SELECT now FROM clock").fetchone()
        local = time.localtime()
        day = plain.number_of(local.tm_year, local.tm_mon, local.tm_mday)
        self.assertLessEqual(day * 1440 + local.tm_hour * 60 + local.tm_min - now, 1)


if __name__ == "__main__":
    unittest.main()
