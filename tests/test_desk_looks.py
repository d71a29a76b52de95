"""A look at a plan that a desk has: its states between statements are kept as sound, and its last one, so that nobody
checks the file again; what somebody else writes is seen."""

import os
import shutil
import sqlite3
import time
import unittest
from pathlib import Path
from unittest import mock

from support import desks, plans

from opcplan.errors import Unreadable
from opcplan.plans import own_runs, plan_file, sound_rows

OPTIONS = "define options --job 9000{0}\nmax_extension_hours = {0}\n/*"


@unittest.skipIf(desks.why_not(), desks.why_not())
class Looks(desks.Case):
    def setUp(self):
        super().setUp()
        cache = Path(self.room) / "cache"
        cache.mkdir(0o700)
        patched = mock.patch.dict(os.environ, XDG_CACHE_HOME=str(cache))
        patched.start()
        self.addCleanup(patched.stop)

    def kept_within(self, seconds):
        """Whether the plan is in a state that is kept as sound, before so many seconds are over."""
        until = time.monotonic() + seconds
        while plan_file.kept_state(os.path.realpath(self.plan)) is None:
            if time.monotonic() > until:
                return False
            time.sleep(0.05)
        return True

    def hours(self):
        """What a look at the file shows, which checks nothing."""
        with mock.patch.object(sound_rows, "asked", side_effect=AssertionError("it was checked")):
            return plan_file.answer(self.plan, lambda plan: plan.meta["max_hours"])

    @unittest.skipUnless(plans.PROGRAM.exists() and own_runs.is_own(str(plans.PROGRAM)), "another program is tried")
    def test_states_of_a_desk_are_kept(self):
        own_runs.settled(str(self.plan))
        with plan_file.opened(self.plan):
            pass
        desk = self.desk()
        for hours in (31, 32):
            self.assertEqual(desk.posted(OPTIONS.format(hours))[0], 200)
            self.assertTrue(self.kept_within(desks.ANSWER))
            self.assertEqual(self.hours(), hours)
        self.end(desk)
        self.assertTrue(self.kept_within(0))
        self.assertEqual(self.hours(), 32)
        self.assertFalse(plan_file.state_of(os.path.realpath(self.plan)).has_log)

    @unittest.skipUnless(plans.PROGRAM.exists() and own_runs.is_own(str(plans.PROGRAM)), "another program is tried")
    def test_what_somebody_else_writes_beside_a_desk_is_seen(self):
        own_runs.settled(str(self.plan))
        with plan_file.opened(self.plan):
            pass
        desk = self.desk()
        self.assertEqual(desk.posted(OPTIONS.format(31))[0], 200)
        self.assertTrue(self.kept_within(desks.ANSWER))
        other = self.room / "other.db"
        shutil.copyfile(self.plan, other)
        with sqlite3.connect(other) as db:
            db.execute("UPDATE cp_row SET status = 'X' WHERE serial = (SELECT min(serial) FROM cp_row)")
        db.close()
        seen, changed = os.stat(self.plan), other.read_bytes()
        with open(self.plan, "r+b") as file:
            file.write(changed)
        os.utime(self.plan, ns=(seen.st_atime_ns, seen.st_mtime_ns))
        self.assertFalse(self.kept_within(0))
        desk.posted(OPTIONS.format(32))
        self.assertFalse(self.kept_within(2))
        with self.assertRaises(Unreadable), plan_file.opened(self.plan):
            self.fail("it was opened")
        self.end(desk)
        self.assertFalse(self.kept_within(0.5))


if __name__ == "__main__":
    unittest.main()
