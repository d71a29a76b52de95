"""Thirty days with the files that docs/use/INSTALL.md prints: a healthy plan calls nobody."""

import re
import tempfile
import unittest
from pathlib import Path

from support import desks
from support.nights import centre, night
from support.nights.world import CLOSE, QUIET

from opcplan.rules import moments

FIRST = "2026-01-01"
BEGIN, DAYS = 7 * 60, 30  # when the plan is made, by its first day, and how many days follow after two
AT_CLOSE = (2,)  # the day on which the watch looks before and after each step


def shown(heard):
    """A line for each call."""
    return [f"{moments.moment_text(one.minute)} {one.values['kind']}: {one.values['text']}" for one in heard]


@unittest.skipIf(desks.why_not(), desks.why_not())
class Healthy(unittest.TestCase):
    def setUp(self):
        folder = tempfile.TemporaryDirectory(prefix="nights-", dir=desks.IN_MEMORY)
        self.addCleanup(folder.cleanup)
        self.room = Path(folder.name) / "room"

    def test_thirty_healthy_days_call_nobody(self):
        first = moments.day_of(FIRST)
        world = night.first_day(self.room, first, BEGIN)
        self.addCleanup(world.close)
        for day in range(DAYS + 2):
            world.pace = CLOSE if day in AT_CLOSE else QUIET
            world.run_to((first + day + 1) * moments.DAY + BEGIN)
        print(f"{DAYS} days: {world.looks:,} looks, {len(world.heard)} calls")
        self.assertEqual(shown(world.heard), [])
        self.check_runs(world)

    def check_runs(self, world):
        """Each job ran once each day, HELLO from the first day on, and the others from the next; and `roll` ran each
        day."""
        self.assertEqual(len(world.rolls), 1 + DAYS + 2)
        self.assertEqual({status for _, status, _ in world.rolls}, {0}, world.rolls)
        said = world.said.getvalue()
        for app, found in centre.APPS.items():
            days = DAYS + 1 + (moments.minute_of(found.arrives) < BEGIN) + (app == centre.HELLO)
            self.assertEqual(len(re.findall(f"agent: {app} .*: ended: status 0; it is complete", said)), days, app)


if __name__ == "__main__":
    unittest.main()
