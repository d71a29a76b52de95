"""Which occurrence somebody means: all texts over a small plan, and what is said if none or several fit."""

import itertools
import unittest

from support import act_worlds

from opcplan.acts import resolver
from opcplan.acts.resolver import Meant, Resolved, UnknownForm
from opcplan.acts.world import World
from opcplan.rules import moments

PLAN = """define periods --job 1
DAY,A,2024-01-01,1
/*
define applications --job 2
PAY,A,
BANK,A,
NEVER,A,
/*
define run-cycles --job 3
PAY,R,N,DAY,3,1,2024-01-01,,06.00,0,22.00
PAY,S,N,DAY,3,1,2024-01-01,,18.00,0,22.00
BANK,R,N,DAY,3,1,2024-01-02,,18.00,0,22.00
/*
ltp-create --from 2024-01-01 --to 2024-01-04 --job 4
dp-extend --to 2024-01-02/00.00 --job 5
cp-start --app PAY --ia 2024-01-01/06.00 --job 6
cp-complete --app PAY --ia 2024-01-01/06.00 --job 7
dp-extend --to 2024-01-03/00.00 --job 8
cp-start --app PAY --ia 2024-01-01/18.00 --job 9
cp-fail --app PAY --ia 2024-01-01/18.00 --job 10
ltp-delete --app PAY --ia 2024-01-04/06.00 --job 11
"""
GROUPS = ("WSEC", "L", "H", "Dowp")


def moment(text):
    return moments.moment_of(text)


class Forms(unittest.TestCase):
    def test_what_is_typed(self):
        day, minute = moments.day_of("2024-01-05"), 6 * 60
        for texts, wanted in (
            (("PAY", "pay", "  PAY "), Meant(None, "PAY")),
            (("PAY 2024-01-05", "pay  2024-01-05", "PAY 05.01.2024"), Meant(None, "PAY", day)),
            (("PAY 06.00", "PAY 06:00"), Meant(None, "PAY", None, minute)),
            (("PAY 2024-01-05/06.00", "PAY 2024-01-05 06.00", "PAY 2024-01-05T06:00"), Meant(None, "PAY", day, minute)),
            (("17", "#17", "serial 17", "000000017"), Meant(17)),
        ):
            for text in texts:
                self.assertEqual(resolver.read(text), wanted, text)
                self.assertEqual(resolver.read(text.split(" ")), wanted, text)
                self.assertEqual(resolver.read(resolver.read(text).text), wanted, text)

    def test_what_is_none(self):
        for text in ("", "0", "P Y", "PAY 2024-13-01", "PAY 25.00", "PAY now", "PAY 2024-01-05/24.00", "1234567890",
                     "A" * 17, "PAY 6.00 x", "#0", "#12a", "serial"):
            with self.assertRaises(UnknownForm, msg=text):
                resolver.read(text)


class Rows(unittest.TestCase):
    def setUp(self):
        self.source = act_worlds.Source(PLAN)
        self.world = World(self.source)

    def test_all_texts_take_the_first_group_that_has_a_row(self):
        """By the sentence of the module, over every application, day, minute and order of groups."""
        rows = sorted(self.source.found.values(), key=lambda row: (row.ia, row.serial))
        days = [None, *(moments.day_of(f"2024-01-0{day}") for day in range(1, 6))]
        minutes, seen = (None, 360, 1080, 361), set()
        for groups in (*itertools.permutations(GROUPS), ("W",), ("E", "C"), ("S",)):
            for app, day, minute in itertools.product(("PAY", "BANK", "NEVER", "NONE"), days, minutes):
                found = resolver.resolve(self.world, Meant(None, app, day, minute), groups)
                named = [row for row in rows if row.app == app and day in (None, row.ia // 1440)
                         and minute in (None, row.ia % 1440)]
                wanted = next((fit for group in groups if (fit := [row for row in named if row.place in group])), [])
                seen.add(min(len(wanted), 2))
                if len(wanted) == 1:
                    self.assertEqual(found, Resolved(wanted[0]))
                elif wanted:
                    self.assertEqual(found, Resolved(several=tuple(wanted)))
                else:
                    self.assertIsNone(found.row)
                    self.assertTrue(found.why and not found.several)
        self.assertEqual(seen, {0, 1, 2})
        for row in rows:
            self.assertEqual(resolver.resolve(self.world, Meant(row.serial)).row, row)

    def test_none_names_the_nearest(self):
        found = resolver.resolve(self.world, resolver.read("PAY 2024-01-02/09.00"))
        self.assertEqual((found.before.ia, found.after.ia), (moment("2024-01-02/06.00"), moment("2024-01-02/18.00")))
        self.assertEqual(found.why, "No run of PAY arrives then: the last before it is 2024-01-02 06.00, the next "
                         "after it is 2024-01-02 18.00.")
        found = resolver.resolve(self.world, resolver.read("BANK 2024-01-01"))
        self.assertEqual((found.before, found.after.ia), (None, moment("2024-01-02/18.00")))
        self.assertIn("isn't defined (did you mean PAY?)", resolver.resolve(self.world, Meant(None, "PAX")).why)
        self.assertIn("has no run in the plan", resolver.resolve(self.world, Meant(None, "NEVER")).why)
        self.assertIn("No occurrence has the serial 99: the last one is", resolver.resolve(self.world, Meant(99)).why)
        self.assertEqual(resolver.resolve(self.world, resolver.read("PAY 2024-01-01/18.00"), ("W",)).why,
                         "PAY 2024-01-01 18.00 ended in error, in the current plan.")

    def test_several_are_a_numbered_list(self):
        found = resolver.resolve(self.world, resolver.read("PAY"), ("WE",))
        lines = resolver.lines_of(found)
        self.assertEqual([line.split("  ")[:2] for line in lines], [
            ["1", "PAY 2024-01-01 18.00"], ["2", "PAY 2024-01-02 06.00"], ["3", "PAY 2024-01-02 18.00"]])
        many = Resolved(several=tuple(found.several[0]._replace(serial=number) for number in range(50)))
        self.assertEqual(resolver.lines_of(many)[-1], "and 30 more: name the day, as PAY DAY")


if __name__ == "__main__":
    unittest.main()
