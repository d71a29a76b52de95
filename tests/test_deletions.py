"""A planning statement doesn't make a key again that an operator deleted, however often FILE is opened in between: each
answer is that of tools/reference/plain_planner.py."""

import functools
import itertools
import tempfile
import unittest
from pathlib import Path

from support import expected, plans

DEFINED = b"""define calendars --job 1
DEFAULT,SAT,FREE
DEFAULT,SUN,FREE
/*
define periods --job 2
DAY,A,2024-01-01,1
/*
define applications --job 3
A,A,
B,A,
C,A,
/*
define run-cycles --job 4
A,RC,N,DAY,4,1,2024-01-01,,08.00,0,18.00
B,RC,N,DAY,4,1,2024-01-01,,09.00,0,18.00
C,RC,N,DAY,4,1,2024-01-01,,10.00,0,18.00
/*
define predecessors --job 5
B,A
/*
"""
# the plan end moves past some of the deletions, rows of one key are deleted twice, and a deleted key is added by hand
STATEMENTS = b"""ltp-create --from 2024-01-01 --to 2024-01-12 --job 6
ltp-delete --app A --ia 2024-01-03/08.00 --job 7
ltp-delete --app B --ia 2024-01-05/09.00 --job 8
ltp-modify-all --job 9
list ltp
dp-extend --to 2024-01-03/00.00 --job 10
ltp-modify-one --app A --job 11
list deletions
ltp-delete --app C --ia 2024-01-08/10.00 --job 12
ltp-delete --app C --ia 2024-01-04/10.00 --job 13
ltp-extend --to 2024-01-16 --job 14
ltp-extend --to 2024-01-16 --job 15
list ltp
dp-extend --to 2024-01-05/00.00 --job 16
ltp-add --app C --ia 2024-01-08/10.00 --job 17
ltp-modify-all --job 18
ltp-delete --app C --ia 2024-01-08/10.00 --job 19
ltp-modify-all --job 20
list ltp
list cp
list deletions
list dependencies
dp-extend --to 2024-01-06/00.00 --job 21
ltp-modify-all --job 22
list ltp
list deletions
"""


# the definitions, and each statement
ITEMS = [DEFINED, *STATEMENTS.splitlines(keepends=True)]


@functools.cache
def answers() -> list[list[str]]:
    """What the plain planner answers to each item, after those before it."""
    planner = plans.plain.Planner()
    return [plans.plain.run(item, planner) for item in ITEMS]


class TestDeletions(unittest.TestCase):
    """Runs over one file, and the plain planner over the same statements."""

    def assert_as_plain(self, *places: int) -> None:
        """The items between these places, each in a run of its own, have the answers of the plain planner."""
        with tempfile.TemporaryDirectory(prefix="deletions-") as folder:
            path = Path(folder) / "plan.db"
            for begin, end in itertools.pairwise([0, *places, len(ITEMS)]):
                found, status, said = expected.asked(path, b"".join(ITEMS[begin:end]))
                self.assertEqual((found, begin), (sum(answers()[begin:end], []), begin))
                self.assertIn(status, (0, 4), said)

    def test_each_statement_in_a_run_of_its_own(self) -> None:
        """FILE is opened before each statement, so what it needs of the deletions comes from there."""
        self.assert_as_plain(*range(1, len(ITEMS)))

    def test_all_in_one_run(self) -> None:
        """FILE is opened once, before there is a plan."""
        self.assert_as_plain()

    def test_some_in_each_run(self) -> None:
        """FILE is opened at each place of the stream once, and the rest goes on from there."""
        for place in range(2, len(ITEMS)):
            with self.subTest(place=place):
                self.assert_as_plain(place)


if __name__ == "__main__":
    unittest.main()
