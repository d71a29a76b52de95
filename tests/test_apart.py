"""Which changes of others have nothing to do with a stream: each pair of statements on occurrences of a small plan, in
each of some states, by the plain planner. Of two that are apart each does the same, whichever comes first. What says
so of more pairs has to be caught."""

import itertools
import unittest

from support import plans

from opcplan.rules import apart

DAYS = "2024-01-01", "2024-01-02"
APPS = "A", "B", "C", "D"
# B waits for A, C for B and for its own occurrence before; D waits for nothing, and nothing for it
LINKS = (("B", "A"), ("C", "B"), ("C", "C"))
PLAN = "\n".join([
    "define periods --job 1", "DAY,A,2024-01-01,1", "/*", "define applications --job 2", *(f"{app},A," for app in APPS),
    "/*", "define run-cycles --job 3", *(f"{app},RC,N,DAY,1,1,2024-01-01,,08.0{place},0,20.00"
                                         for place, app in enumerate(APPS)), "/*",
    "define predecessors --job 4", *map(",".join, LINKS), "/*", "ltp-create --from 2024-01-01 --to 2024-01-05 --job 5",
    "dp-extend --to 2024-01-03/00.00 --job 6", ""])
STATES = ("", "cp-start --app A --ia 2024-01-01/08.00", "cp-start --app A --ia 2024-01-01/08.00\n"
          "cp-complete --app A --ia 2024-01-01/08.00\ncp-start --app B --ia 2024-01-01/08.01\n"
          "cp-start --app D --ia 2024-01-01/08.03\ncp-fail --app D --ia 2024-01-01/08.03")
LOOK = b"list cp\nlist history\nlist deletions\nlist dependencies\n"


def statements(apps=APPS):
    """Statements on each occurrence of the first day, on one of the next day, and on one that isn't there yet."""
    for place, app in enumerate(APPS):
        if app in apps:
            for name, ia in itertools.product(sorted(apart.ON_ONE), (
                    f"{DAYS[0]}/08.0{place}", f"{DAYS[0]}/12.00", f"{DAYS[1]}/08.0{place}")):
                yield f"{name} --app {app} --ia {ia}"


def run(planner, line, job):
    """The reply to a line, without the serial of an occurrence that it makes."""
    reply = plans.plain.run(f"{line} --job {job}\n".encode(), planner)[-1]
    return reply if "status" in reply or not reply.startswith("ok serial") else "ok"


def shown(planner):
    """The rows of a plan, without serials."""
    return {" ".join(word for word in row.split() if not (len(word) == 9 and word.isdigit()))
            for row in plans.plain.run(LOOK, planner) if not row.startswith("ok rows")}


class Pairs(unittest.TestCase):
    def first_wrong(self, are_apart):
        """The first pair of statements that are apart, and not the same in both orders; and how many pairs are
        apart."""
        count = 0
        for state in STATES:
            begin = plans.planner_of(PLAN.encode()).copy()
            plans.plain.run("".join(f"{line} --job {job}\n" for job, line in enumerate(state.split("\n"), 50)
                                    if line).encode(), begin)
            rows, alone = shown(begin), {}
            for line in statements():
                planner = begin.copy()
                alone[line] = run(planner, line, 90), shown(planner), planner
            for first, second in itertools.permutations(alone, 2):
                if alone[first][1] == rows or not are_apart(apart.on_one(first), apart.on_one(second)):
                    continue  # what is refused changes nothing
                count += 1
                planner = alone[first][2].copy()
                reply, before = run(planner, second, 91), alone[first][1]
                after = shown(planner)
                if reply != alone[second][0] or (after - before, before - after) != (
                        alone[second][1] - rows, rows - alone[second][1]):
                    return f"{second} behind {first}", count
        return "", count

    def test_each_does_the_same_whichever_comes_first(self):
        wrong, count = self.first_wrong(apart.Apart((), LINKS).are_apart)
        self.assertEqual(wrong, "")
        self.assertGreater(count, 1000)

    def test_less_is_not_enough(self):
        rule = apart.Apart((), LINKS).are_apart
        for name, mutant in (
            ("linked applications", lambda one, other: one.app != other.app),
            ("its own predecessor", lambda one, other: one.app == other.app == "C" and one.ia != other.ia),
            ("one occurrence", lambda one, other: rule(one, other._replace(app="A")) and one.app == other.app == "D"),
            ("two new ones", lambda one, other: one.app == other.app == "A" and one.ia != other.ia),
        ):
            self.assertNotEqual(self.first_wrong(mutant)[0], "", name)


class Streams(unittest.TestCase):
    def test_what_is_near_a_stream(self):
        near = apart.Apart(["cp-start --app B --ia 2024-01-01/08.01 --job 7", "cp-add --app=D --ia=2024-01-01/09.00"],
                           LINKS)
        for line, wanted in (
            ("cp-start --app A --ia 2024-01-01/08.00", False), ("cp-start --app C --ia 2024-01-01/08.00", False),
            ("cp-start --app B --ia 2024-01-02/08.01", True), ("cp-add --app B --ia 2024-01-02/08.01", True),
            ("cp-start --app B --ia 2024-01-01/08.01", False), ("cp-add --app D --ia 2024-01-01/09.01", True),
            ("cp-start --app E --ia 2024-01-01/08.04 --job 500000001", True), ("define applications", False),
            ("ltp-add --app E --ia 2024-01-01/08.04", False), ("dp-extend --days 1", False), ("cp-start --app", False),
            ("", False),
        ):
            self.assertEqual(near.is_apart(line), wanted, line)
        for other in ("dp-extend --days 1", "define applications", "ltp-add --app D --ia 2024-01-01/08.04"):
            self.assertFalse(apart.Apart([other], LINKS).is_apart("cp-start --app E --ia 2024-01-01/08.04"))
        self.assertTrue(apart.Apart([], LINKS).is_apart("cp-start --app E --ia 2024-01-01/08.04"))


if __name__ == "__main__":
    unittest.main()
