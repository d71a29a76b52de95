"""How a plan is extended by itself: over all small plans and rules, and over random ones, each statement is one that
the plain planner accepts, all that is due is done, and nothing else."""

import calendar
import datetime
import itertools
import random
import unittest

from support import plans

from opcplan.rules import rolling
from opcplan.rules.rolling import Reach, Rule

DAY = 1440
MONDAY = 19723  # 2024-01-01
LAST = (datetime.date(2065, 12, 31) - datetime.date(1970, 1, 1)).days


def wanted_end(reach, rule, now):
    """The first minute, counted one by one, at which a daily plan may end and that is far enough ahead."""
    if reach.end >= now + rule.ahead:
        return reach.end
    times = rule.times or (reach.end % DAY,)
    return next(moment for moment in itertools.count(now + rule.ahead) if moment % DAY in times)


def is_month_end(day):
    date = datetime.date(1970, 1, 1) + datetime.timedelta(days=day)
    return date.day == calendar.monthrange(date.year, date.month)[1]


class Rolling(unittest.TestCase):
    def check(self, reach, rule, now):
        """Asks all of what is done of a plan; how many statements there are."""
        end, before, count = wanted_end(reach, rule, now), reach, 0
        left = max(rule.reserve, 0)
        for step in rolling.steps(reach, rule, now):
            to, after = step.text.split(" --to ")[1], step.reach
            if step.is_daily:
                self.assertEqual(step.text, f"dp-extend --to {plans.plain.moment_text(after.end, '/')}")
                self.assertLess(before.end, after.end)
                most = min(before.end + reach.most_hours * 60, (before.last_day + 1) * DAY, end)
                self.assertLessEqual(after.end, most)
                self.assertEqual(after.last_day, before.last_day)
            else:
                self.assertEqual(step.text, f"ltp-extend --to {to}")
                self.assertEqual(plans.plain.day_text(after.last_day), to)
                self.assertLess(before.last_day, after.last_day)
                self.assertLessEqual(after.last_day, min(before.end // DAY + 1461, LAST))
                self.assertEqual(after.end, before.end)
            before, count = after, count + 1
        if count:
            self.assertTrue(rolling.is_due(reach, rule, now))
        least = max(now // DAY + left - 1, (end - 1) // DAY)
        if least <= LAST and end // DAY + 1461 >= least:
            self.assertEqual(before.end, end)
            self.assertGreaterEqual(before.last_day, least)
            self.assertFalse(rolling.is_due(before, rule, now))
            if before.last_day != reach.last_day:
                self.assertTrue(is_month_end(before.last_day))
                self.assertLess(reach.last_day, least)
                self.assertLess(before.last_day - 31, least)
        self.assertEqual(list(rolling.steps(before, rule, now)), [])
        return count

    def test_all_small_plans(self):
        """Ends, days that are left, hours of one extension, rules and moments, each in all its small values."""
        counts = set()
        for end, days, hours, ahead, times, reserve, now in itertools.product(
            (0, 360, DAY, DAY + 360), (0, 1, 3, 70), (1, 6, 24, 504), (0, 60, DAY, 3 * DAY),
            ((), (360,), (360, 1080)), (0, 1, 60), (-300, 0, 359, 361, DAY + 1, 9 * DAY),
        ):
            first = MONDAY * DAY
            reach = Reach(first + end, MONDAY + end // DAY + days, hours)
            counts.add(min(self.check(reach, Rule(ahead, times, reserve), first + now), 9))
        self.assertEqual(counts, set(range(10)))

    def test_plans_at_random(self):
        for seed in range(1500):
            rng = random.Random(seed)
            end = rng.randrange(5000, LAST + 1) * DAY + rng.choice([0, 0, 360, rng.randrange(DAY)])
            last = min(LAST, (end - 1) // DAY + rng.choice([0, 1, rng.randrange(100), rng.randrange(1400)]))
            rule = Rule(rng.choice([0, DAY, rng.randrange(60 * DAY)]),
                        tuple(sorted({rng.randrange(DAY) for _ in range(rng.randrange(4))})),
                        rng.choice([0, 60, rng.randrange(1000)]))
            now = end + rng.choice([0, -DAY, rng.randrange(-5 * DAY, 5 * DAY)])
            with self.subTest(seed):
                self.check(Reach(min(end, (last + 1) * DAY), last, rng.choice([24, 504, rng.randrange(20, 505)])), rule,
                           now)

    def test_the_plain_planner_accepts_each_statement(self):
        """It has to come to the end that the steps say, from plans that were left to themselves for some days."""
        for seed in range(40):
            rng = random.Random(seed)
            planner = plans.plain.Planner()
            hours = rng.choice([1, 7, 24, 504])
            last = rng.randrange(1, 29)
            text = (f"define options --job 1\nmax_extension_hours = {hours}\n/*\n"
                    f"ltp-create --from 2024-02-01 --to 2024-02-{last:02} --job 2\n")
            self.assertTrue(all(line.startswith("ok") for line in plans.plain.run(text.encode(), planner)))
            first, end = planner.bounds[0] * DAY, planner.bounds[2]
            rule = Rule(rng.choice([0, DAY, 3 * DAY]), rng.choice([(), (360,), (360, 1080)]), rng.choice([0, 20, 60]))
            reach, now = Reach(end, planner.bounds[1], hours), first + rng.randrange(5 * DAY)
            done = list(rolling.steps(reach, rule, now))
            stream = "".join(f"{step.text} --job {number}\n" for number, step in enumerate(done, 10))
            answers = plans.plain.run(stream.encode(), planner)
            self.assertTrue(all(line.startswith("ok") for line in answers), (seed, stream, answers))
            self.assertEqual(planner.bounds[2], wanted_end(reach, rule, now))
            self.assertEqual(planner.bounds[1:], (done[-1].reach.last_day, done[-1].reach.end) if done else
                             (reach.last_day, reach.end))


if __name__ == "__main__":
    unittest.main()
