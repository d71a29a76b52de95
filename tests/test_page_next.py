"""The next run in the card of an application, and the days that the columns of a month open: node runs the scripts of
the page, and the plain planner knows the rows."""

import re
import shutil
import unittest

from support import TOP, page_reader as read, plans
from support.plans import plain

from test_page_needs import drawn

NAMES = ("monday", "week-of-daily-plans", "statuses-carried", "carried-over-five-days", "predecessor-fails-and-goes")
CARD = """
const cards = {};
D.apps.forEach(([title], k) => {
  drawApp(k);
  const said = document.querySelector('#card').all(one => one.tagName === 'p').map(one => one.textContent);
  const before = chosen.length;
  document.querySelector('#card').all(ofClass('in')).find(one => 'data-i' in one.attributes)?.listeners.click();
  cards[title] = { said: said[1], leads: chosen.length > before ? chosen.at(-1) : null };
});
console.log(JSON.stringify(cards));
"""
MONTH = """
const found = [];
months.forEach((first, place) => {
  view.month = place;
  drawMonth(true);
  const grid = document.querySelector('#grid');
  for (const cell of grid.all(one => 'data-day' in one.attributes)) {
    chooseCell({ dataset: { day: cell.attributes['data-day'] } });
    found.push([cell.tagName, +cell.attributes['data-day'], cell.textContent, view.from, view.kind]);
  }
});
console.log(JSON.stringify(found));
"""
# what other parts of the page define
STUBS = "const close = () => '', RULES = {};\ndrawDay = () => {};\n"


@unittest.skipUnless(shutil.which("node"), "there is no node here: Debian's package nodejs has it")
class Drawn(unittest.TestCase):
    def test_the_next_run_is_the_planners(self):
        """It is the first row that waits for its start, in the current plan or in the long-term plan."""
        seen = set()
        for name in NAMES:
            planner = plans.planner_of(plans.stream(name))
            rows = [*planner.planned.values(), *(row for row, status in planner.current.values() if status == "W")]
            now = plain.moment_text(planner.bounds[2]).replace(" ", "/")
            data = read.data_in(read.page_of(plans.of_stream(plans.stream(name)), "--now", now))
            cards = drawn(data, CARD, [self.part("apps.js")])
            for app in planner.defined["applications"]:
                coming = sorted((row[2], row[0], row[3]) for row in rows if row[1] == app)
                if not coming:
                    self.assertEqual(cards[app], {"said": "No run is planned.", "leads": None})
                    seen.add("none")
                    continue
                ia, serial, _ = coming[0]
                self.assertEqual(cards[app]["leads"], serial)
                self.assertRegex(cards[app]["said"], rf"^Next run: .* {re.escape(plain.minute_text(ia % 1440))}, due ")
                seen.add("next")
        self.assertEqual(seen, {"none", "next"})

    def test_a_column_of_the_month_opens_its_day(self):
        planner = plans.planner_of(plans.stream("week-of-daily-plans"))
        data = read.data_in(read.page_of(plans.of_stream(plans.stream("week-of-daily-plans"))))
        found = drawn(data, MONTH, [self.part("month.js")])
        runs = {}
        for row in planner.live():
            runs[row[2] // 1440] = runs.get(row[2] // 1440, 0) + 1
        days = sorted({day for _, day, *_ in found})
        self.assertEqual(days, list(range(days[0], days[-1] + 1)))
        self.assertTrue(all(start == day * 1440 and kind == "all" for _, day, _, start, kind in found))
        sums = {day: int(text or 0) for tag, day, text, *_ in found if tag == "td"}
        wanted = {day: count for day, count in runs.items() if day in sums}
        self.assertGreater(len(wanted), 40)
        self.assertEqual({day: count for day, count in sums.items() if count}, wanted)
        self.assertEqual(sorted(sums), sorted(day for tag, day, *_ in found if tag == "th"))

    def part(self, name):
        """A part of the page behind what others define, once."""
        text = (TOP / "python" / "opcplan" / "webpage" / "page_parts" / name).read_text(encoding="utf-8")
        return STUBS + text


if __name__ == "__main__":
    unittest.main()
