"""What ./plan takes over large plans: memory over 70,000 rows, and what lint looks at of 600 applications in a chain.
What it takes of a processor over 200,000 rows, `tools/soak/seconds` prints."""

import sqlite3
import subprocess
import tempfile
import unittest
from contextlib import closing
from pathlib import Path

from support import large_plans, page_reader as read, plans

from opcplan.commands import lint
from opcplan.plans import plan_file, stream_state
from opcplan.rules import moments

ROWS_APPS, DAYS = 1000, 70
NOW = "2026-09-02/08.00"
APPS, PAIRS = 600, 90
# in MB; Python alone takes 21, and all rows would take 20 more
MOST_MEMORY = 36
# a small process runs the command: what is counted as a process's memory begins with that of the one that made it
MEASURED = """import resource, subprocess, sys
status = subprocess.call(sys.argv[1:])
print(status, resource.getrusage(resource.RUSAGE_CHILDREN).ru_maxrss / 1024, file=sys.stderr)
"""


def measured(*words):
    """Status, output and MB of a run of ./plan."""
    given = ["/usr/bin/python3", "-c", MEASURED, "/usr/bin/python3", plans.TOP / "plan", *words]
    ran = subprocess.run(list(map(str, given)), capture_output=True, encoding="utf-8", check=True)
    status, memory = ran.stderr.splitlines()[-1].split()
    return int(status), ran.stdout, float(memory)


class ManyRows(unittest.TestCase):
    @classmethod
    def setUpClass(cls):
        cls.plan = large_plans.current(ROWS_APPS, DAYS)
        with plan_file.opened(cls.plan):
            pass  # it is checked, and that is kept

    def test_few_rows_are_read_at_once(self):
        app = large_plans.name(500)
        for words, lines in (("ready", 2), ("late", 1000), (f"why {app} 2026-09-02 11.59", 60),
                             (f"rows --app {app}", DAYS + 1)):
            name, *rest = words.split()
            now = [] if name == "rows" else ["--now", NOW]
            status, out, memory = measured(name, self.plan, *rest, *now)
            with self.subTest(name):
                self.assertEqual(status, 0)
                self.assertGreaterEqual(out.count("\n"), lines)
                self.assertLess(memory, MOST_MEMORY)

    def test_what_is_printed_whole_needs_no_memory(self):
        for words in ("export --ics", "export --csv", "export --json", "rows"):
            name, *rest = words.split()
            status, out, memory = measured(name, self.plan, *rest)
            with self.subTest(words):
                self.assertEqual(status, 0)
                self.assertEqual(out.count(large_plans.name(7)), DAYS * (2 if "--ics" in words else 1))
                self.assertLess(memory, MOST_MEMORY)

    def page(self, path, *days):
        """What a page has, which is no larger than a browser opens where there are as many rows as there may be."""
        page = read.page_of(path, *days)
        self.assertLessEqual(len(page.encode()), 100 * ROWS_APPS * DAYS)
        return read.data_in(page)

    def test_a_page_of_the_current_plan(self):
        data = self.page(self.plan, "--now", NOW)
        self.assertEqual(len(data["rows"]["serial"]), ROWS_APPS * DAYS)
        self.assertEqual(len(read.pairs_in(data)), sum(1 for _ in large_plans.pairs(ROWS_APPS, DAYS)))

    def test_a_page_of_the_long_term_plan(self):
        path = large_plans.planned(ROWS_APPS, DAYS)
        self.assertEqual(len(self.page(path, "--now", NOW)["rows"]["serial"]), ROWS_APPS * 61)
        data = self.page(path, "--from", large_plans.FIRST, "--to", "2027-12-31")
        self.assertEqual(len(data["rows"]["serial"]), ROWS_APPS * DAYS)


class ChainedApplications(unittest.TestCase):
    def setUp(self):
        room = tempfile.TemporaryDirectory(prefix="chain-")
        self.addCleanup(room.cleanup)
        self.room = Path(room.name)

    def plan(self):
        """A plan of applications each of which waits for the one before it and for another one; nothing is planned."""
        path, first = self.room / "chain.db", moments.day_of("2026-09-01")
        names = [large_plans.name(number) for number in range(APPS)]
        with closing(sqlite3.connect(path)) as db:
            for text in plans.schema():
                db.execute(text)
            db.execute("INSERT INTO plan_meta VALUES (1, 2, 1, ?, ?, ?, 0, 'DEFAULT', 504)",
                       (first, first + 199, first * 1440))
            db.execute("INSERT INTO calendar_entry VALUES ('DEFAULT', 0, 6, 0)")
            db.executemany("INSERT INTO plan_period VALUES (?, 0, 'A', ?, ?)", [("DAY", first, 1), ("WEEK", first, 7)])
            db.executemany("INSERT INTO application VALUES (?, 1, NULL)", [(name,) for name in names])
            for cycle, period, rule in (("DAILY", "DAY", "E"), ("WEEKLY", "WEEK", "3")):
                rows = [(name, cycle, "N", period, rule, first, None, place * 1439 // APPS, 1, 1439)
                        for place, name in enumerate(names)]
                db.executemany("INSERT INTO run_cycle VALUES (?, ?, ?, ?, ?, ?, ?, ?, ?, ?)", rows)
                db.executemany("INSERT INTO run_cycle_offset VALUES (?, ?, 0, 1)", [row[:2] for row in rows])
            links = {(names[place], names[other]) for place in range(1, APPS) for other in (place - 1, place // 2)}
            db.executemany("INSERT INTO predecessor VALUES (?, ?, NULL)", sorted(links))
            db.commit()
        return path

    def stream(self):
        """Pairs of a change of definitions and a planning statement, of each kind of definition."""
        texts = []
        for number in range(PAIRS):
            app, before = large_plans.name(number * 6 + 1), large_plans.name(number * 6)
            kind, record = (("applications", f"{app},A,"), ("predecessors", f"{app},{before}"),
                            ("run-cycles", f"{app},DAILY,N,DAY,3,1,2026-09-01,,00.00,1,23.59"))[number % 3]
            texts += [f"define {kind} --job {2 * number + 1}\n{record}\n/*\n",
                      f"ltp-modify-one --app {app} --job {2 * number + 2}\n"]
        path = self.room / "pairs.in"
        path.write_text("".join(texts), encoding="utf-8")
        return path

    def test_lint_of_pairs_of_define_and_modify(self):
        _, out, _ = measured("lint", self.stream(), "--plan", self.plan())
        self.assertIn("drops run cycle WEEKLY", out)

    def test_what_is_found_is_what_a_look_at_all_finds(self):
        """Though only the application of each pair is looked at behind it."""
        stream = self.stream().read_bytes().split(b"define")
        text = b"define".join(stream[: len(stream) // 4])
        with plan_file.opened(self.plan()) as plan:
            found = []
            for walk in (NotedWalk, WholeWalk):
                now = stream_state.of_plan(plan)
                one = walk(now)
                for item in plans.items_of(text):
                    one.take(item, lint.reply_of(now, item))
                found.append({(each.kind, each.about) for each in one.ended()})
                if walk is NotedWalk:
                    self.assertGreater(len(one.counts), 20)
                    self.assertEqual(set(one.counts), {1})
        self.assertEqual(*found)
        self.assertGreater(len(found[0]), 5)


class NotedWalk(lint.Walk):
    """A walk that notes how many applications it looks at each time."""

    counts: list[int]

    def __init__(self, now):
        super().__init__(now)
        self.counts = []

    def touched(self):
        found = super().touched()
        self.counts.append(APPS if found is None else len(found))
        return found


class WholeWalk(lint.Walk):
    """A walk that looks at all applications each time."""

    def touched(self):
        return None


if __name__ == "__main__":
    unittest.main()
