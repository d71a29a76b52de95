"""./plan page: what it says of a data centre's night is held against stock SQLite and the plain planner."""

import base64
import hashlib
import re
import unittest
from unittest import mock

from support import data_centre, page_reader as read, plans
from support.page_reader import ask, parts_of

from opcplan.plans import plan_file, row_model, waits
from opcplan.rules import moments
from opcplan.webpage import page_data, page_html, page_queries
from opcplan.webpage.page_queries import Row


NOW = moments.moment_of(data_centre.NOW)
LIVE = {path.name for path in page_html.PARTS.glob("live*")}
# how an address names a row, and how the name of a field begins
NO_IDS = {"o", "field-"}


def lists_in(data):
    """The lists in force that a page shows: by application and name the hours of a limit or None."""
    names = [app[0] for app in data["apps"]]
    each = zip(names, data["lists"], data["limits"], strict=True)
    return {name: {names[other] if isinstance(other, int) else other: within
                   for other, within in zip(listed, limits, strict=True)} for name, listed, limits in each if listed}


def held_up(path):
    """The serials of the rows of the current plan, and their model with what holds others up."""
    with plan_file.opened(path) as plan:
        rows, pairs = waits.unfinished(plan)
    model = row_model.of_waits(rows, pairs, NOW)
    row_model.find_holds(model, rows)
    return [row.serial for row in rows], model


class Centre(unittest.TestCase):
    """What the page says of a data centre's night."""

    @classmethod
    def setUpClass(cls):
        cls.path = plans.of_stream(data_centre.whole())
        cls.planner = plans.planner_of(data_centre.whole())
        cls.page = read.page_of(cls.path, "--now", data_centre.NOW, "--since", plans.of_stream(data_centre.evening()))
        cls.data = read.data_in(cls.page)
        cls.shown = {row[0]: row for row in read.rows_in(cls.data)}

    def test_rows_are_the_current_plan_and_the_days(self):
        held = parts_of(self.planner)
        first, last = self.data["first"] * 1440, (self.data["last"] + 1) * 1440
        wanted = {serial for serial, (row, place) in held.items() if first <= row[2] < last or place in "WSECD"}
        wanted |= {other for serial, other in self.planner.pairs if serial in wanted}
        self.assertEqual(set(self.shown), wanted)
        self.assertEqual(self.shown, {serial: held[serial][0] for serial in wanted})
        self.assertEqual(len(self.shown), len(read.rows_in(self.data)))

    def test_pairs(self):
        self.assertEqual(read.pairs_in(self.data), {pair for pair in self.planner.pairs if pair[0] in self.shown})

    def test_months_from_the_first_to_the_next(self):
        days = moments.day_text(self.data["first"]), moments.day_text(self.data["last"])
        self.assertEqual(days, (data_centre.FIRST, data_centre.LAST))

    def test_states(self):
        path, held = self.path, parts_of(self.planner)
        blocked = """SELECT serial FROM cp_row WHERE status = 'W' AND ia <= ? AND serial IN (SELECT successor
            FROM dependency JOIN cp_row p ON p.serial = predecessor WHERE p.status <> 'C')"""
        self.assertEqual(read.with_state(self.data, "B"), {serial for serial, in ask(path, blocked, NOW)})
        coming = {serial for serial, in ask(path, "SELECT serial FROM cp_row WHERE status = 'W' AND ia > ?", NOW)}
        self.assertEqual(read.with_state(self.data, "F"), coming)
        for state in "ESCDLHowp":
            wanted = {serial for serial in self.shown if held[serial][1] == state}
            self.assertEqual(read.with_state(self.data, state), wanted, state)
        waiting = {serial for serial, (_, place) in held.items() if place == "W"}
        self.assertEqual(read.with_state(self.data, "B", "F", "R"), waiting)

    def test_late_and_in_error(self):
        text = "SELECT serial FROM cp_row WHERE status IN ('W', 'S', 'E') AND deadline < ? ORDER BY 1"
        late = [serial for serial, in ask(self.path, text, NOW)]
        self.assertEqual(sorted(read.late_in(self.data)), late)
        errors = ask(self.path, "SELECT count(*) FROM cp_row WHERE status = 'E'")[0][0]
        self.assertTrue(late and errors)
        self.assertIn(f"<title>{errors} in error, {len(late)} late: ", self.page)

    def test_late_begins_behind_the_deadline(self):
        serial, deadline = ask(self.path, "SELECT serial, deadline FROM cp_row WHERE status = 'E' LIMIT 1")[0]
        for now, is_late in ((deadline, False), (deadline + 1, True)):
            text = f"{moments.day_text(now // 1440)}/{moments.minute_text(now % 1440)}"
            data = read.data_in(read.page_of(self.path, "--now", text))
            self.assertEqual(serial in read.late_in(data), is_late)

    def test_roots(self):
        """The root of each row that waits is one of those that it reaches and that wait for nothing."""
        text = """WITH RECURSIVE open (s, p) AS (SELECT successor, predecessor FROM dependency
            JOIN cp_row a ON a.serial = successor JOIN cp_row b ON b.serial = predecessor
            WHERE a.status = 'W' AND b.status IN ('W', 'S', 'E')),
            way (s, p) AS (SELECT s, p FROM open UNION SELECT way.s, open.p FROM way JOIN open ON open.s = way.p)
            SELECT s, p FROM way WHERE p NOT IN (SELECT s FROM open)"""
        wanted, status = {}, dict(ask(self.path, "SELECT serial, status FROM cp_row"))
        for successor, root in ask(self.path, text):
            wanted.setdefault(successor, set()).add(root)
        found = dict(read.run_in(self.data, "roots"))
        self.assertEqual(set(found), set(wanted))
        self.assertGreater(len(found), 10)
        for successor, root in found.items():
            self.assertIn(root, wanted[successor])
            if any(status[other] == "E" for other in wanted[successor]):
                self.assertEqual(status[root], "E")

    def test_what_holds_others_up(self):
        text = """WITH RECURSIVE held (s) AS (SELECT ? UNION SELECT successor FROM dependency
            JOIN held ON predecessor = s JOIN cp_row ON serial = successor WHERE status = 'W')
            SELECT count(*) - 1 FROM held"""
        holders = """SELECT DISTINCT predecessor FROM dependency JOIN cp_row p ON p.serial = predecessor
            JOIN cp_row s ON s.serial = successor WHERE s.status = 'W' AND (p.status IN ('E', 'S') OR p.status = 'W'
            AND p.ia <= ? AND NOT EXISTS (SELECT 1 FROM dependency d JOIN cp_row b ON b.serial = d.predecessor
                WHERE d.successor = p.serial AND b.status <> 'C'))"""
        serials, model = held_up(self.path)
        found = [serials[one.place] for one in model.holds]
        wanted = [serial for serial, in ask(self.path, holders, NOW)]
        self.assertEqual((sorted(found), model.hold_count), (sorted(wanted), len(wanted)))
        errors = {serial for serial, in ask(self.path, "SELECT serial FROM cp_row WHERE status = 'E'")}
        self.assertTrue(errors - set(found), "one in error holds nobody up")
        for place, number, _, first in model.holds:
            self.assertEqual(number, ask(self.path, text, serials[place])[0][0])
            self.assertGreater(number, 0)
            self.assertEqual(self.shown[serials[first]][3], min(
                deadline for deadline, in ask(self.path, text.replace("SELECT count(*) - 1 FROM held",
                "SELECT deadline FROM held JOIN cp_row ON serial = s WHERE s <> ?1"), serials[place])))

    def test_free_days(self):
        """A calendar's free days are those on which an application that runs on each of its work days doesn't."""
        runs = {"BANK": "FEEDSWIFT", "DEFAULT": "FEEDBRANCH"}
        found = {name: bits for name, is_defined, bits in self.data["calendars"] if is_defined}
        self.assertEqual(set(found), {"ALLDAYS", "BANK", "DEFAULT"})
        for name, app in runs.items():
            first, last = self.data["first"], self.data["last"]
            days = {moments.day_of(line[:10]) for line in self.planner.days(app, first, last)}
            self.assertEqual(found[name], "".join("01"[day in days] for day in range(first, last + 1)))
        self.assertNotIn("0", found["ALLDAYS"])

    def test_applications(self):
        defined = self.planner.defined["applications"]
        self.assertEqual({name: active for name, active, *_ in self.data["apps"]},
                         {name: int(active) for name, (active, _) in defined.items()})
        self.assertEqual(lists_in(self.data), self.planner.in_force)

    def test_jobs_since_the_last_daily_plan(self):
        jobs = sorted(self.planner.jobs.items())
        last = max(number for number, (text, reply) in jobs if text.startswith(b"dp-extend") and reply[:2] == "ok")
        wanted = [[number, text.split(b"\n")[0].decode(), reply] for number, (text, reply) in jobs if number >= last]
        self.assertEqual((self.data["jobs"], self.data["jobCount"]), (wanted, len(wanted)))

    def test_since(self):
        old, new = parts_of(plans.planner_of(data_centre.evening())), parts_of(self.planner)
        wanted = {serial: (old.get(serial, (None, ""))[1], place) for serial, (row, place) in new.items()
                  if serial not in old or (old[serial][1], old[serial][0][3]) != (place, row[3])}
        wanted = {serial: change for serial, change in wanted.items() if change != ("C", "H")}
        self.assertEqual({one[0]: (one[1], one[2]) for one in self.data["since"]["rows"]}, wanted)
        self.assertEqual(self.data["since"]["definitions"], [["calendar", "DEFAULT", "changed"]])

    def test_without_a_script(self):
        plain = re.search(r"<noscript>(.*?)</noscript>", self.page, re.S)[1]
        for serial in read.late_in(self.data):
            _, app, arrival, deadline, _ = self.shown[serial]
            times = f"<td>{moments.moment_text(arrival)}<td>{moments.moment_text(deadline)}"
            self.assertIn(f"<td>{app}{times}<td>", plain)

    def test_nothing_from_outside(self):
        text = self.page.replace("http://www.w3.org/2000/svg", "")
        for asked in ("http:", "https:", "//cdn", "@import", "<link rel=\"stylesheet", "src="):
            self.assertNotIn(asked, text)
        policy = re.search(r'Content-Security-Policy" content="([^"]*)"', self.page)[1]
        for tag in ("style", "script"):
            inside = re.search(rf"<{tag}>(.*?)</{tag}>", self.page, re.S)[1]
            digest = base64.b64encode(hashlib.sha256(inside.encode()).digest()).decode()
            self.assertIn(f"{tag}-src 'sha256-{digest}'", policy)
        self.assertIn("default-src 'none'", policy)


class Parts(unittest.TestCase):
    """The parts of which the page and the live page are put together."""

    def test_each_part_is_used(self):
        used = {*page_html.STYLES, *page_html.SCRIPTS, *LIVE, "page.html", "sign_in.html", "sign_in.css", "sign_in.js"}
        self.assertEqual({path.name for path in page_html.PARTS.iterdir()}, used)

    def test_scripts_name_elements_that_are_there(self):
        """Each `#id` that a script names is in the page's HTML, or made by a script."""
        scripts = page_html.joined(name for name in [*page_html.SCRIPTS, *LIVE] if name.endswith(".js"))
        there = set(re.findall(r'\bid="([\w-]+)"', page_html.joined(["page.html"])))
        there |= set(re.findall(r"\bid: '([\w-]+)'", scripts))
        named = set(re.findall(r"['\"]#([a-z][\w-]*)(?=[\s'\"])", scripts)) - NO_IDS
        self.assertGreater(len(named), 25)
        self.assertEqual(named - there, set())

    def test_letters_of_states(self):
        """Ready, blocked and to come have letters of their own, and no two states of the current plan share one."""
        words = page_html.joined(["words.js"])
        letters = dict(re.findall(r"(\w): '(.)'", re.search(r"const LETTER = {(.*?)};", words)[1]))
        shown = [letters.get(state, state) for state in "ESRBFCHLD"]
        self.assertEqual(shown, list("ESRBWCHL") + ["\N{MULTIPLICATION SIGN}"])


class Cut(unittest.TestCase):
    """What is long is cut, and how much there is is told."""

    @classmethod
    def setUpClass(cls):
        cls.path = plans.of_stream(data_centre.whole())

    def data(self, module, most, number):
        with mock.patch.object(module, most, number):
            return page_data.data_of(self.path, NOW)

    def test_jobs(self):
        jobs = ask(self.path, "SELECT number, substr(CAST(body AS TEXT), 1, 9), reply FROM job ORDER BY number")
        last = max(place for place, (_, text, reply) in enumerate(jobs) if text == "dp-extend" and reply[:2] == "ok")
        data = self.data(page_queries, "MOST_JOBS", 5)
        self.assertEqual([number for number, _, _ in data["jobs"]], [number for number, _, _ in jobs[-5:]])
        self.assertEqual(data["jobCount"], len(jobs) - last)

    def test_what_holds_others_up(self):
        _, whole = held_up(self.path)
        with mock.patch.object(row_model, "MOST_HEADS", 2):
            _, cut = held_up(self.path)
        self.assertEqual((len(cut.holds), cut.hold_count), (2, len(whole.holds)))

    def test_without_a_script(self):
        text = f"SELECT count(*) FROM cp_row WHERE status = 'E' OR status IN ('W', 'S') AND deadline < {NOW}"
        count = ask(self.path, text)[0][0]
        with mock.patch.object(page_html, "MOST_WITHOUT_SCRIPT", 3):
            plain = page_html.without_script(page_data.data_of(self.path, NOW))
        self.assertEqual(plain.count("<tr><td>"), 3)
        self.assertIn(f"<p>The table shows 3 of {count}.</p>", plain)


class Limits(unittest.TestCase):
    """The hours of limits stand beside the names of the lists in force."""

    def test_worked_streams(self):
        for name in ("limits-to-the-minute", "limits-at-random", "limits-come-into-force", "no-limit"):
            with self.subTest(name):
                data = read.data_in(read.page_of(plans.of_worked(name), "--now", "2024-01-02/08.00"))
                self.assertEqual(lists_in(data), plans.planner_of(plans.stream(name)).in_force)


class Roots(unittest.TestCase):
    """Which of several roots is named, and what is at risk."""

    # at moment 100 each waits for nothing, and LAST waits for them: the worse, the earlier here
    WORST_FIRST = [Row(1, "BADLATE", 0, 90, None, "E"), Row(2, "BAD", 1, 300, None, "E"),
                   Row(3, "SLOWLATER", 2, 80, None, "S"), Row(4, "SLOWLATE", 3, 90, None, "S"),
                   Row(5, "RUNS", 4, 200, None, "S"), Row(6, "READY", 5, 150, None, "W"),
                   Row(7, "TOCOME", 101, 400, None, "W")]
    LAST = Row(9, "LAST", 110, 500, None, "W")

    def test_the_worst_root_is_named(self):
        for first in range(len(self.WORST_FIRST)):
            for other in range(first, len(self.WORST_FIRST)):
                rows = sorted({self.WORST_FIRST[first], self.WORST_FIRST[other], self.LAST}, key=lambda row: row.ia)
                pairs = [(9, row.serial) for row in rows[:-1]]
                for order in (pairs, pairs[::-1]):
                    model = row_model.of_rows(rows, order, 100)
                    last = len(rows) - 1
                    self.assertEqual(rows[model.roots[last]], self.WORST_FIRST[first])
                    self.assertEqual(model.at_risk, [last] if first < 4 else [])

    def test_what_is_complete_is_no_root(self):
        rows = [Row(1, "DONE", 0, 90, None, "C"), Row(2, "OLD", 1, 90, None, "H"), Row(9, "LAST", 2, 500, None, "W")]
        model = row_model.of_rows(rows, [(9, 1), (9, 2)], 100)
        row_model.find_holds(model, rows)
        self.assertEqual((model.states, model.roots, model.holds), (["C", "H", "R"], {}, []))


if __name__ == "__main__":
    unittest.main()
