"""./plan rows: each list and each filter, by the plain planner and stock SQLite."""

import csv
import itertools
import json
import random
import sqlite3
import unittest
from contextlib import closing

from support import data_centre, plans
from support.plans import plain

from opcplan.commands import rows
from opcplan.rules import moments


NAMES = """week-of-daily-plans batch-through-all-sets statuses-carried one-key-twice added-before-between-and-after
    withdrawn-and-named-again each-status-under-each-action first-days""".split()
LISTS = {"ltp": "", "cp": "WSECD", "history": "C", "deletions": ""}
STATUS_LETTERS = {"waiting": "W", "started": "S", "in error": "E", "complete": "C", "deleted": "D"}


def asked(path, *given):
    """What `./plan rows` answers here: its status, its lines, and what it tells."""
    ran = plans.plan_here(rows, path, *given)
    return ran.returncode, ran.stdout.splitlines(), ran.stderr


def held(planner, sets):
    """All rows of some sets: (row, status or '', reason or '', set), in the order of lists."""
    found = {
        "ltp": [(row, "", "") for row in planner.planned.values()],
        "cp": [(row, status, "") for row, status in planner.current.values()],
        "history": [(row, "C", "") for row in planner.history.values()],
        "deletions": [(row, "", reason) for row, reason in planner.deleted.values()],
    }
    of_sets = [(*one, name) for name in sets for one in found[name]]
    return sorted(of_sets, key=lambda one: (one[0][2], one[0][1], one[0][0]))


def line(one):
    """A row as the rules print it."""
    (serial, app, ia, due, cycle), status, reason, _ = one
    origin = "A" if cycle is None else "G"
    text = f"{serial:09} {app:<16} {origin} {cycle or '':<8} {plain.moment_text(ia)} {plain.moment_text(due)}"
    return f"{text} {status or reason}" if status or reason else text


class Lists(unittest.TestCase):
    def test_each_list_is_that_of_the_planner(self):
        for name in NAMES:
            planner, path = plans.planner_of(plans.stream(name)), plans.of_worked(name)
            apps = sorted({one[0][1] for one in held(planner, LISTS)})
            for what, app in itertools.product(LISTS, [None, *apps[:3]]):
                with self.subTest(name, what=what, app=app):
                    wanted = planner.list(what, app)
                    status, lines, stderr = asked(path, what, *(["--app", app] if app else []))
                    self.assertEqual(lines, [*wanted, f"ok rows {len(wanted)}"])
                    self.assertEqual(status, 0 if wanted else 1)
                    self.assertEqual("no long-term plan yet" in stderr, planner.bounds is None)

    def test_without_a_list_all_but_the_deletions(self):
        planner, path = plans.planner_of(data_centre.whole()), plans.of_stream(data_centre.whole())
        wanted = [line(one) for one in held(planner, ("ltp", "cp", "history"))]
        self.assertEqual(asked(path), (0, [*wanted, f"ok rows {len(wanted)}"], ""))
        self.assertEqual({text[0] for text in wanted}, {"0"})
        self.assertEqual({len(text) for text in wanted}, {71, 73})


class Filters(unittest.TestCase):
    @classmethod
    def setUpClass(cls):
        cls.planner, cls.path = plans.planner_of(data_centre.whole()), plans.of_stream(data_centre.whole())
        cls.all = held(cls.planner, LISTS)

    def check(self, wanted, *given):
        status, lines, stderr = asked(self.path, *given)
        self.assertEqual((lines, stderr), ([*map(line, wanted), f"ok rows {len(wanted)}"], ""), given)
        self.assertEqual(status, 0 if wanted else 1, given)

    def test_filters_together(self):
        chosen, found = random.Random(7), 0
        apps, arrivals = sorted({one[0][1] for one in self.all}), sorted({one[0][2] for one in self.all})
        for _ in range(60):
            what, app = chosen.choice([None, *LISTS]), chosen.choice([None, None, None, chosen.choice(apps)])
            first, last = sorted(chosen.sample(arrivals, 2))
            status = chosen.choice([None, "E", "WS", "C", "SED"]) if what in (None, "cp", "history") else None
            wanted = [one for one in self.all if one[3] in ([what] if what else ["ltp", "cp", "history"])
                      and app in (None, one[0][1]) and first <= one[0][2] <= last
                      and (status is None or one[1] and one[1] in status)]
            given = ["--from", plain.moment_text(first), "--to", plain.moment_text(last, "/"), *[what] * bool(what)]
            self.check(wanted, *given, *(["--app", app] if app else []), *(["--status", status] if status else []))
            found += bool(wanted)
        self.assertGreater(found, 20)

    def test_days_are_taken_whole(self):
        for day in ("2026-11-24", "2026-11-30"):
            wanted = [one for one in self.all if one[3] != "deletions" and plain.moment_text(one[0][2])[:10] == day]
            self.assertTrue(wanted)
            self.check(wanted, "--from", day, "--to", day)

    def test_statuses_by_letters_and_words(self):
        others = [("E", "E"), ("error", "E"), ("w,s", "WS"), ("in-error,started", "ES"), ("WSECD", "WSECD")]
        for given, letters in [*STATUS_LETTERS.items(), *others]:
            wanted = [one for one in self.all if one[3] == "cp" and one[1] in letters]
            self.check(wanted, "cp", "--status", given)

    def test_late_is_what_sqlite_finds(self):
        text = """SELECT serial FROM cp_row WHERE status IN ('W', 'S', 'E') AND deadline < ? ORDER BY ia, app, serial"""
        with closing(sqlite3.connect(self.path)) as db:
            for now in ("2026-11-24/12.00", data_centre.NOW, "2026-11-25/06.10", "2026-11-25/06.11"):
                serials = [serial for serial, in db.execute(text, (moments.moment_of(now),))]
                wanted = {one[0][0]: one for one in self.all if one[3] == "cp"}
                self.check([wanted[serial] for serial in serials], "--late", "--now", now)
        wanted = [one for one in self.all if one[3] == "cp" and one[1] == "E"]
        self.check(wanted, "cp", "--late", "--status", "E", "--now", "2026-11-25", "06.00")

    def test_late_goes_by_the_clock_and_says_where_it_is_outside(self):
        stderr = asked(plans.of_worked("monday"), "--late")[2]
        self.assertIn("the plan goes from 2024-01-01 to 2024-01-31; --now sets the moment", stderr)

    def test_an_application_that_is_not_there(self):
        status, lines, stderr = asked(self.path, "--app", "nosuch")
        self.assertEqual((status, lines), (1, ["ok rows 0"]))
        self.assertIn("it has no application NOSUCH", stderr)
        self.assertIn("it has no application MERGERTSET (did you mean "
                      "MERGERTEST?)", asked(self.path, "--app", "mergertset")[2])
        self.assertIn("it has no application NOSUCH", asked(self.path, "--late", "--app", "nosuch")[2])
        self.assertEqual(asked(self.path, "--app", "MERGERTEST")[2], "")

    def test_words_that_do_not_go_together(self):
        for given, said in (
            (["ltp", "--status", "W"], "rows of ltp have no status"),
            (["deletions", "--status", "W"], "rows of deletions have no status"),
            (["history", "--late"], "goes with the current plan only"),
            (["--now", data_centre.NOW], "it needs --late"),
            (["--from", "2026-11-26", "--to", "2026-11-25"], "--to is before --from"),
            (["--from", "2026-11-31"], "is neither a day such as"),
            (["--status", "X"], "'x' is not a status"),
            (["--status", "errors"],
             "a status is one of waiting (W), started (S), in-error (E), complete (C), deleted (D);"),
            (["--status", "late"], "deleted (D); `--late` shows what is late;"),
            (["--status", ""], "'' is not a status"),
            (["links"], "invalid choice"),
            (["--csv", "--json"], "not allowed"),
        ):
            status, lines, stderr = asked(self.path, *given)
            self.assertEqual((status, lines), (2, []), given)
            self.assertIn(said, stderr)
            self.assertEqual(stderr.count("\n"), 1)


class Forms(unittest.TestCase):
    @classmethod
    def setUpClass(cls):
        cls.planner, cls.path = plans.planner_of(data_centre.whole()), plans.of_stream(data_centre.whole())

    def values(self, one, between):
        """What a program is to read of a row."""
        (serial, app, ia, due, cycle), status, reason, name = one
        stamps = [plain.moment_text(moment, between).replace(".", ":") for moment in (ia, due)]
        found = {letter: text for text, letter in STATUS_LETTERS.items()}
        reasons = {"O": "deleted by an operator", "W": "withdrawn", "P": "deleted in the current plan"}
        return [serial, app, name, found.get(status), reasons.get(reason), *stamps, cycle, cycle is None]

    def test_json_has_an_object_on_each_line(self):
        for what in LISTS:
            wanted = [self.values(one, "T") for one in held(self.planner, [what])]
            found = [json.loads(text) for text in asked(self.path, what, "--json")[1]]
            self.assertEqual([list(one.values()) for one in found], wanted)
        columns = "serial application set status reason arrives due run_cycle added".split()
        self.assertEqual(list(found[0]), columns)

    def test_csv_is_a_table(self):
        for what in LISTS:
            wanted = [["" if value is None else str(int(value) if isinstance(value, bool) else value) for value in
                       self.values(one, " ")] for one in held(self.planner, [what])]
            found = list(csv.reader(asked(self.path, what, "--csv")[1]))
            self.assertEqual(found[1:], wanted)

    def test_csv_is_the_table_of_export(self):
        for what in LISTS:
            exported = plans.plan("export", self.path, "--csv", "--set", what).stdout
            self.assertEqual(asked(self.path, what, "--csv")[1], exported.splitlines())

    def test_nothing_found(self):
        given = [self.path, "cp", "--app", "OLDLEDGER"]
        self.assertEqual(asked(*given), (1, ["ok rows 0"], ""))
        self.assertEqual(asked(*given, "--json"), (1, [], ""))
        self.assertEqual(len(asked(*given, "--csv")[1]), 1)

    def test_as_a_command(self):
        wanted = self.planner.list("cp", "SMFREPORT")
        ran = plans.plan("rows", "--app", "SMFREPORT", self.path, "cp")
        self.assertEqual((ran.returncode, ran.stderr), (0, ""))
        self.assertEqual(ran.stdout, "".join(f"{text}\n" for text in [*wanted, f"ok rows {len(wanted)}"]))


if __name__ == "__main__":
    unittest.main()
