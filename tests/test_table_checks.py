"""table_checks: two threads judge a plan. Whatever is wrong with it is told as if one asked after the other."""

import contextlib
import itertools
import random
import shutil
import sqlite3
import tempfile
import threading
import unittest
from contextlib import closing
from pathlib import Path
from unittest import mock

from support import large_plans

from opcplan.errors import Unreadable
from opcplan.plans import plan_file, progress, sound_pairs, sound_rows

APPS, DAYS, SEEDS = 30, 10, 150
COUNT = len(sound_rows.RULES)
INDEX = "sqlite_autoindex_ltp_row_1"
UNIQUE = (", UNIQUE (app, ia)", "")
SWAP = "UPDATE ltp_row SET ia = CASE serial WHEN 31 THEN {0} + 1440 ELSE {0} END WHERE serial IN (31, 1)"
# by a defect: what SQLite does with the schema of a plan (a text of a table, by what it is replaced for a while), and
# before and after that with its rows
DEFECTS = {
    "an entry of an index is missing": ("ltp_row", UNIQUE, ["DELETE FROM ltp_row WHERE serial = 300"],
                                        ["INSERT INTO ltp_row SELECT * FROM temp.kept WHERE serial = 300"]),
    "an entry of an index is too many": ("ltp_row", UNIQUE, [], ["DELETE FROM ltp_row WHERE serial = 300"]),
    "an index has another row's value": ("ltp_row", UNIQUE, ["UPDATE ltp_row SET ia = ia + 1 WHERE serial = 5"],
                                         ["UPDATE ltp_row SET ia = ia - 1 WHERE serial = 5"]),
    "two entries of an index are swapped": (
        "ltp_row", UNIQUE, ["UPDATE ltp_row SET ia = -ia WHERE serial IN (1, 31)",
                            "UPDATE ltp_row SET ia = (SELECT ia FROM temp.kept AS k "
                            "WHERE k.serial = 32 - ltp_row.serial) WHERE serial IN (1, 31)"],
        ["UPDATE ltp_row SET ia = (SELECT ia FROM temp.kept AS k WHERE k.serial = ltp_row.serial) "
         "WHERE serial IN (1, 31)"]),
    "two rows have one unique key": ("ltp_row", UNIQUE, [], ["UPDATE ltp_row SET (app, ia) = (SELECT app, ia FROM "
                                                             "temp.kept WHERE serial = 1) WHERE serial = 31"]),
    "a value is NULL": ("ltp_row", ("app TEXT NOT NULL", "app TEXT"), [], ["UPDATE ltp_row SET app = NULL "
                                                                           "WHERE serial = 300"]),
    "a number is a text": ("ltp_row", (") STRICT", ")"), [], ["UPDATE ltp_row SET deadline = 'X' WHERE serial = 300"]),
    "a number is a fraction": ("ltp_row", (") STRICT", ")"), [], ["UPDATE ltp_row SET deadline = deadline + 0.5"]),
    "a text is a BLOB": ("ltp_row", (") STRICT", ")"), [], ["UPDATE ltp_row SET run_cycle = x'41'"]),
    "a condition isn't met": ("plan_meta", (" CHECK (id = 1)", ""), [], ["UPDATE plan_meta SET id = 2"]),
}


def serially(path):
    """What is wrong with a plan if one asks after the other, or nothing: each table, and then its rows."""
    with tempfile.TemporaryDirectory(prefix="table-checks-") as room:
        copy = shutil.copy(path, room)
        try:
            plan_file.check_begin(copy)
            with closing(sqlite3.connect(copy, isolation_level=None)) as db:
                return asked_serially(db)
        except (plan_file.NotAPlan, sound_rows.Unsound, Unreadable) as error:
            return str(error)
        except UnicodeDecodeError as error:
            return f"it can't be read as a plan: {error.object.decode('utf-8', 'surrogateescape')}"
        except sqlite3.Error as error:
            return f"it can't be read as a plan: {error}"


def asked_serially(db):
    """The same of an open database."""
    plan_file.prepare(db)
    plan_file.meta_of(db)
    for table in sound_rows.RULES:
        db.execute(f"SELECT count(*) FROM {table}").fetchone()
    for table, rules in sound_rows.RULES.items():
        sound_rows.ask_table(db, table)
        sound_rows.ask_values(db, table, rules)
    for question, wrong in sound_rows.RELATIONS:
        if db.execute(f"{question} LIMIT 1").fetchone():
            return f"its rows are no sound plan: {wrong}"
    sound_rows.ask_replies(db)
    for _ in sound_pairs.asked(db, 2):
        pass
    return ""


def together(path):
    """The same by plan_file."""
    try:
        with plan_file.opened(path):
            return ""
    except Unreadable as error:
        return str(error).removeprefix(f"{path}: ")


class OtherSchema:
    """A file, as long as a context lasts, in whose schema a text is replaced; the index of a constraint that goes is
    left out."""

    def __init__(self, path, table, old, new):
        self.path, self.table, self.old, self.new = path, table, old, new

    def __enter__(self):
        with self.opened() as db:
            self.sql, = db.execute("SELECT sql FROM sqlite_schema WHERE name = ?", [self.table]).fetchone()
            self.index = db.execute("SELECT * FROM sqlite_schema WHERE name = ?", [INDEX]).fetchone()
            sql = self.sql.replace(self.old, self.new)
            assert sql != self.sql
            db.execute("UPDATE sqlite_schema SET sql = ? WHERE name = ?", [sql, self.table])
            if (self.old, self.new) == UNIQUE:
                db.execute("DELETE FROM sqlite_schema WHERE name = ?", [INDEX])

    def __exit__(self, *_):
        with self.opened() as db:
            db.execute("UPDATE sqlite_schema SET sql = ? WHERE name = ?", [self.sql, self.table])
            if (self.old, self.new) == UNIQUE:
                db.execute("INSERT INTO sqlite_schema VALUES (?, ?, ?, ?, ?)", self.index)

    @contextlib.contextmanager
    def opened(self):
        with closing(sqlite3.connect(self.path)) as db:
            db.execute("PRAGMA writable_schema = ON")
            yield db
            db.commit()


class TableChecks(unittest.TestCase):
    def setUp(self):
        room = tempfile.TemporaryDirectory(prefix="table-checks-")
        self.addCleanup(room.cleanup)
        self.room = Path(room.name)
        self.addCleanup(mock.patch.stopall)
        mock.patch.dict("os.environ", XDG_CACHE_HOME=str(self.room / "cache")).start()

    def plan(self, name="plan.db"):
        return shutil.copy(large_plans.planned(APPS, DAYS), self.room / name)

    def executed(self, path, texts):
        with closing(sqlite3.connect(path)) as db:
            db.execute("ATTACH ? AS other", [str(large_plans.planned(APPS, DAYS))])
            db.execute("CREATE TEMP TABLE kept AS SELECT * FROM other.ltp_row")
            for text in texts:
                db.execute(text)
            db.commit()

    def assert_told(self, path, wanted=None):
        """Asks that both ways tell the same, and that this is something."""
        found = serially(path)
        self.assertEqual(together(path), found)
        self.assertNotEqual(found, "")
        self.assertIn(wanted or "", found)

    def test_sound_plan_is_sound(self):
        path = self.plan()
        self.assertEqual((serially(path), together(path)), ("", ""))

    # Defects of each kind.

    def test_each_defect_is_told(self):
        for name, (table, (old, new), before, after) in DEFECTS.items():
            with self.subTest(name):
                path = self.plan()
                self.executed(path, before)
                with OtherSchema(path, table, old, new):
                    self.executed(path, after)
                self.assert_told(path, f"its table {table} is damaged: ")

    def leaf_of(self, path, name):
        """The first page of a table or index that has cells alone, and its bytes."""
        with closing(sqlite3.connect(path)) as db:
            page = db.execute("SELECT rootpage FROM sqlite_schema WHERE name = ?", [name]).fetchone()[0]
        data = Path(path).read_bytes()
        while data[(page - 1) * 4096] in (2, 5):
            at = (page - 1) * 4096
            first = at + int.from_bytes(data[at + 12:at + 14], "big")
            page = int.from_bytes(data[first:first + 4], "big")
        return page, bytearray(data[(page - 1) * 4096:page * 4096])

    def put_page(self, path, page, data):
        with open(path, "r+b") as file:
            file.seek((page - 1) * 4096)
            file.write(data)

    def test_pages_that_are_made_otherwise_are_told(self):
        """Cells in another order, one cell in two places, a cell left out, a page that is another one's."""
        for name in ("ltp_row", INDEX, "dependency", "sqlite_autoindex_dependency_1", "job"):
            for way in ("order", "double", "left out", "other page", "zeros", "kind"):
                path = self.plan()
                with closing(sqlite3.connect(path)) as db:
                    db.executemany("INSERT INTO job VALUES (?, x'41', 'ok undefined')", [(1,), (2,), (3,)])
                    db.commit()
                page, data = self.leaf_of(path, name)
                if way == "order":
                    data[8:10], data[10:12] = data[10:12], data[8:10]
                elif way == "double":
                    data[8:10] = data[10:12]
                elif way == "left out":
                    data[3:5] = (int.from_bytes(data[3:5], "big") - 1).to_bytes(2, "big")
                elif way == "other page":
                    _, data = self.leaf_of(path, "application" if name != INDEX else "sqlite_autoindex_application_1")
                elif way == "zeros":
                    data = bytes(4096)
                else:
                    data[0] ^= 8
                self.put_page(path, page, bytes(data))
                with self.subTest(name, way=way):
                    self.assert_told(path)

    def test_flipped_bytes_are_told_alike(self):
        """Bytes at random, on each page of a plan: both ways tell the same, and most of them tell something."""
        path, draw, told = self.plan(), random.Random(100), 0
        plain = Path(path).read_bytes()
        pages = len(plain) // 4096
        for seed in range(SEEDS):
            data = bytearray(plain)
            begin = (seed % pages) * 4096
            # where cells are, and not in the middle, which nothing uses
            place = begin + draw.choice([draw.randrange(4096), draw.randrange(0, 64), draw.randrange(3800, 4096)])
            data[place] ^= 1 << draw.randrange(8)
            Path(path).write_bytes(bytes(data))
            found = serially(path)
            self.assertEqual(together(path), found, (seed, place))
            told += bool(found)
        self.assertGreater(told, SEEDS // 3)

    # The threads.

    def test_first_defect_is_told_in_every_order(self):
        """One table is damaged, or none, and the rows of one are wrong, or of none; either thread is first."""
        places = [*range(0, COUNT, 3), COUNT - 1, None]
        for damaged, wrong, is_late in itertools.product(places, [*places, COUNT], (False, True)):
            with self.subTest(damaged=damaged, wrong=wrong, is_late=is_late):
                told = [(place, kind) for place, kind in ((damaged, "damaged"), (wrong, "wrong")) if place is not None]
                wanted = min(told, default=(0, ""))[1] if damaged != wrong or damaged is None else "damaged"
                self.assertEqual(self.asked(damaged, wrong, is_late), wanted)

    def asked(self, damaged, wrong, is_late):
        """What `ask_rows` raises: the table at a place is damaged, the rows at one are wrong; the thread of the tables
        is late, or that of the rows."""
        rows_ended, tables_ended = threading.Event(), threading.Event()
        tables = list(sound_rows.RULES)

        def ask_table(_, table):
            if is_late:
                rows_ended.wait(5)
            if tables.index(table) == damaged:
                tables_ended.set()
                raise sound_rows.Unsound("damaged")
            if table == tables[-1]:
                tables_ended.set()

        def asked(*_):
            if not is_late:
                tables_ended.wait(5)
            for place in range(COUNT + 1):
                if place == wrong:
                    rows_ended.set()
                    raise sound_rows.Unsound("wrong")
                yield 0.5
            rows_ended.set()

        plan = mock.Mock(version=2)
        with mock.patch.object(sound_rows, "ask_table", ask_table), mock.patch.object(sound_rows, "asked", asked), \
                mock.patch.object(sound_pairs, "asked", lambda *_: iter(())):
            try:
                plan_file.ask_rows(plan, ":memory:", progress.Progress(""))
            except sound_rows.Unsound as error:
                return str(error)
        return ""

    def test_rows_of_a_damaged_table_are_not_read_on(self):
        """A question that never ends is interrupted once its table is damaged; not before."""
        endless = "WITH RECURSIVE n(x) AS (SELECT 1 UNION ALL SELECT x + 1 FROM n) SELECT count(*) FROM n"
        begun = threading.Event()

        def ask_table(_, table):
            if table == "calendar_entry":
                begun.wait(5)
                raise sound_rows.Unsound("damaged")

        def asked(db, _):
            yield 0.1
            begun.set()
            db.execute(endless)

        with closing(sqlite3.connect(":memory:")) as db, mock.patch.object(sound_rows, "ask_table", ask_table), \
                mock.patch.object(sound_rows, "asked", asked), self.assertRaises(sound_rows.Unsound) as raised:
            plan_file.ask_rows(mock.Mock(version=2, db=db), ":memory:", progress.Progress(""))
        self.assertEqual(str(raised.exception), "damaged")

    def test_what_stops_the_rows_stops_the_tables(self):
        endless = "WITH RECURSIVE n(x) AS (SELECT 1 UNION ALL SELECT x + 1 FROM n) SELECT count(*) FROM n"
        before = threading.active_count()

        def asked(*_):
            yield 0.1
            raise KeyboardInterrupt

        with mock.patch.object(sound_rows, "ask_table", lambda db, _: db.execute(endless)), \
                mock.patch.object(sound_rows, "asked", asked), self.assertRaises(KeyboardInterrupt):
            plan_file.ask_rows(mock.Mock(version=2), ":memory:", progress.Progress(""))
        self.assertEqual(threading.active_count(), before)


if __name__ == "__main__":
    unittest.main()
