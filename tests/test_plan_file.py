"""plan_file: a plan is read from a private copy, and what can't be read is told."""

import contextlib
import os
import shutil
import sqlite3
import subprocess
import tempfile
import threading
import unittest
from contextlib import closing
from pathlib import Path
from unittest import mock

from support import plans

from opcplan.errors import Unreadable
from opcplan.plans import plan_file, sound_rows


STREAM = "week-of-daily-plans"


class PlanFile(unittest.TestCase):
    def setUp(self):
        self.folder = tempfile.mkdtemp(prefix="plan-file-")
        self.addCleanup(shutil.rmtree, self.folder)

    def plan(self, name="plan.db"):
        return plans.copy_of(plans.of_worked(STREAM), self.folder, name)

    def made(self, name, *texts):
        """A database with what the texts make."""
        path = Path(self.folder) / name
        with closing(sqlite3.connect(path)) as db:
            for text in texts:
                db.execute(text)
            db.commit()
        return path

    def refused(self, path, *said):
        """Asks that the file can't be read, that each subcommand's way of telling it says so, and leaves no trace."""
        before = plans.prints(path) if os.path.isdir(os.path.dirname(path)) else None
        with self.assertRaises(Unreadable) as raised, plan_file.opened(path):
            self.fail("it was opened")
        for text in (str(path), *said):
            self.assertIn(text, str(raised.exception))
        self.assertEqual(before, plans.prints(path) if before is not None else None)

    def test_a_plan_has_what_its_planner_knows(self):
        planner = plans.planner_of(plans.stream(STREAM))
        path = self.plan()
        before = plans.prints(path)
        with plan_file.opened(path) as plan:
            self.assertEqual((plan.path, plan.version, plan.is_created), (str(path), 2, True))
            self.assertEqual((plan.meta["first_day"], plan.meta["last_day"], plan.meta["plan_end"]), planner.bounds)
            self.assertEqual(plan.meta["issued"], planner.issued)
            rows = plan.db.execute("SELECT serial, app, ia, deadline, run_cycle FROM ltp_row").fetchall()
            self.assertEqual({row["serial"]: tuple(row) for row in rows}, planner.planned)
            self.assertEqual(before, plans.prints(path))
        self.assertEqual(before, plans.prints(path))

    def test_the_copy_goes(self):
        with mock.patch("tempfile.tempdir", self.folder):
            path = self.plan()
            beside = sorted(os.listdir(self.folder))
            with plan_file.opened(path) as plan:
                plan.db.execute("DELETE FROM ltp_row")
                self.assertEqual(len(os.listdir(self.folder)), len(beside) + 1)
            self.assertEqual(sorted(os.listdir(self.folder)), beside)
        with plan_file.opened(path) as plan:
            self.assertNotEqual(plan.db.execute("SELECT count(*) FROM ltp_row").fetchone()[0], 0)

    def test_a_plan_that_is_not_created(self):
        path = plans.copy_of(plans.of_stream("define options --job 1\nmax_extension_hours = 5\n/*\n"), self.folder)
        with plan_file.opened(path) as plan:
            self.assertFalse(plan.is_created)
            self.assertEqual(plan.meta["max_hours"], 5)

    def test_no_such_file(self):
        self.refused(Path(self.folder) / "none.db", "there is no such file")
        self.refused(Path(self.folder) / "no" / "plan.db", "there is no such file")

    def test_no_file(self):
        os.mkdir(Path(self.folder) / "folder.db")
        self.refused(Path(self.folder) / "folder.db", "it is not a file")

    def test_an_empty_file(self):
        path = Path(self.folder) / "empty.db"
        path.touch()
        self.refused(path, "it is empty")

    def test_no_database(self):
        path = Path(self.folder) / "notes.txt"
        path.write_text("Nothing of a plan stands here.\n" * 300, encoding="utf-8")
        self.refused(path, "can't be read as a plan", "not a database")

    def test_a_database_without_plan_tables(self):
        self.refused(self.made("other.db", "CREATE TABLE song (title TEXT)"), "no table plan_meta")

    def test_a_database_with_some_plan_tables(self):
        texts = plans.schema()[:3]
        meta = "INSERT INTO plan_meta VALUES (1, 2, 0, 0, 0, 0, 0, 'DEFAULT', 504)"
        self.refused(self.made("some.db", *texts, meta), "no table application")

    def test_a_plan_meta_of_another(self):
        self.refused(self.made("foreign.db", "CREATE TABLE plan_meta (key TEXT)"), "it is not a plan")
        self.refused(self.made("void.db", *plans.schema()), "it is not a plan")

    def test_another_version(self):
        path = self.plan()
        with closing(sqlite3.connect(path)) as db:
            db.execute("UPDATE plan_meta SET version = 9")
            db.commit()
        self.refused(path, "its tables have version 9")

    def test_a_file_that_is_cut(self):
        path = self.plan()
        # the log goes into the file
        with closing(sqlite3.connect(path)) as db:
            db.execute("PRAGMA wal_checkpoint(TRUNCATE)")
        data = path.read_bytes()
        path.write_bytes(data[: len(data) // 2])
        with self.assertRaises(Unreadable), plan_file.opened(path) as plan:
            plan.db.execute("SELECT sum(ia) FROM ltp_row NATURAL JOIN dependency").fetchall()
            plan.db.execute("PRAGMA integrity_check").fetchall()
            for table in sound_rows.RULES:
                plan.db.execute(f"SELECT * FROM {table}").fetchall()

    def test_a_table_that_is_made_of_no_text(self):
        path = self.plan()
        with closing(sqlite3.connect(path)) as db:
            db.execute("PRAGMA wal_checkpoint(TRUNCATE)")
        for old, new in ((b"serial INTEGER PRIMARY", b"serial \xc7NTEGER PRIMARY"), (b"cp_row", b"cp_\xb7ow"),
                         (b"max_hours", b"max_\xffours"), (b"max_hours", b"max_\x1bours")):
            other = Path(self.folder) / "other.db"
            other.write_bytes(path.read_bytes().replace(old, new))
            self.refused(other, "plan")

    def test_no_room_for_the_copy(self):
        path = self.plan()
        with mock.patch.object(shutil, "disk_usage", return_value=mock.Mock(free=path.stat().st_size - 1)):
            with mock.patch.object(shutil, "copyfile", side_effect=AssertionError("it was copied")):
                self.refused(path, "a private copy of it needs", "free")

    def test_a_begin_of_no_database_is_not_copied(self):
        path = Path(self.folder) / "zeros.db"
        path.write_bytes(bytes(100_000))
        with mock.patch.object(shutil, "copyfile", side_effect=AssertionError("it was copied")):
            self.refused(path, "can't be read as a plan", "not a database")

    def test_names_that_mean_something_in_an_address(self):
        names = "a?b.db", "a#b.db", "100%25.db", "two words.db", "?mode=memory", "file:x.db", "-wal", "ümläut.db"
        for name in names:
            with self.subTest(name), plan_file.opened(self.plan(name)) as plan:
                self.assertEqual(plan.path, os.path.join(self.folder, name))
                self.assertGreater(plan.db.execute("SELECT count(*) FROM ltp_row").fetchone()[0], 0)

    def test_a_link(self):
        path = self.plan()
        link = Path(self.folder) / "link.db"
        with closing(sqlite3.connect(path)) as db:
            logged(db)
            link.symlink_to(path)
            with plan_file.opened(link) as plan:
                self.assertEqual(plan.meta["max_hours"], 77)

    def test_what_stands_in_the_log_is_read(self):
        path = self.plan()
        with closing(sqlite3.connect(path)) as db:
            logged(db)
            before = plans.prints(path)
            self.assertIn("plan.db-wal", before)
            with plan_file.opened(path) as plan:
                self.assertEqual(plan.meta["max_hours"], 77)
            self.assertEqual(before, plans.prints(path))

    def test_a_journal_takes_no_other_file_away(self):
        """The journal of a stopped transaction may name a file, which SQLite takes away once it has gone back."""
        path, other = self.plan(), Path(self.folder) / "other.txt"
        other.write_text("of somebody else\n", encoding="utf-8")
        with closing(sqlite3.connect(path)) as db:
            db.execute("PRAGMA wal_checkpoint(TRUNCATE)")
        magic, name = bytes.fromhex("d9d505f920a163d7"), bytes(other)
        numbers = (0, 1, path.stat().st_size // 4096, 512, 4096)
        head = magic + b"".join(number.to_bytes(4, "big") for number in numbers)
        ends = (len(name), sum(name))
        numbers_behind = b"".join(end.to_bytes(4, "big") for end in ends)
        names = ((1 << 30) // 4096 + 1).to_bytes(4, "big") + name + numbers_behind + magic
        Path(f"{path}-journal").write_bytes(head + bytes(512 - len(head)) + names)
        self.refused(path, "plan.db-journal is beside it")
        self.assertTrue(other.exists())
        # one that SQLite leaves where nothing is to go back
        for left in (b"", bytes(512)):
            Path(f"{path}-journal").write_bytes(left)
            with plan_file.opened(path) as plan:
                self.assertTrue(plan.is_created)

    def test_what_is_no_file_beside_a_plan(self):
        for tail in ("-wal", "-journal"):
            for make in (os.mkdir, os.mkfifo):
                path = self.plan(f"{tail}-{make.__name__}.db")
                with contextlib.suppress(FileNotFoundError):
                    os.remove(f"{path}{tail}")
                make(f"{path}{tail}")
                with self.assertRaises(Unreadable) as raised, plan_file.opened(path):
                    self.fail("it was opened")
                self.assertNotIn("None", str(raised.exception))

    def test_a_change_meanwhile_is_seen(self):
        path = self.plan()
        tries, take = [], plan_file.take

        def written_to(source, target):
            if source.endswith(("-wal", "-journal")):
                take(source, target)
            else:
                tries.append(source)
                shutil.copyfile(source, target)
                if len(tries) < 3:
                    os.utime(source, ns=(0, len(tries)))

        with mock.patch.object(plan_file, "take", written_to), plan_file.opened(path) as plan:
            self.assertTrue(plan.is_created)
        self.assertEqual(len(tries), 3)

    def test_a_file_that_is_always_written_to(self):
        path = self.plan()

        def written_to(source, target):
            if not source.endswith(("-wal", "-journal")):
                shutil.copyfile(source, target)
                os.utime(source, ns=(0, os.stat(source).st_mtime_ns + 1))

        with mock.patch.object(plan_file, "take", written_to), self.assertRaises(Unreadable) as raised:
            with plan_file.opened(path):
                self.fail("it was opened")
        self.assertIn("kept writing to it", str(raised.exception))

    def test_beside_a_writer(self):
        """While another process writes all the while, what is read is a state that stood, or nothing is read."""
        path = self.plan()
        with closing(sqlite3.connect(path)) as db:
            db.execute("PRAGMA wal_autocheckpoint = 8")
            db.execute("CREATE TABLE two (a INTEGER, b INTEGER)")
            db.execute("INSERT INTO two VALUES (0, 0)")
            db.commit()
        done = threading.Event()
        writer = threading.Thread(target=write_until, args=(path, done))
        writer.start()
        try:
            for _ in range(20):
                try:
                    with plan_file.opened(path) as plan:
                        a, b = plan.db.execute("SELECT a, b FROM two").fetchone()
                        self.assertEqual(a, b)
                        self.assertEqual(plan.db.execute("PRAGMA integrity_check").fetchone()[0], "ok")
                except Unreadable as error:
                    self.assertIn("kept writing to it", str(error))
        finally:
            done.set()
            writer.join()

    @unittest.skipUnless(plans.PROGRAM.exists(), "opcplan is not built")
    def test_beside_opcplan(self):
        """While opcplan has the file open, what it answered so far is read, and it goes on as if nobody had read."""
        path = self.plan()
        words = [plans.PROGRAM, "--db", path]
        with subprocess.Popen(words, stdin=subprocess.PIPE, stdout=subprocess.PIPE, text=True) as program:
            for hours in (7, 8):
                statement = f"define options --job 90000{hours}\nmax_extension_hours = {hours}\n/*\n"
                program.stdin.write(statement)
                program.stdin.flush()
                self.assertEqual(program.stdout.readline(), "ok defined 1\n")
                before = plans.prints(path)
                with plan_file.opened(path) as plan:
                    self.assertEqual(plan.meta["max_hours"], hours)
                self.assertEqual(before, plans.prints(path))
            rest, _ = program.communicate("list cp\n")
        self.assertTrue(rest.splitlines()[-1].startswith("ok rows "))
        self.assertEqual(program.returncode, 0)


def logged(db):
    """A change that stands in the log alone."""
    db.execute("PRAGMA wal_autocheckpoint = 0")
    db.execute("UPDATE plan_meta SET max_hours = 77")
    db.commit()


def write_until(path, done):
    """Writes two equal numbers, each in a statement of its own, over and over, with short rests."""
    with closing(sqlite3.connect(path, timeout=30)) as db:
        number = 0
        while not done.is_set():
            number += 1
            db.execute("UPDATE two SET a = ?", (number,))
            db.execute("UPDATE two SET b = ?", (number,))
            db.commit()
            done.wait(0.03 * (number % 3))


if __name__ == "__main__":
    unittest.main()
