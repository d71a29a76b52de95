"""kept_checks: a plan's file that was checked isn't checked again until it changes; whatever changes it shows."""

import ast
import contextlib
import os
import shutil
import sqlite3
import subprocess
import tempfile
import time
import unittest
from contextlib import closing
from pathlib import Path
from unittest import mock

from support import plans

from opcplan.errors import Unreadable
from opcplan.plans import kept_checks, plan_file, sound_rows, tempfiles

PLAN = "week-of-daily-plans"
NOW = "2024-01-03/12.00"
# a row of which no plan is sound: its status is none
UNSOUND = "UPDATE cp_row SET status = 'X' WHERE serial = (SELECT min(serial) FROM cp_row)"
SOUND = "UPDATE plan_meta SET max_hours = max_hours - 1"
OTHER = 54321  # a user
# modules that a check imports and doesn't go by
OF_NO_CHECK = {"errors.py", "rules/printable.py", "plans/kept_checks.py", "plans/progress.py", "plans/tempfiles.py"}


@unittest.skipUnless(plans.PROGRAM.exists(), "opcplan is not built")
class KeptChecks(unittest.TestCase):
    def setUp(self):
        room = tempfile.TemporaryDirectory(prefix="kept-checks-")
        self.addCleanup(room.cleanup)
        self.room = Path(room.name)
        self.cache = self.room / "cache"
        self.cache.mkdir(0o700)
        patched = mock.patch.dict(os.environ, XDG_CACHE_HOME=str(self.cache))
        patched.start()
        self.addCleanup(patched.stop)
        self.checks = 0

    def plan(self, name="plan.db"):
        """A plan whose last change is old enough to be told from another one."""
        path = plans.copy_of(plans.of_worked(PLAN), self.room, name)
        with closing(sqlite3.connect(path)) as db:
            db.execute("PRAGMA wal_checkpoint(TRUNCATE)")
        time.sleep(2 * plan_file.COARSE)
        return path

    def read(self, path, way=plan_file.answer):
        """What is read of a plan; the checks that this takes are counted."""
        asked = sound_rows.asked

        def counted(db, version):
            self.checks += 1
            return asked(db, version)

        with mock.patch.object(sound_rows, "asked", counted):
            return way(path, lambda plan: plan.meta["max_hours"])

    def assert_checks(self, count, path, way=plan_file.answer):
        """Asks that reading a plan takes so many checks, whether it is sound or not."""
        before = self.checks
        with contextlib.suppress(Unreadable):
            self.read(path, way)
        self.assertEqual(self.checks - before, count)

    def kept(self):
        folder = self.cache / kept_checks.FOLDER
        return sorted(folder.iterdir()) if folder.is_dir() else []

    # What has not changed.

    def test_unchanged_file_is_checked_once(self):
        path, before = self.plan(), None
        self.assert_checks(1, path)
        before = plans.prints(path)
        for way in (plan_file.answer, opened, plan_file.answer):
            self.assert_checks(0, path, way)
        self.assertEqual(plans.prints(path), before)
        self.assertEqual(len(self.kept()), 1)

    def test_commands_share_what_is_kept(self):
        path = self.plan()
        self.assertEqual(plans.plan("late", path, "--now", NOW).stderr, "")
        self.assertEqual(len(self.kept()), 1)
        for words in (["ready", path, "--now", NOW], ["rows", path], ["rows", path, "cp"], ["next-job", path],
                      ["why", path, "1"], ["export", path, "--csv"]):
            expected = plans.plan(*words, "--again")
            self.assertEqual(plans.plan(*words).stdout, expected.stdout, words)
            self.assertEqual(expected.stderr, "")
        self.assert_checks(0, path)

    def test_link_and_file_are_one(self):
        path = self.plan()
        (self.room / "link.db").symlink_to(path)
        self.assert_checks(1, path)
        self.assert_checks(0, self.room / "link.db")

    # What has changed.

    def changes(self, text):
        """By name each way in which a file gets a change of its rows."""

        def by_sqlite(path):
            with closing(sqlite3.connect(path)) as db:
                db.execute(text)
                db.commit()

        def in_log_alone(path):
            ran = subprocess.run(["sqlite3", path, "PRAGMA journal_mode = WAL", "PRAGMA wal_autocheckpoint = 0", text,
                                  ".shell kill -9 $PPID"], capture_output=True, check=False)
            self.assertLess(ran.returncode, 0, ran.stderr)
            self.assertGreater(os.path.getsize(f"{path}-wal"), plan_file.MOST_WITHOUT_PAGES)

        def in_place_with_old_times(path):
            seen, data = os.stat(path), changed_copy(path, by_sqlite).read_bytes()
            self.assertEqual(len(data), seen.st_size)
            with open(path, "r+b") as file:
                file.write(data)
            os.utime(path, ns=(seen.st_atime_ns, seen.st_mtime_ns))
            self.assertEqual(os.stat(path).st_mtime_ns, seen.st_mtime_ns)

        def other_inode_with_old_times(path):
            seen = os.stat(path)
            other = changed_copy(path, by_sqlite)
            os.utime(other, ns=(seen.st_atime_ns, seen.st_mtime_ns))
            self.assertEqual(os.path.getsize(other), seen.st_size)
            os.replace(other, path)

        def by_one_byte(path):
            data = bytearray(path.read_bytes())
            other = changed_copy(path, by_sqlite).read_bytes()
            for place in (at for at in range(len(data)) if data[at] != other[at] and not 24 <= at < 100):
                with open(path, "r+b") as file:
                    file.seek(place)
                    file.write(other[place : place + 1])

        return {way.__name__: way for way in
                (by_sqlite, in_log_alone, in_place_with_old_times, other_inode_with_old_times, by_one_byte)}

    def test_each_kind_of_change_is_checked_and_refused_as_often_as_it_is_read(self):
        for name in self.changes(UNSOUND):
            with self.subTest(name):
                path = self.plan(f"{name}.db")
                self.assert_checks(1, path)
                self.changes(UNSOUND)[name](path)
                for way in (plan_file.answer, opened, plan_file.answer):
                    time.sleep(2 * plan_file.COARSE)
                    with self.assertRaises(Unreadable) as raised:
                        self.read(path, way)
                    self.assertIn("no sound plan: status of cp_row is 'X'", str(raised.exception))
                for words in (["late", path], ["ready", path], ["rows", path, "--app", "A"], ["why", path, "1"]):
                    ran = plans.plan(*words)
                    self.assertEqual((ran.returncode, ran.stdout), (1, ""), words)

    def test_each_kind_of_change_that_is_sound_is_checked_and_read(self):
        for name in self.changes(SOUND):
            with self.subTest(name):
                path = self.plan(f"{name}.db")
                hours = self.read(path)
                self.changes(SOUND)[name](path)
                self.assert_checks(1, path)
                self.assertEqual(self.read(path), hours - 1)

    def test_change_by_opcplan_is_checked_and_read(self):
        path = self.plan()
        self.read(path)
        text = b"define options --job 900001\nmax_extension_hours = 7\n/*\n"
        subprocess.run([plans.PROGRAM, "--db", path], input=text, capture_output=True, check=True)
        time.sleep(2 * plan_file.COARSE)
        self.assert_checks(1, path)
        self.assert_checks(0, path)
        self.assertEqual(self.read(path), 7)

    def test_log_that_comes_or_goes_is_a_change(self):
        path = self.plan()
        hours = self.read(path)
        self.changes(SOUND)["in_log_alone"](path)
        time.sleep(2 * plan_file.COARSE)
        self.assert_checks(1, path)
        self.assert_checks(0, path)
        self.assertEqual(self.read(path), hours - 1)
        os.remove(f"{path}-wal")
        self.assert_checks(1, path)
        self.assertEqual(self.read(path), hours)

    def test_earlier_file_that_comes_back_is_checked(self):
        path, aside = self.plan(), self.room / "aside.db"
        self.read(path)
        shutil.copy2(path, aside)
        self.changes(UNSOUND)["by_sqlite"](path)
        self.assert_checks(1, path)
        shutil.copy2(aside, path)
        self.assertEqual(os.stat(aside).st_mtime_ns, os.stat(path).st_mtime_ns)
        self.assert_checks(1, path)

    def test_sums_that_are_put_on_are_checked(self):
        path = self.plan()
        self.read(path)
        subprocess.run(["sqlite3", path, ".filectrl reserve_bytes 8", f"VACUUM INTO '{self.room}/with.db'"], check=True,
                       capture_output=True)
        os.replace(self.room / "with.db", path)
        with self.assertRaises(Unreadable):
            self.read(path)
        subprocess.run([plans.TOP / "tools" / "reference" / "put-sums", path], check=True, capture_output=True)
        time.sleep(2 * plan_file.COARSE)
        self.assert_checks(1, path)
        self.assert_checks(0, path)
        with open(path, "r+b") as file:
            file.seek(-20, os.SEEK_END)
            file.write(b"damaged")
        with self.assertRaises(Unreadable) as raised:
            self.read(path)
        self.assertIn("doesn't match its sum", str(raised.exception))

    def test_file_that_changes_as_it_is_read_is_read_again(self):
        path = self.plan()
        hours, seen = self.read(path), []

        def slow(plan):
            seen.append(plan.meta["max_hours"])
            if len(seen) == 1:
                self.changes(SOUND)["by_sqlite"](path)
                raise KeyError("what is half read")
            return seen[-1]

        self.assertEqual(plan_file.answer(path, slow), hours - 1)
        self.assertEqual(seen, [hours, hours - 1])

    def test_error_over_an_unchanged_file_is_raised(self):
        path = self.plan()
        self.read(path)
        with self.assertRaises(KeyError):
            plan_file.answer(path, lambda plan: {}["a"])
        with self.assertRaises(Unreadable):
            plan_file.answer(path, lambda plan: plan.db.execute("SELECT * FROM nothing"))

    def test_beside_a_run(self):
        """While opcplan has the file, what it answered is read, it goes on, and nothing is left beside the file."""
        path = self.plan()
        self.read(path)
        with subprocess.Popen([plans.PROGRAM, "--db", path], stdin=subprocess.PIPE, stdout=subprocess.PIPE) as ran:
            for hours in (7, 8):
                ran.stdin.write(f"define options --job 90000{hours}\nmax_extension_hours = {hours}\n/*\n".encode())
                ran.stdin.flush()
                self.assertEqual(ran.stdout.readline(), b"ok defined 1\n")
                before = plans.prints(path)
                self.assertEqual([self.read(path), self.read(path)], [hours, hours])
                self.assertEqual(plans.prints(path), before)
            rest, _ = ran.communicate(b"list cp\n")
        self.assertEqual(ran.returncode, 0)
        self.assertIn(b"ok rows ", rest)

    def test_copy_that_passes_is_not_kept(self):
        path = self.plan()
        with tempfiles.folder("kept-") as folder:
            copy = plans.copy_of(path, folder, "copy.db")
            time.sleep(2 * plan_file.COARSE)
            self.assert_checks(1, copy)
            self.assert_checks(1, copy)
        self.assertEqual(self.kept(), [])

    # Which results count.

    def test_file_that_was_just_written_is_not_kept(self):
        path = self.plan()
        with mock.patch.object(plan_file, "granule", return_value=10**13):
            self.read(path)  # as on a disk whose times are far apart
        os.utime(path, ns=(0, time.time_ns() + 10**13))
        self.read(path)  # as if the clock of the disk were ahead
        self.assertEqual(self.kept(), [])
        self.assert_checks(1, path)

    def test_when_a_change_would_show(self):
        second, now = plan_file.SECOND, 1_800_000_000 * plan_file.SECOND
        for ago, whole, settled in ((0, False, False), (0.01, False, False), (0.03, False, True), (1, True, False),
                                    (3, True, True), (-5, False, False)):
            at = now - int(ago * second) - (0 if whole else 1)
            stamp = plan_file.Stamp("", 1, at, 2, 3, at)
            with self.subTest(ago=ago, whole=whole):
                self.assertIs(plan_file.State((stamp,), ("",), now).is_settled, settled)

    def test_result_that_others_could_have_written_is_not_trusted(self):
        path = self.plan()
        for change in (lambda: os.chmod(self.cache / "opcplan", 0o770), lambda: os.chmod(self.cache / "opcplan", 0o707),
                       lambda: os.chmod(self.kept()[0], 0o620), lambda: os.chmod(self.kept()[0], 0o602)):
            self.read(path, opened)
            self.assert_checks(0, path)
            change()
            self.assert_checks(1, path)
            shutil.rmtree(self.cache / "opcplan")

    @unittest.skipIf(os.geteuid(), "it takes root to give files away")
    def test_result_of_another_user_is_not_trusted(self):
        path = self.plan()
        for given in (lambda: self.cache / "opcplan", lambda: self.kept()[0]):
            self.read(path, opened)
            os.chown(given(), OTHER, OTHER)
            self.assert_checks(1, path)
            shutil.rmtree(self.cache / "opcplan")
        os.chown(self.cache, OTHER, OTHER)
        self.assert_checks(1, path)
        self.assertEqual(list(self.cache.iterdir()), [])

    def test_links_and_other_things_are_not_trusted(self):
        path = self.plan()
        self.read(path)
        (kept,) = self.kept()
        text = kept.read_bytes()
        for make in (lambda: kept.symlink_to(self.room / "text"), lambda: os.mkfifo(kept), kept.mkdir,
                     lambda: kept.write_bytes(text[:-2] + b"\n"), lambda: kept.write_bytes(b""),
                     lambda: kept.write_bytes(text + b"\n"), lambda: kept.write_bytes(text.replace(b"3.", b"2.", 1))):
            kept.unlink()
            (self.room / "text").write_bytes(text)
            make()
            with mock.patch.object(kept_checks, "put"):
                self.assert_checks(1, path)
            shutil.rmtree(kept) if kept.is_dir() else None
            kept.touch()
        kept.write_bytes(text)
        self.assert_checks(0, path)
        os.rename(self.cache / "opcplan", self.cache / "other")
        (self.cache / "opcplan").symlink_to("other")
        self.assert_checks(1, path)

    def test_result_by_other_rules_is_not_trusted(self):
        path = self.plan()
        self.read(path)
        for name in kept_checks.RULES:
            with mock.patch.object(kept_checks, "bytes_of", lambda asked, name=name: b"" if asked == name else
                                   Path(kept_checks.PACKAGE, asked).read_bytes()):
                with mock.patch.object(kept_checks, "put"):
                    self.assert_checks(1, path)
        with mock.patch.object(sqlite3, "sqlite_version", "9.9"), mock.patch.object(kept_checks, "put"):
            self.assert_checks(1, path)
        self.assert_checks(0, path)

    def test_rules_are_what_decides(self):
        """Each module that a check goes by is among the rules, but for errors, words, and files."""
        left, seen = set(kept_checks.RULES), set()
        while left:
            name = left.pop()
            seen.add(name)
            tree = ast.parse(Path(kept_checks.PACKAGE, name).read_text(encoding="utf-8"))
            for node in ast.walk(tree):
                if isinstance(node, ast.ImportFrom) and node.module.startswith("opcplan"):
                    found = {"/".join([*node.module.split(".")[1:], one.name]) + ".py" for one in node.names}
                    found |= {"/".join(node.module.split(".")[1:]) + ".py"}
                    left |= {one for one in found if Path(kept_checks.PACKAGE, one).is_file()} - seen - OF_NO_CHECK
        self.assertEqual(seen, set(kept_checks.RULES))

    def test_where_results_are(self):
        path, home = self.plan(), self.room / "home"
        home.mkdir()
        for given, place in ({"XDG_CACHE_HOME": str(self.cache)}, self.cache), ({"XDG_CACHE_HOME": "relative"},
                            home / ".cache"), ({"XDG_CACHE_HOME": ""}, home / ".cache"):
            with mock.patch.dict(os.environ, {**given, "HOME": str(home)}):
                self.assert_checks(1, path)
                self.assert_checks(0, path)
            self.assertEqual([found.stat().st_mode & 0o777 for found in (place / "opcplan").iterdir()], [0o600])
            self.assertEqual((place / "opcplan").stat().st_mode & 0o777, 0o700)
            shutil.rmtree(place / "opcplan")
        with mock.patch.dict(os.environ, {"XDG_CACHE_HOME": "", "HOME": str(self.room / "nowhere")}):
            self.assert_checks(1, path)
            self.assert_checks(1, path)

    def test_cache_that_takes_nothing_is_none(self):
        path = self.plan()
        (self.cache / "opcplan").write_bytes(b"no folder")
        self.assert_checks(1, path)
        self.assert_checks(1, path)
        with mock.patch.object(os, "replace", side_effect=OSError(28, "No space left on device")):
            (self.cache / "opcplan").unlink()
            self.assert_checks(1, path)
        self.assertEqual(self.kept(), [])

    def test_old_results_go(self):
        path = self.plan()
        self.read(path)
        with mock.patch.object(kept_checks, "MOST_KEPT", 10):
            for number in range(12):
                kept_checks.put(kept_checks.StoredResult(f"{number:064x}", "x"))
                self.assertLessEqual(len(self.kept()), 11)

    def test_again_checks_anew(self):
        path = self.plan()
        self.changes(UNSOUND)["by_sqlite"](path)
        time.sleep(2 * plan_file.COARSE)
        kept_checks.put(kept_checks.of_file(str(path), plan_file.state_of(str(path)).text))
        for words in (["rows", path, "cp"], ["late", path, "--now", NOW], ["export", path, "--csv"]):
            self.assertNotEqual(plans.plan(*words).stdout, "")
            ran = plans.plan(*words, "--again")
            self.assertEqual((ran.returncode, ran.stdout), (1, ""))
            self.assertIn("no sound plan", ran.stderr)


def opened(path, make):
    """The other way to read a plan: a private copy."""
    with plan_file.opened(path) as plan:
        return make(plan)


def changed_copy(path, change):
    """A copy of a file, with a change."""
    other = path.with_name(f"{path.name}.changed")
    shutil.copyfile(path, other)
    change(other)
    with closing(sqlite3.connect(other)) as db:
        db.execute("PRAGMA wal_checkpoint(TRUNCATE)")
    return other


if __name__ == "__main__":
    unittest.main()
