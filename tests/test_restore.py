"""./plan restore: the backup takes the plan's place, what stood there is kept whole, and a restore that is stopped at
any call leaves no file that is served as another plan."""

import os
import re
import shutil
import sqlite3
import unittest
from contextlib import closing
from pathlib import Path
from unittest import mock

from support import expected, plans
from support.backup_rooms import BackupRoom, MONDAY, TUESDAY

from opcplan.commands import restore


CALLS = ("open", "link", "rename", "replace", "remove", "fsync", "fchmod", "fchown", "close")


def stopped_at(number, copy, path):
    """Whether a process that puts a copy in the place of a plan is gone before its call of this number."""
    child = os.fork()
    if child:
        status = os.waitstatus_to_exitcode(os.waitpid(child, 0)[1])
        assert status in (0, 9), status
        return status == 9
    left = number

    def stopping(call):
        def called(*words, **named):
            nonlocal left
            left -= 1
            if not left:
                os._exit(9)
            return call(*words, **named)

        return called

    leave = os._exit
    try:
        for name in CALLS:
            setattr(os, name, stopping(getattr(os, name)))
        restore.put_back(copy, path, copy)
        leave(0)
    finally:
        leave(1)


@unittest.skipUnless(plans.PROGRAM.exists(), "opcplan is not built")
class Restore(BackupRoom, unittest.TestCase):
    def setUp(self):
        super().setUp()
        made = self.backup()
        self.assertEqual(made.returncode, 0, made.stderr)

    def refused(self, message, status=1):
        self.refused_by(self.restore, message, status)

    def restored(self):
        """Asks that the plan is the backup, alone, and answers the name under which what stood there is kept."""
        kept = plans.prints(self.file)
        ran = self.restore()
        self.assertEqual((ran.returncode, ran.stderr), (0, ""))
        self.assertEqual(plans.prints(self.file), kept)
        self.assertEqual(expected.of_file(self.plan), expected.of_stream(MONDAY))
        beside = sorted(os.listdir(self.room))
        self.assertEqual([name for name in beside if not name.startswith("plan.db.")], ["plan.db"])
        return [self.room / name for name in re.findall(r"was there is now (\S+)(?: and \S+)*, in", ran.stdout)]

    def test_a_log_of_a_killed_run_is_set_aside_with_its_file(self):
        expected.killed(self.plan, TUESDAY)
        (aside,) = self.restored()
        self.assertEqual(expected.of_file(aside), expected.of_stream(MONDAY, TUESDAY))

    def test_what_a_copy_over_the_file_does_is_not_done(self):
        """A backup that is copied over the file of a killed run is read with that run's log."""
        expected.killed(self.plan, TUESDAY)
        shutil.copyfile(self.plan, self.kept / "old.db")
        shutil.copyfile(f"{self.plan}-wal", self.kept / "old.db-wal")
        shutil.copyfile(self.file, self.kept / "old.db")
        self.assertNotEqual(expected.of_file(self.kept / "old.db"), expected.of_stream(MONDAY))
        self.restored()

    def test_mode_and_link_stay(self):
        self.plan.chmod(0o640)
        self.plan.rename(self.room / "real.db")
        (self.room / "plan.db-wal").unlink(missing_ok=True)
        self.plan.symlink_to("real.db")
        ran = self.restore()
        self.assertEqual((ran.returncode, ran.stderr), (0, ""))
        self.assertTrue(self.plan.is_symlink())
        self.assertEqual((self.room / "real.db").stat().st_mode & 0o777, 0o640)
        self.assertEqual(expected.of_file(self.plan), expected.of_stream(MONDAY))

    def test_never_while_a_program_has_it_open(self):
        with expected.held(self.plan, TUESDAY) as program:
            self.refused("another program has it open")
            rest, _ = program.communicate(b"list links\n")
            self.assertIn(b"ok rows", rest)
        with closing(sqlite3.connect(self.plan)) as db:
            db.execute("SELECT count(*) FROM job").fetchall()
            ran = self.restore()
            self.assertEqual((ran.returncode, ran.stdout), (1, ""))
            self.assertIn("another program has it open", ran.stderr)
        self.assertEqual(expected.of_file(self.plan), expected.of_stream(MONDAY, TUESDAY))

    def test_a_backup_that_opcplan_would_not_take(self):
        with closing(sqlite3.connect(self.file)) as db:
            db.execute("DELETE FROM cp_row")
            db.commit()
            db.execute("PRAGMA wal_checkpoint(TRUNCATE)")
        expected.killed(self.plan, TUESDAY)
        self.refused(str(self.file))
        self.file.write_bytes(b"no plan")
        self.refused(str(self.file))
        self.file.unlink()
        self.refused("there is no such file")

    def test_a_plan_that_is_no_plan_is_set_aside_too(self):
        self.plan.write_bytes(b"damaged\n" * 999)
        (aside,) = self.restored()
        self.assertEqual(aside.read_bytes(), b"damaged\n" * 999)

    def test_a_journal_is_never_left_beside_the_backup(self):
        for tail in ("-journal", "-shm"):
            Path(f"{self.plan}{tail}").write_bytes(b"\xd9\xd5\x05\xf9" * 200)
        (aside,) = self.restored()
        self.assertEqual(Path(f"{aside}-journal").read_bytes(), b"\xd9\xd5\x05\xf9" * 200)

    def test_a_plan_that_is_gone(self):
        expected.killed(self.plan, TUESDAY)
        log = Path(f"{self.plan}-wal").read_bytes()
        self.plan.unlink()
        (aside,) = self.restored()
        self.assertEqual(aside.read_bytes(), log)

    def test_wrong_places(self):
        self.file, before = self.plan, self.file
        self.refused("one file", status=2)
        self.file, self.plan = before, self.room / "folder"
        self.plan.mkdir()
        self.refused("it is not a file")
        self.plan = self.room / "none" / "plan.db"
        ran = self.restore()
        self.assertEqual((ran.returncode, ran.stdout, ran.stderr.count("\n")), (1, "", 1))

    def test_two_in_one_second(self):
        found = {aside for _ in range(3) for aside in self.restored()}
        self.assertEqual(len(found), 3)

    def test_a_disk_that_takes_no_second_name(self):
        """All stays as it was."""
        expected.killed(self.plan, TUESDAY)
        before = plans.prints(self.plan)
        with mock.patch("os.link", side_effect=PermissionError(1, "no")), self.assertRaises(PermissionError):
            restore.put_back(self.file, str(self.plan), self.file)
        self.assertEqual(plans.prints(self.plan), before)
        with mock.patch("os.fchmod", side_effect=OSError(28, "full")), self.assertRaises(OSError):
            restore.put_back(self.file, str(self.room / "new.db"), self.file)
        self.assertEqual(plans.prints(self.plan), before)

    def test_stopped_at_each_call(self):
        """What is left is the old plan, whole, or a file that opcplan doesn't open, or the backup; the same words again
        end it, and what stood there is kept with its log."""
        expected.killed(self.plan, TUESDAY)
        old, new = expected.of_stream(MONDAY, TUESDAY), expected.of_stream(MONDAY)
        beginning = {name: (self.room / name).read_bytes() for name in os.listdir(self.room)}
        seen, number, goes_on = set(), 0, True
        while goes_on:
            number += 1
            shutil.rmtree(self.room)
            self.room.mkdir()
            for name, data in beginning.items():
                (self.room / name).write_bytes(data)
            goes_on = stopped_at(number, self.file, str(self.plan))
            # where the file stands, so that a second name of it is there
            lines, _, said = expected.asked(self.plan, expected.LOOK)
            state = {"fault 50": "refused"}.get(lines[0], "old" if lines == old else "new" if lines == new else lines)
            self.assertIn(state, ("old", "refused", "new"), (number, said))
            seen.add(state)
            if state == "refused":
                restore.put_back(self.file, str(self.plan), self.file)
                self.assertEqual(expected.asked(self.plan, expected.LOOK)[0], new)
            if state != "old":
                (aside,) = self.room.glob("plan.db.*[0-9]")
                self.assertEqual(expected.asked(aside, expected.LOOK)[0], old, number)
            hidden = [name for name in os.listdir(self.room) if name.startswith(".")]
            self.assertIn(hidden, ([], [".plan.db.restore"]) if state == "old" else ([],))
        self.assertEqual(seen, {"old", "refused", "new"})
        self.assertGreater(number, 15)


if __name__ == "__main__":
    unittest.main()
