"""./plan backup: the copy is the plan, with what stands in its log; and what is no sound plan, or would write over
something, is told."""

import gzip
import os
import resource
import signal
import sqlite3
import subprocess
import unittest
from contextlib import closing
from pathlib import Path

from support import expected, plans
from support.backup_rooms import BackupRoom, MONDAY, TUESDAY


@unittest.skipUnless(plans.PROGRAM.exists(), "opcplan is not built")
class Backup(BackupRoom, unittest.TestCase):
    def made(self, *words):
        """Asks that a copy is made, and the plan stays."""
        before = plans.prints(self.plan)
        ran = self.backup(*words)
        self.assertEqual((ran.returncode, ran.stderr, ran.stdout.count("\n")), (0, "", 1))
        self.assertEqual(plans.prints(self.plan), before)
        self.assertEqual(os.listdir(self.kept), ["backup.db"])

    def refused(self, message, *words, status=1, **how):
        """Asks that no copy is made, and all stays."""
        self.refused_by(lambda: self.backup(*words, **how), message, status)

    def changed(self, *texts):
        """Changes the plan by hand, so that it has no log."""
        with closing(sqlite3.connect(self.plan)) as db:
            for text in texts:
                db.execute(text)
            db.commit()
            db.execute("PRAGMA wal_checkpoint(TRUNCATE)")

    def test_the_copy_is_the_plan(self):
        self.made()
        self.assertEqual(expected.of_file(self.file), expected.of_stream(MONDAY))

    def test_beside_a_run(self):
        with expected.held(self.plan, TUESDAY) as program:
            self.made()
            rest, _ = program.communicate(b"cp-complete --app REPORT --ia 2024-01-01/20.00 --job 12\n")
        self.assertEqual(rest, b"ok serial 2 status C\n")
        self.assertEqual(expected.of_file(self.file), expected.of_stream(MONDAY, TUESDAY))

    def test_what_a_killed_run_left_in_the_log(self):
        expected.killed(self.plan, TUESDAY)
        self.made()
        self.assertEqual(expected.of_file(self.file), expected.of_stream(MONDAY, TUESDAY))

    @unittest.skipIf(os.getuid(), "only root can make a link of another user")
    def test_a_link_that_another_user_made(self):
        other = self.room / "other"
        other.write_bytes(b"something of mine")
        self.file.symlink_to(other)
        os.lchown(self.file, 65534, 65534)
        ran = self.backup("--force")
        self.assertEqual((ran.returncode, ran.stdout, ran.stderr.count("\n")), (1, "", 1), ran.stderr)
        self.assertIn("link that another user made", ran.stderr)
        self.assertEqual(other.read_bytes(), b"something of mine")
        os.lchown(self.file, 0, 0)
        self.assertEqual(self.backup("--force").returncode, 0)

    def test_a_plan_with_sums(self):
        os.remove(self.plan)
        Path(f"{self.plan}-wal").unlink(missing_ok=True)
        subprocess.run([plans.PROGRAM, "--db", self.plan, "--sums"], input=MONDAY, capture_output=True, check=True)
        expected.killed(self.plan, TUESDAY)
        self.made()
        self.assertEqual(expected.of_file(self.file), expected.of_stream(MONDAY, TUESDAY))
        self.assertEqual(self.file.read_bytes()[20], 8)
        data = bytearray(self.plan.read_bytes())
        for place in (20_000, 50_000):
            data[place] ^= 1
        self.plan.write_bytes(data)
        self.file.unlink()
        self.refused(str(self.plan))

    def test_what_is_no_sound_plan(self):
        whole = self.plan.read_bytes()
        for message, *texts in (
            (str(self.plan), "DELETE FROM cp_row"),
            (str(self.plan), "UPDATE ltp_row SET app = 'no name' WHERE serial = 3"),
            (str(self.plan), "CREATE TRIGGER seen AFTER INSERT ON cp_row BEGIN SELECT 1; END"),
            ("fault 50", "CREATE VIEW one AS VALUES (1)"),
        ):
            with self.subTest(texts):
                self.changed(*texts)
                self.refused(message)
            self.plan.write_bytes(whole)

    def test_a_damaged_plan(self):
        with closing(sqlite3.connect(self.plan)) as db:
            query = "SELECT rootpage FROM sqlite_schema WHERE name = 'sqlite_autoindex_ltp_row_1'"
            (page,) = db.execute(query).fetchone()
            db.execute("PRAGMA wal_checkpoint(TRUNCATE)")
        data = bytearray(self.plan.read_bytes())
        at = 4096 * (page - 1)
        data[at + 8 : at + 10], data[at + 10 : at + 12] = data[at + 10 : at + 12], data[at + 8 : at + 10]
        self.plan.write_bytes(data)
        self.refused(str(self.plan))

    def test_a_file_that_is_there_stays_without_force(self):
        self.file.write_bytes(b"something of mine\n")
        self.refused("--force replaces it")
        self.made("--force")
        self.assertEqual(expected.of_file(self.file), expected.of_stream(MONDAY))

    def test_what_the_copy_may_not_take_away(self):
        (self.kept / "folder").mkdir()
        os.mkfifo(self.kept / "pipe")
        for file, message, status in (
            (self.plan, "name another file", 2),
            (Path(f"{self.plan}-wal"), "name another file", 2),
            (self.kept / "folder", "it is not a file", 1),
            (self.kept / "pipe", "it is not a file", 1),
        ):
            self.file = file
            self.refused(message, "--force", status=status)

    def test_a_log_beside_the_copy_is_never_read_with_it(self):
        for tail, data in (("-wal", b"what a run left" * 9), ("-wal", b"notes"), ("-journal", b"notes")):
            beside = Path(f"{self.file}{tail}")
            beside.write_bytes(data)
            self.refused(f"backup.db{tail} is beside it")
            self.refused(f"backup.db{tail} is beside it", "--force")
            beside.unlink()
        self.made()
        expected.killed(self.file, TUESDAY)
        self.refused("backup.db-wal is beside it", "--force")

    def test_a_copy_that_a_program_has_open(self):
        self.made()
        with expected.held(self.file):
            self.refused("another program has it open", "--force")

    def test_no_plan_and_no_folder(self):
        self.file = self.kept / "none" / "backup.db"
        ran = self.backup()
        self.assertEqual((ran.returncode, ran.stdout, ran.stderr.count("\n")), (1, "", 1))
        self.file, self.plan = self.kept / "backup.db", self.kept / "none.db"
        self.refused("there is no such file")

    def test_a_disk_that_is_full(self):
        def limited():
            signal.signal(signal.SIGXFSZ, signal.SIG_IGN)
            resource.setrlimit(resource.RLIMIT_FSIZE, (60_000, 60_000))

        self.refused("", preexec_fn=limited)

    def test_a_plan_of_schema_1_keeps_its_schema(self):
        Path(f"{self.plan}-wal").unlink(missing_ok=True)
        self.plan.write_bytes(gzip.decompress((plans.DATA / "schema-1.db.gz").read_bytes()))
        self.made()
        with closing(sqlite3.connect(self.file)) as db:
            self.assertEqual(db.execute("SELECT version FROM plan_meta").fetchone(), (1,))
        self.assertEqual(expected.of_file(self.file), expected.of_stream(plans.stream("two-hundred-statements")))


if __name__ == "__main__":
    unittest.main()
