"""What opcplan says at its end where FILE or FILE-wal was taken away, replaced or cut while it ran. Its answers and
its status are those of a run that nobody disturbed."""

import contextlib
import hashlib
import os
import re
import select
import sqlite3
import subprocess
import tempfile
import time
import unittest
from contextlib import closing
from pathlib import Path

from support import expected, plans

OPTIONS = b"define options --job 900001\nmax_extension_hours = 99\n/*\n"
ASKED = b"list ltp --app NOBODY\n"
MORE = b"define options --job 900002\nmax_extension_hours = 98\n/*\n"
TAKEN = "the file was removed while this ran"
REPLACED = "another file is at this path now"
CUT = "the file was cut or overwritten while this ran"
OTHER_LOG = "the -wal file is not the log that this run wrote"
LOG_CUT = "the disk failed while the file was being closed, or the -wal file was cut or removed"
BACKUP = "./plan restore"
AGAIN = "un the whole stream again"
LOG_AWAY = "Remove the -wal file"
# what a log has that holds nothing
EMPTY_LOG = 41


def sum_of(path):
    return hashlib.sha256(Path(path).read_bytes()).hexdigest()


def wait_until_it_reads(number):
    """Waits until a process sleeps: a run does so where it reads its input, and has looked at its files before."""
    until = time.monotonic() + 60
    while Path(f"/proc/{number}/stat").read_text(encoding="ascii").rpartition(")")[2].split()[0] != "S":
        if time.monotonic() > until:
            raise AssertionError("it doesn't wait for its input")
        time.sleep(0.005)


@unittest.skipUnless(plans.PROGRAM.exists(), "opcplan is not built")
class Touched(unittest.TestCase):
    def setUp(self):
        room = tempfile.TemporaryDirectory(prefix="touched-")
        self.addCleanup(room.cleanup)
        self.room = Path(room.name)
        self.start("two-hundred-statements")

    def start(self, name):
        """Begins anew with the plan of a worked stream, and another one beside it."""
        for path in self.room.iterdir():
            path.unlink()
        self.plan = plans.copy_of(plans.of_worked(name), self.room)
        self.other = plans.copy_of(plans.of_worked("monday"), self.room, "other.db")
        self.log = Path(f"{self.plan}-wal")

    @contextlib.contextmanager
    def running(self, text, file=None):
        """A run that has answered a stream, and waits at a pipe for more."""
        words = [plans.PROGRAM, "--db", file or self.plan]
        ends = {"stdin": subprocess.PIPE, "stdout": subprocess.PIPE, "stderr": subprocess.PIPE}
        with subprocess.Popen(words, bufsize=0, **ends) as ran:
            ran.stdin.write(text + ASKED)
            answers = b""
            while not answers.endswith(b"ok rows 0\n"):
                self.assertTrue(select.select([ran.stdout], [], [], 60)[0], "no answer in a minute")
                answers += ran.stdout.read(8192)
            self.assertEqual(answers, b"ok defined 1\nok rows 0\n" if text else b"ok rows 0\n")
            wait_until_it_reads(ran.pid)
            yield ran
            ran.wait(timeout=60)

    def touched(self, touch, text=OPTIONS, more=b"", answers=b"", file=None):
        """What is said of a run that files were touched in, once its answers and its status are as they should be."""
        with self.running(text, file) as ran:
            touch()
            out, stderr = ran.communicate(more, timeout=60)
        self.assertEqual((out, ran.returncode), (answers, 0), stderr)
        lines = stderr.decode().splitlines()
        self.assertLessEqual(len(lines), 1, stderr)
        return "".join(lines)

    def check_reported(self, message, *said, unsaid=()):
        self.assertRegex(message, rf"\Aopcplan: [^:]+: {re.escape(said[0])}")
        for one in said:
            self.assertIn(one, message)
        for one in ("othing is lost", *unsaid):
            self.assertNotIn(one, message)

    def hours(self, path):
        with closing(sqlite3.connect(path)) as db:
            return db.execute("SELECT max_hours FROM plan_meta").fetchone()[0]

    def test_nothing_happened(self):
        link, beside = self.room / "link.db", self.room / "more"
        link.symlink_to(self.plan.name)
        for file in (None, link):
            for touch in (lambda: None, lambda: os.utime(self.plan), lambda: self.plan.chmod(0o640), beside.touch):
                self.assertEqual(self.touched(touch, file=file), "")
        self.assertEqual(self.hours(self.plan), 99)

    def test_file_that_is_taken_away(self):
        for text in (OPTIONS, b""):
            for touch in (lambda: self.plan.unlink(), lambda: self.plan.rename(self.room / "elsewhere.db")):
                with self.subTest(text):
                    self.start("two-hundred-statements")
                    stderr = self.touched(touch, text, MORE, b"ok defined 1\n")
                    self.check_reported(stderr, TAKEN, BACKUP, AGAIN, unsaid=("-wal",))
        self.assertEqual(self.hours(self.room / "elsewhere.db"), 98)

    def test_file_that_is_replaced(self):
        for text in (OPTIONS, b""):
            self.start("two-hundred-statements")
            wanted = sum_of(self.other)
            stderr = self.touched(lambda: self.other.rename(self.plan), text, MORE, b"ok defined 1\n")
            self.check_reported(stderr, REPLACED, AGAIN, unsaid=("-wal",))
            self.assertEqual((sum_of(self.plan), self.log.stat().st_size), (wanted, EMPTY_LOG))
        self.assertEqual(expected.of_file(self.plan), expected.of_stream(plans.stream("monday")))

    def test_link_that_leads_elsewhere(self):
        link, new = self.room / "link.db", self.room / "new"
        link.symlink_to(self.plan.name)
        new.symlink_to(self.other.name)
        self.check_reported(self.touched(lambda: new.rename(link), file=link), REPLACED)

    def test_file_that_is_cut(self):
        """The log is not copied into what is left of it, whether or not the run wrote something."""
        whole = self.plan.stat().st_size
        for bytes_left in (0, 1, 5000, whole // 2, whole - 1):
            for text in (OPTIONS, b""):
                with self.subTest(bytes_left, text=text):
                    self.start("two-hundred-statements")
                    stderr = self.touched(lambda: os.truncate(self.plan, bytes_left), text)
                    self.check_reported(stderr, CUT, BACKUP, AGAIN)
                    self.assertEqual(self.plan.stat().st_size, bytes_left)

    def test_file_that_is_cut_before_more_statements(self):
        stderr = self.touched(lambda: os.truncate(self.plan, 5000), OPTIONS, MORE, b"ok defined 1\n")
        self.check_reported(stderr, CUT)

    def test_log_that_is_taken_away(self):
        """What it had is in FILE all the same, so nothing is said."""
        self.assertEqual(self.touched(self.log.unlink, OPTIONS, MORE, b"ok defined 1\n"), "")
        self.assertEqual((self.hours(self.plan), self.log.exists()), (98, False))

    def test_log_that_is_replaced(self):
        for text in (OPTIONS, b""):
            self.start("two-hundred-statements")
            strange = self.room / "strange"
            strange.write_bytes(b"junk" * 1000)
            stderr = self.touched(lambda: strange.rename(self.log), text, MORE, b"ok defined 1\n")
            self.check_reported(stderr, OTHER_LOG, "Remove it", "The file itself is whole")
            self.assertEqual(self.log.stat().st_size, 4000)
            self.log.unlink()
            self.assertEqual(self.hours(self.plan), 98)

    def test_log_that_is_cut(self):
        def cut():
            os.truncate(self.log, 100)

        self.check_reported(self.touched(cut), LOG_CUT, AGAIN)

        def cut_and_taken():
            cut()
            self.log.unlink()

        self.start("two-hundred-statements")
        self.check_reported(self.touched(cut_and_taken), LOG_CUT)

    def test_log_that_is_cut_and_grows_again(self):
        """It has its length again at the end, with less in it."""
        for bytes_left in (0, EMPTY_LOG, 100, 5000):
            with self.subTest(bytes_left):
                self.start("two-hundred-statements")
                stderr = self.touched(lambda: os.truncate(self.log, bytes_left), OPTIONS, MORE, b"ok defined 1\n")
                self.check_reported(stderr, LOG_CUT, AGAIN)

    def test_log_that_is_emptied_in_its_place(self):
        """A long log is copied while the run goes on: it keeps its length, and nothing is said."""
        text = b"".join(b"define options --job %d\n/*\n" % (900001 + turn) for turn in range(1200))
        lines, status, stderr = expected.asked(self.plan, text)
        self.assertEqual((lines, status, stderr), (["ok defined 1"] * 1200, 0, ""))
        self.assertEqual(self.log.stat().st_size, EMPTY_LOG)

    def test_log_that_is_cut_beside_a_file_that_is_replaced(self):
        """The log of the one would be taken for that of the other."""
        def cut():
            os.truncate(self.log, 100)
            self.other.rename(self.plan)

        self.check_reported(self.touched(cut), REPLACED, LOG_AWAY)

        def cut_and_taken():
            cut()
            self.log.unlink()

        self.start("two-hundred-statements")
        self.check_reported(self.touched(cut_and_taken), REPLACED, unsaid=(LOG_AWAY,))

    def test_what_holds_first(self):
        """FILE before FILE-wal, and what was taken away before what was cut."""
        strange = self.room / "strange"

        def take():
            os.truncate(self.plan, 5000)
            strange.rename(self.log)
            self.plan.unlink()

        def replace():
            os.truncate(self.plan, 5000)
            strange.rename(self.log)
            self.other.rename(self.plan)

        def cut():
            os.truncate(self.plan, 5000)
            strange.rename(self.log)

        for touch, wanted in ((take, TAKEN), (replace, REPLACED), (cut, CUT)):
            self.start("two-hundred-statements")
            strange.write_bytes(b"junk" * 1000)
            self.check_reported(self.touched(touch), wanted, unsaid=(LOG_AWAY,))

    def test_fault_over_a_file_that_is_taken_away(self):
        """It isn't said that what was answered stands; where FILE stays, it is."""
        for touch, wanted in ((self.plan.unlink, TAKEN), (lambda: None, "standard output failed")):
            self.start("two-hundred-statements")
            with self.running(OPTIONS) as ran:
                touch()
                ran.stdout.close()
                ran.stdin.write(ASKED)
                ran.stdin.close()
                stderr = ran.stderr.read().decode()
            self.assertEqual((ran.returncode, stderr.count("\n")), (8, 1), stderr)
            self.assertRegex(stderr, rf"\Aopcplan: [^:]+: {wanted}")
            self.assertEqual("Every answered statement is done" in stderr, wanted != TAKEN)

    def test_file_that_its_log_makes_shorter(self):
        """Stock SQLite took pages away and was killed: the next run cuts FILE, at its end or, if long, before."""
        text = b"".join(b"define options --job %d\n/*\n" % (900001 + turn) for turn in range(400))
        for count in (1, 400):
            self.start("monday")
            with closing(sqlite3.connect(self.plan)) as db:
                db.execute("CREATE TABLE mine (x)")
                db.execute("INSERT INTO mine VALUES (zeroblob(400000))")
                db.execute("DELETE FROM mine")
                db.commit()
                db.execute("PRAGMA wal_checkpoint(TRUNCATE)")
                db.execute("VACUUM")
                plans.copy_of(self.plan, self.room, "killed.db")
            killed = self.room / "killed.db"
            whole = killed.stat().st_size
            lines, status, stderr = expected.asked(killed, b"".join(text.splitlines(keepends=True)[: 2 * count]))
            self.assertEqual((lines, status, stderr), (["ok defined 1"] * count, 0, ""))
            self.assertLess(killed.stat().st_size, whole)

    def test_file_that_is_new(self):
        lines, status, stderr = expected.asked(self.room / "new.db", plans.stream("two-hundred-statements"))
        wanted = (plans.DATA / "two-hundred-statements.out").read_text().splitlines()
        self.assertEqual((lines, status), (wanted, 4))
        self.assertEqual(stderr.count("\n"), 1)
        self.assertIn("a new one was made", stderr)


if __name__ == "__main__":
    unittest.main()
