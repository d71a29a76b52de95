"""What opcplan says at a terminal, on standard error: how a run is left, where the statements are listed after each
line that is none, and that a large file is opened."""

import contextlib
import os
import pty
import select
import sqlite3
import subprocess
import tempfile
import unittest
from pathlib import Path

from support import plans

GREETING = "opcplan: type one statement a line"
HINT = "opcplan: that line is not a statement"
NEW = "the file held no plan"
LARGE = "the file has 64 MB or more"
TYPED = (b"lst ltp\nlist ltp\n* a remark\n\ndefine calendars --job 0\nDEFAULT,SAT,FREE\n/*\n"
         b"undefine calendars --name NONE --job 1\n")
ANSWERS = b"refused 10\nok rows 0\nrefused 10\nrefused 13\n"


@unittest.skipUnless(plans.PROGRAM.exists(), "opcplan is not built")
class Hints(unittest.TestCase):
    def setUp(self):
        room = tempfile.TemporaryDirectory(prefix="hints-")
        self.addCleanup(room.cleanup)
        self.plan = Path(room.name) / "plan.db"

    @contextlib.contextmanager
    def terminal(self, words, **ends):
        """A run that a person types at: what is typed on, and the run."""
        upper, lower = pty.openpty()
        with contextlib.closing(os.fdopen(upper, "r+b", buffering=0)) as keys:
            with subprocess.Popen([plans.PROGRAM, *words], stdin=lower, stdout=subprocess.PIPE, **ends) as ran:
                os.close(lower)
                try:
                    yield keys, ran
                finally:
                    ran.kill()

    def typed(self, words, text):
        """What is answered and said where a text is typed, and the status."""
        with self.terminal(words, stderr=subprocess.PIPE) as (keys, ran):
            keys.write(text + b"\x04")
            out, errors = ran.communicate(timeout=60)
        return out, errors.decode().splitlines(), ran.returncode

    def heads(self, message):
        """The sentences that were said, by their beginnings, of which those on the file name it."""
        named = f"opcplan: {self.plan}: "
        lines = [line.removeprefix(named) for line in message]
        return [next((head for head in (GREETING, HINT, NEW, LARGE) if line.startswith(head)), line) for line in lines]

    def test_lines_that_are_no_statement(self):
        for words, before in ((["--db", self.plan], [NEW]), (["--db", self.plan], []), ([], [])):
            with self.subTest(words):
                text = TYPED.replace(b"--job 1", b"--job 2") if words and not before else TYPED
                out, stderr, status = self.typed(words, text)
                self.assertEqual((out, status), (ANSWERS, 4))
                self.assertEqual(self.heads(stderr), [*before, GREETING, HINT, HINT])
                self.assertIn("docs/rules/STATEMENTS.md", stderr[-1])

    def test_hint_comes_at_once(self):
        """It follows its answer, before the next line is typed."""
        with self.terminal([], stderr=subprocess.STDOUT, bufsize=0) as (keys, ran):
            for line, answer in ((b"", GREETING), (b"x\n", f"refused 10\n{HINT}"), (b"list cp\n", "ok rows 0\n")):
                keys.write(line)
                said = b""
                while not (said.startswith(answer.encode()) and said.endswith(b"\n")):
                    self.assertTrue(select.select([ran.stdout], [], [], 20)[0], said)
                    said += ran.stdout.read(8192)
            keys.write(b"\x04")
            self.assertEqual(ran.wait(timeout=60), 4)

    def screen(self):
        """What is said on a terminal that standard error alone is, over a stream that has nothing."""
        upper, lower = pty.openpty()
        with os.fdopen(upper, "rb", buffering=0) as shown, os.fdopen(lower, "wb", buffering=0) as errors:
            ran = subprocess.run([plans.PROGRAM, "--db", self.plan], stdin=subprocess.DEVNULL, stdout=subprocess.PIPE,
                                 stderr=errors, check=False, timeout=120)
            self.assertEqual((ran.stdout, ran.returncode), (b"", 0))
            ready = select.select([shown], [], [], 0)[0]
            return self.heads(shown.read(65536).decode().splitlines()) if ready else []

    def filled(self, megabytes):
        """The same file with another table beside the plan, which takes so many megabytes."""
        with contextlib.closing(sqlite3.connect(self.plan)) as database, database:
            database.execute("CREATE TABLE IF NOT EXISTS filling (data BLOB)")
            database.executemany("INSERT INTO filling VALUES (zeroblob(?))", [(2 ** 20,)] * megabytes)

    def test_large_file_is_announced(self):
        """Before it is opened, and only where standard error is a terminal."""
        self.assertEqual(self.screen(), [NEW])
        self.filled(60)
        self.assertEqual(self.screen(), [])
        self.filled(4)
        self.assertEqual(self.screen(), [LARGE])
        ran = subprocess.run([plans.PROGRAM, "--db", self.plan], input=b"", capture_output=True, check=False,
                             timeout=120)
        self.assertEqual((ran.stdout, ran.stderr, ran.returncode), (b"", b"", 0))

    def test_large_file_that_holds_no_plan(self):
        """It is announced first, and then it is said that a plan was made in it."""
        self.filled(64)
        self.assertEqual(self.screen(), [LARGE, NEW])

    def test_nobody_types(self):
        ran = subprocess.run([plans.PROGRAM], input=TYPED, capture_output=True, check=False, timeout=60)
        self.assertEqual((ran.stdout, ran.stderr, ran.returncode), (ANSWERS, b"", 4))


if __name__ == "__main__":
    unittest.main()
