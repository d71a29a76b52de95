"""terminal: no control of a plan, a stream, an output or a word comes out as it is, on standard output or error."""

import sqlite3
import subprocess
import sys
import tempfile
import unicodedata
import unittest
from contextlib import closing
from pathlib import Path

from support import plans

from opcplan.rules import printable


CLEAR = "\x1b[2J"
STREAM = (
    b"define applications --job 1\nA\x1b[31mB,A,\n/*\n"
    b'define applications --job 2\n"A\nB\x9b2J",A,\n/*\n'
    b"define calendars --job 3\nCAL,MON\x07,WORK\x7f\n/*\n"
    b"define options --job 4\ndefault_calendar = \"\xc2\x9b2J\"\n/*\n"
    b"define options --job 5\n\"\\u001b[2J\" = 1\n/*\n"
    b"li\x1b[31mst ltp\n"
    b"cp-start --app A --ia 2024-01-01/08.00 --job 6\n"
)
OUTPUT = b"refused 11 1\n" * 5 + b"refused 10\nrefused 30 1\n"


def is_control(letter):
    """Whether a character is a control by Unicode: C0, DEL, C1; or turns the way in which a line is written."""
    return unicodedata.category(letter) in ("Cc", "Cf", "Zl", "Zp")


class Terminal(unittest.TestCase):
    def setUp(self):
        room = tempfile.TemporaryDirectory(prefix="terminal-")
        self.addCleanup(room.cleanup)
        self.room = Path(room.name)

    def shown(self, *words, text=b""):
        """What ./plan prints on standard output and error: none of it is a control but line feeds."""
        ran = subprocess.run([plans.TOP / "plan", *words], input=text, capture_output=True, check=False)
        for data in (ran.stdout, ran.stderr):
            text = data.decode()
            self.assertEqual({letter for letter in text if is_control(letter)} - {"\n"}, set(), (words, text[:300]))
        self.assertNotIn(b"Traceback", ran.stderr)
        return ran

    def test_each_character(self):
        for code in range(sys.maxunicode + 1):
            letter = chr(code)
            text = printable.fit(letter)
            if is_control(letter) or 0xD800 <= code < 0xE000:
                self.assertTrue(text.isascii() and text.startswith("\\") and len(text) > 3, hex(code))
            elif letter.isprintable():
                self.assertEqual(text, letter)
        self.assertEqual(printable.fit("A\x1b[31m\n\x7f\x9b\u202e\udcff\U000e0001"),
                         "A\\x1b[31m\\x0a\\x7f\\x9b\\u202e\\xff\\U000e0001")
        self.assertEqual(printable.text(["A\nB", "C"]), "A\\x0aB\nC")

    def test_explain_and_lint_of_data_and_answers(self):
        stream, output = self.room / "stream.in", self.room / "stream.out"
        stream.write_bytes(STREAM)
        output.write_bytes(OUTPUT)
        ran = self.shown("explain", stream, output)
        self.assertEqual(ran.returncode, 1)
        self.assertIn(rb"A\x1b[31mB", ran.stdout)
        self.shown("lint", stream)
        for answer in (b"fault \x1b[2J\n", b"ok \x1b[2J\n", b"refused \x1b[2J\n", b"refused\n", b"refused 11\n",
                       b"refused 11 1\x1b[31m\n", OUTPUT.replace(b"30 1", b"30 1\x9b"),
                       OUTPUT.replace(b"30 1", b"22 \x1b[2J"), b"\x1b[2J\n" + OUTPUT + b"\x1b[2J"):
            output.write_bytes(answer)
            self.assertEqual(self.shown("explain", stream, output).returncode, 1)

    @unittest.skipUnless(plans.PROGRAM.exists(), "opcplan is not built")
    def test_data_that_are_tried_and_run(self):
        stream, file = self.room / "stream.in", plans.copy_of(plans.of_worked("monday"), self.room, f"{CLEAR}.db")
        stream.write_bytes(STREAM)
        for name, more in (("what-if", []), ("check", []), ("run", ["--yes"])):
            ran = self.shown(name, file, stream, "--program", plans.PROGRAM, *more)
            self.assertIn(rb"A\x1b[31mB", ran.stdout)
        ran = self.shown("send", "--db", file, "--program", plans.PROGRAM, text=STREAM.replace(b"--job ", b"--job 10"))
        self.assertEqual(ran.returncode, 4)
        self.assertIn(rb"A\x1b[31mB", ran.stderr)

    @unittest.skipUnless(plans.PROGRAM.exists(), "opcplan is not built")
    def test_copies_under_such_names(self):
        file, copy = plans.copy_of(plans.of_worked("monday"), self.room, f"{CLEAR}.db"), self.room / f"{CLEAR}\n\u202e"
        for words in (["backup", file, copy], ["restore", copy, file]):
            ran = self.shown(*words, "--program", plans.PROGRAM)
            self.assertEqual((ran.returncode, ran.stderr), (0, b""))
            self.assertIn(rb"\x1b[2J\x0a\u202e", ran.stdout)

    def test_imports_and_edits(self):
        file, given = plans.of_worked("monday"), self.room / "given"
        given.write_bytes(b"0 1 * * * /bin/back\x1b[2Jup\n0 1 * * x \x9bsync\n")
        self.assertIn(rb"\x1b[2J", self.shown("import", "--cron", given, file).stderr)
        given.write_bytes(b"2024-02-01,\x1b[2J,\n2024-02-02,FREE,\x9b\n")
        self.shown("import", "--csv", given, "--calendar", "DEFAULT", file)
        for words in (["calendar", CLEAR, "MON", "free"], ["run-cycle", "LEDGER", "RC", f"{CLEAR}=1"],
                      ["options", f"default_calendar={CLEAR}"], ["period", "DAY", CLEAR]):
            self.assertEqual(self.shown("edit", file, *words).returncode, 2)

    def test_text_of_a_job(self):
        """A plan takes any bytes for it, so what it names is no statement where somebody wrote it."""
        file = plans.copy_of(plans.of_worked("monday"), self.room)
        body = f"{CLEAR}\x9b\r\n --app LEDGER --ia 2024-01-01/18.00".encode("latin-1")
        with closing(sqlite3.connect(file)) as db:
            db.execute("INSERT INTO job VALUES (999999, ?, 'refused 28')", [body])
            db.commit()
        ran = self.shown("why", file, "LEDGER", "2024-01-01/18.00")
        self.assertIn(rb"job 999999  \x1b[2J\x9b\x0d\x0a: refused 28", ran.stdout)
        self.shown("page", file)

    def test_names_of_files(self):
        folder = self.room / f"{CLEAR}\n\u202e"
        folder.mkdir()
        file = plans.copy_of(plans.of_worked("monday"), folder, f"{CLEAR}.db")
        ran = self.shown("page", file)
        self.assertIn(rb"\x1b[2J.db", ran.stdout)
        self.assertIn(rb"\u001b[2J.db", self.shown("export", file, "--json").stdout)
        for words in (["late"], ["dump"], ["next-job"], ["export", "--csv"], ["page"], ["why-day"], ["lint"], ["rows"],
                      ["backup", "copy.db"], ["check", "a.in"], ["run", "a.in"],
                      ["edit", "calendar", "A", "MON", "free"]):
            name, *rest = words
            more = ["A", "2024-01-01"] if name == "why-day" else []
            self.shown(name, folder / "none.db", *more, *rest)
        self.shown("next-job", b"\xff\x1b.db")
        self.shown("explain", folder / "none", folder / "none")

    def test_words(self):
        for words in ([CLEAR], ["late", "plan.db", CLEAR], ["late", "plan.db", f"--{CLEAR}"],
                      ["dump", "plan.db", "--job", CLEAR], ["why", "plan.db", CLEAR, "x"],
                      ["export", "plan.db", "--csv", "--set", CLEAR, "\x9b\n"], ["rows", "plan.db", "--status", CLEAR],
                      ["send", "--db", "plan.db", CLEAR], ["send", "--db", "plan.db", "start", CLEAR, CLEAR]):
            self.assertEqual(self.shown(*words).returncode, 2)


if __name__ == "__main__":
    unittest.main()
