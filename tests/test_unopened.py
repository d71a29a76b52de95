"""What keeps opcplan from a file that isn't damaged: docs/rules/TABLES.md has each, the fault that is told, and a way
out that leads to the plan as it was; and what becomes of a damaged log."""

import os
import re
import shutil
import subprocess
import tempfile
import unittest
from pathlib import Path

from support import expected, plans

MONDAY = plans.stream("monday")
ROW = re.compile(r"\| (.*) \| (\d\d)(?:, in the run)? \| (.*) \|")
VIEWS = (
    "SELECT count(*) FILTER (WHERE status = 'W') FROM cp_row",
    "VALUES (1)",
    "SELECT a.serial FROM cp_row a RIGHT JOIN ltp_row b ON a.serial = b.serial",
    "SELECT a.serial FROM cp_row a FULL JOIN ltp_row b ON a.serial = b.serial",
    "SELECT '{\"a\": 1}' -> 'a'",
    "SELECT serial FROM cp_row WHERE (app, ia) = ('A', 1)",
    "SELECT row_number() OVER (ORDER BY ia) FROM cp_row",
    "SELECT serial FROM cp_row WHERE app GLOB 'A*'",
    "SELECT serial FROM cp_row WHERE app LIKE 'A' ESCAPE 'x'",
    "SELECT serial FROM ltp_row INDEXED BY sqlite_autoindex_ltp_row_1 WHERE app = 'A'",
)
# by the first words of a row of the page: statements of sqlite3, or commands of the shell, that make what it names
MADE = {
    "A view with FILTER": [f"CREATE VIEW mine AS {text}" for text in VIEWS],
    "A trigger INSTEAD OF": ["CREATE VIEW v AS SELECT * FROM cp_row; "
                             "CREATE TRIGGER mine INSTEAD OF DELETE ON v BEGIN SELECT 1; END"],
    "A trigger with the name of a table of the plan": [
        "CREATE TABLE mine (x); CREATE TRIGGER job AFTER INSERT ON mine BEGIN SELECT 1; END",
        "CREATE TRIGGER job AFTER INSERT ON cp_row BEGIN SELECT 1; END"],
    "A trigger with the name of a table, an index": [
        "CREATE TABLE mine (x); CREATE TRIGGER mine AFTER INSERT ON mine BEGIN SELECT 1; END",
        "CREATE TABLE t (x); CREATE INDEX mine ON t (x); CREATE TRIGGER mine AFTER INSERT ON t BEGIN SELECT 1; END",
        "CREATE TABLE t (x); CREATE VIEW mine AS SELECT x FROM t; "
        "CREATE TRIGGER mine AFTER INSERT ON t BEGIN SELECT 1; END"],
    "A virtual table": ["CREATE VIRTUAL TABLE mine USING fts5(x)", "CREATE VIRTUAL TABLE mine USING rtree(i, a, b)"],
    "A column with a default": ["CREATE TABLE mine (x); INSERT INTO mine VALUES (1); "
                                "ALTER TABLE mine ADD COLUMN y DEFAULT 7"],
    "A row of your own": ["CREATE TABLE other (x PRIMARY KEY); CREATE TABLE mine (y REFERENCES other(x)); "
                          "INSERT INTO mine VALUES (5)"],
    "The mode auto_vacuum": ["PRAGMA auto_vacuum = 1; VACUUM", "PRAGMA auto_vacuum = 2; VACUUM"],
    "Texts in UTF-16": ["rm plan.db plan.db-wal; sqlite3 plan.db \"PRAGMA encoding = 'UTF-16'; CREATE TABLE m (x)\""],
    "A plan with sums": ["cp sums.db plan.db; rm plan.db-wal; sqlite3 plan.db 'CREATE TABLE mine (x)'"],
    "No plan, and something": ["rm plan.db*; sqlite3 plan.db 'CREATE TABLE job (x)'"],
    "No plan, and a table": ["rm plan.db*; sqlite3 plan.db 'CREATE TABLE mine (x REFERENCES job(number))'"],
    "A second name": ["ln plan.db other.db"],
    "`plan.db-wal` as a link": ["rm plan.db-wal; touch log; ln -s log plan.db-wal", "rm plan.db-wal; mkdir plan.db-wal",
                                "ln plan.db-wal log"],
    "`plan.db-journal`": ["head -c 5000 /dev/urandom > plan.db-journal"],
    "A trigger on": ["CREATE TRIGGER mine AFTER INSERT ON cp_row BEGIN SELECT 1; END"],
    "An index with": ["CREATE INDEX mine ON cp_row (app) WHERE status = 'W'",
                      "CREATE INDEX mine ON cp_row (lower(app))"],
    "A table that refers": ["CREATE TABLE mine (x REFERENCES job(number))"],
    "A unique index": ["CREATE UNIQUE INDEX mine ON cp_row (app)"],
    "A row of `dependency`": ["UPDATE dependency SET rowid = 9223372036854775807 WHERE rowid = 9"],
}
# rows that other tests try, or that name what a test can't make
ELSEWHERE = {"A plan of a version", "No database", "A FILE or folder", "The name", "Another program"}
WITHOUT_PLAN = ("No plan", "Texts in UTF-16")
EXTENDED = b"dp-extend --to 2024-01-03/00.00 --job 10\nltp-extend --to 2024-02-05 --job 11\n"


def rows():
    """The rows of the page: what is in a file, the fault, and the codes of the way out."""
    page = (plans.TOP / "docs" / "rules" / "TABLES.md").read_text(encoding="utf-8")
    section = page.partition("## What keeps a file from being opened\n")[2].partition("\n## ")[0]
    return [(cause, int(number), re.findall("`([^`]+)`", way)) for cause, number, way in ROW.findall(section)]


@unittest.skipUnless(plans.PROGRAM.exists(), "opcplan is not built")
class Unopened(unittest.TestCase):
    def setUp(self):
        room = tempfile.TemporaryDirectory(prefix="unopened-")
        self.addCleanup(room.cleanup)
        self.kept, self.room = Path(room.name) / "kept", Path(room.name) / "room"
        self.kept.mkdir()
        plans.copy_of(plans.of_worked("monday"), self.kept)
        words = [plans.PROGRAM, "--db", self.kept / "sums.db", "--sums"]
        subprocess.run(words, input=MONDAY, capture_output=True, check=True)
        os.remove(self.kept / "sums.db-wal")
        (self.kept / "tools").symlink_to(plans.TOP / "tools")
        self.plan = self.room / "plan.db"

    def begin(self):
        shutil.rmtree(self.room, ignore_errors=True)
        shutil.copytree(self.kept, self.room, symlinks=True)

    def do(self, code):
        """Gives a code to sqlite3, where it begins with a capital letter, or else to the shell."""
        words = ["sqlite3", "plan.db", code] if code[0].isupper() else ["sh", "-c", code]
        ran = subprocess.run(words, cwd=self.room, capture_output=True, text=True, check=False)
        self.assertEqual(ran.stderr, "", code)

    def test_the_page_has_each(self):
        causes = [cause for cause, _, _ in rows()]
        for known in (*MADE, *ELSEWHERE):
            self.assertEqual(sum(cause.startswith(known) for cause in causes), 1, known)
        self.assertEqual(len(causes), len(MADE) + len(ELSEWHERE))

    def test_each_is_reported_and_has_a_way_out(self):
        for cause, number, way in rows():
            first = [] if cause.startswith(WITHOUT_PLAN) else [MONDAY]
            text = EXTENDED if number == 41 else b""
            for made in next((made for known, made in MADE.items() if cause.startswith(known)), ()):
                with self.subTest(cause, made=made):
                    self.begin()
                    self.do(made)
                    self.assertEqual(expected.asked(self.plan, text + expected.LOOK)[0][-1], f"fault {number}")
                    for code in way:
                        # a code of one word is a name, and ./plan has tests of its own
                        if " " in code and not code.startswith("./"):
                            self.do(code)
                    self.assertEqual(expected.asked(self.plan, text)[1], 0)
                    self.assertEqual(expected.of_file(self.plan), expected.of_stream(*first, text))

    def test_a_journal_of_a_writer_that_was_killed(self):
        """What sqlite3 wrote of a transaction that it didn't end is taken back by sqlite3 alone."""
        self.begin()
        self.do("sqlite3 plan.db 'PRAGMA journal_mode = delete' > out; rm -f plan.db-wal")
        writer = ("PRAGMA cache_size = 1; BEGIN; DELETE FROM ltp_row; CREATE TABLE big AS WITH RECURSIVE n(i) AS "
                  "(SELECT 1 UNION ALL SELECT i + 1 FROM n WHERE i < 400) SELECT zeroblob(3000) FROM n;\n"
                  ".shell kill -9 $PPID\n")
        subprocess.run(["sqlite3", "plan.db"], input=writer, cwd=self.room, text=True, capture_output=True, check=False)
        self.assertTrue((self.room / "plan.db-journal").exists())
        self.assertEqual(expected.asked(self.plan, expected.LOOK)[0], ["fault 50"])
        self.do("sqlite3 plan.db .tables > out")
        self.assertEqual(expected.asked(self.plan, expected.LOOK)[0], expected.of_stream(MONDAY))

    def test_names_and_no_database(self):
        self.begin()
        for name in (":memory:", "file:x"):
            for before, status in (("", 8), ("./", 0)):
                words = [plans.PROGRAM, "--db", before + name]
                ran = subprocess.run(words, input=b"list cp\n", cwd=self.room, capture_output=True, check=False)
                self.assertEqual(ran.returncode, status, before + name)
        self.do("rm plan.db*; echo notes > plan.db")
        self.assertEqual(expected.asked(self.plan, expected.LOOK)[0], ["fault 50"])
        self.assertEqual(os.path.getsize(f"{self.plan}-wal"), 0)
        self.assertEqual(self.plan.read_text(encoding="utf-8"), "notes\n")

    def test_a_damaged_log_is_an_earlier_plan_and_the_stream_again_mends_it(self):
        """As the page and the guide say, with sums and without."""
        tuesday = b"dp-extend --to 2024-01-03/00.00 --job 10\n" + b"".join(
            b"ltp-add --app LEDGER --ia 2024-01-20/%02d.00 --job %d\n" % (hour, 20 + hour) for hour in range(9))
        whole = expected.of_stream(MONDAY, tuesday)
        lines = tuesday.splitlines(keepends=True)
        states = [expected.of_stream(MONDAY, b"".join(lines[:count])) for count in range(len(lines) + 1)]
        for name in ("plan.db", "sums.db"):
            self.begin()
            path = self.room / name
            expected.killed(path, tuesday)
            self.assertEqual(expected.of_file(path), whole)
            log = Path(f"{path}-wal")
            data = bytearray(log.read_bytes())
            data[len(data) // 2] ^= 1
            log.write_bytes(data)
            found, status, said = expected.asked(path, expected.LOOK)
            self.assertIn(found, states[:-1])
            self.assertEqual((status, said), (0, ""))
            expected.asked(path, tuesday)
            self.assertEqual(expected.of_file(path), whole)

    def test_the_pages_say_so(self):
        for name, sentence in (("rules/TABLES.md", "A damaged log is served as an earlier plan, without a word"),
                               ("use/GUIDE.md", "If the log is damaged, a run goes on from an earlier state of the plan"
                                                " and reports nothing")):
            page = (plans.TOP / "docs" / name).read_text(encoding="utf-8")
            self.assertTrue(sentence in page, name)
        for name in ("rules/TABLES.md", "use/GUIDE.md", "rules/REFUSALS.md"):
            for line in (plans.TOP / "docs" / name).read_text(encoding="utf-8").splitlines():
                if re.search("(take|to) the (last )?backup", line):
                    self.assertTrue("./plan restore" in line, (name, line))


if __name__ == "__main__":
    unittest.main()
