"""The table of printed columns, beside the lines that the program prints and the rows of its tables."""

import sqlite3
import subprocess
import tempfile
import unittest
from contextlib import closing
from pathlib import Path

from support import plans

from opcplan.rules import columns, moments

# by list: what stock SQLite answers for its lines, moments in minutes
ROW = "serial, app, iif(run_cycle IS NULL, 'A', 'G') AS origin, run_cycle, ia, deadline"
ENDS = " UNION ALL ".join(f"SELECT serial, app, ia FROM {table}_row" for table in ("ltp", "cp", "history", "deletion"))
ASKED = {
    "ltp": f"SELECT {ROW} FROM ltp_row",
    "cp": f"SELECT {ROW}, status FROM cp_row",
    "history": f"SELECT {ROW}, 'C' AS status FROM history_row",
    "deletions": f"SELECT {ROW}, reason FROM deletion_row",
    "dependencies": f"""WITH one AS ({ENDS})
        SELECT successor, s.app, s.ia, predecessor, p.app AS predecessor_app, p.ia AS predecessor_ia
        FROM dependency JOIN one s ON s.serial = successor JOIN one p ON p.serial = predecessor""",
    "links": "SELECT app, pred AS predecessor, within FROM link_in_force",
}
MOMENTS = {"ia", "deadline", "predecessor_ia"}
TRIALS = {"ltp-trial create --from 2024-01-01 --to 2024-01-20": "ltp-create --from 2024-01-01 --to 2024-01-20",
          "ltp-trial extend --to 2024-02-20": "ltp-extend --to 2024-02-20"}


def ran(stream, file):
    """The lines that the program prints over a file."""
    found = subprocess.run([plans.PROGRAM, "--db", file], input=stream, capture_output=True, text=True, check=False)
    return found.stdout.splitlines()


def in_words(row):
    """A row of a table as its line has it."""
    return {name: moments.moment_word(value) if name in MOMENTS else value for name, value in row.items()}


@unittest.skipUnless(plans.PROGRAM.exists(), "the program isn't built")
class Columns(unittest.TestCase):
    def setUp(self):
        room = tempfile.TemporaryDirectory(prefix="columns-")
        self.addCleanup(room.cleanup)
        self.file = Path(room.name) / "plan.db"

    def rows(self, name):
        """What stock SQLite says that a list has."""
        with closing(sqlite3.connect(self.file)) as db:
            db.row_factory = sqlite3.Row
            return [in_words(dict(row)) for row in db.execute(ASKED[name])]

    def test_each_field_of_each_list_is_that_of_the_tables(self):
        seen = set()
        for stream in ("each-list", "limits-in-daily-plans", "monday"):
            self.file.unlink(missing_ok=True)
            ran((plans.DATA / f"{stream}.in").read_text(encoding="utf-8"), self.file)
            for name, line in columns.LISTS.items():
                *lines, last = ran(f"list {name}\n", self.file)
                self.assertTrue(all(map(line.fits, lines)), lines)
                found, wanted = [line.values(text) for text in lines], self.rows(name)
                self.assertEqual(last, f"ok rows {len(wanted)}")
                self.assertEqual(sorted(found, key=repr), sorted(wanted, key=repr), (stream, name))
                seen |= {(name, field) for row in found for field, value in row.items() if value is not None}
        self.assertEqual(seen, {(name, field) for name, line in columns.LISTS.items() for field in line.columns})

    def test_a_day_is_what_the_plain_planner_names(self):
        text = plans.stream("monday").decode()
        lines = ran(f"{text}days --app LEDGER --from 2024-01-01 --to 2024-01-31\n", self.file)[-24:-1]
        named = plans.planner_of(text).named("LEDGER", *map(moments.day_of, ("2024-01-01", "2024-01-31")))
        wanted = [{"ia": moments.moment_word(day * moments.DAY + time), "run_cycle": name,
                   "deadline": moments.moment_word(due)} for (day, time), (name, due) in sorted(named.items())]
        self.assertTrue(all(map(columns.DAY.fits, lines)), lines)
        self.assertEqual([columns.DAY.values(line) for line in lines], wanted)

    def test_a_row_of_a_trial_is_the_row_that_is_made(self):
        text = plans.stream("monday").decode().split("ltp-create")[0]
        before = []
        for number, (trial, done) in enumerate(TRIALS.items(), 100):
            *lines, _ = ran(f"{text}{trial}\n", self.file)
            shown = [line for line in lines if not line.startswith("ok")]
            ran(f"{done} --job {number}\n", self.file)
            rows, text = self.rows("ltp"), ""
            self.assertTrue(all(line[0] in columns.SIGNS for line in shown), shown)
            found = [columns.ROW.values(columns.unsigned(line)) for line in shown]
            self.assertEqual(sorted(found, key=repr), sorted((row for row in rows if row not in before), key=repr))
            self.assertEqual(dict(map(columns.occurrence_of, shown)),
                             {row["serial"]: f"{row['app']} {row['ia'].replace('/', ' ')}" for row in found})
            before = rows

    def test_what_is_no_line_of_a_kind_fits_none(self):
        row = "000000003 B                G LATE     2024-01-01 08.00 2024-01-02 06.00"
        pair = "000000003 B                2024-01-01 08.00 000000001 A                2024-01-01 07.30"
        self.assertTrue(columns.ROW.fits(row) and columns.PAIR.fits(pair) and columns.WITH_STATUS.fits(f"{row} W"))
        for text in (row[1:], f" {row}", row[:-1], f"{row} ", row.replace("B", "b"), row.replace("B ", "B B"), pair,
                     row.replace("06.00", "06:00"), "ok rows 3", ""):
            self.assertFalse(columns.ROW.fits(text), text)
            self.assertEqual(columns.occurrence_of(text), (3, "B 2024-01-01 08.00") if text is pair else None)


if __name__ == "__main__":
    unittest.main()
