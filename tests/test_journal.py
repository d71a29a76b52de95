"""./plan journal: the entries of a desk's journal, all or those that are asked for, as lines, as JSON, as a stream."""

import json
import os
import sqlite3
import tempfile
import unittest
from contextlib import closing
from pathlib import Path

from support import journals, plans

ENTRIES = [
    ("2024-01-01/08.00", "me", None, 500_000_001, "cp-start --app PAY --ia 2024-01-01/08.00 --job 500000001\n",
     "ok serial 1 status S"),
    ("2024-01-01/23.59.59", "you", "k", 17, "cp-fail --app PAY --ia 2024-01-01/08.00 --job 17\n",
     "ok serial 1 status E"),
    ("2024-01-02/00.00", "me", None, 18, "define calendars --job 18\nDEFAULT,SAT,FREE\n/*\n", "ok defined 1"),
    ("2024-01-03/10.00", "me", None, 19, "cp-start --app PAY@NIGHT --ia 2024-01-02/08.00 --job 19\n", "refused 28"),
]


class Shown(unittest.TestCase):
    def setUp(self):
        room = tempfile.TemporaryDirectory(prefix="journal-test-")
        self.addCleanup(room.cleanup)
        self.plan = Path(room.name) / "plan.db"
        journals.write(f"{self.plan}.journal", [], ENTRIES)

    def asked(self, *words):
        before = plans.prints(self.plan)
        ran = plans.plan("journal", self.plan, *words)
        self.assertEqual(plans.prints(self.plan), before)
        return ran

    def seqs(self, *words):
        return [json.loads(line)["seq"] for line in self.asked("--json", *words).stdout.splitlines()]

    def test_what_is_asked_for_is_shown(self):
        for words, wanted in (([], [1, 2, 3, 4]), (["--app", "PAY"], [1, 2]), (["--from", "2024-01-02"], [3, 4]),
                              (["--to", "2024-01-01"], [1, 2]), (["--from", "2024-01-02", "--to", "2024-01-02"], [3]),
                              (["--app", "PAY@NIGHT", "--from", "2024-01-01"], [4])):
            self.assertEqual(self.seqs(*words), wanted, words)
        self.assertEqual(self.asked("--app", "NOBODY").returncode, 1)

    def test_lines_and_stream(self):
        first = " ".join(self.asked().stdout.splitlines()[0].split())
        self.assertTrue(first.startswith("1 2024-01-01 08.00.00 me cp-start --app PAY --ia 2024-01-01/08.00"), first)
        self.assertEqual(self.asked("--stream").stdout, "".join(one[4] for one in ENTRIES))

    def test_what_no_desk_wrote_is_reported(self):
        file = f"{self.plan}.journal"
        for table, change in (("entry", "at = '2024-13-01T00:00:00.000Z'"), ("entry", "at = x'00'"),
                              ("entry", "at = '9999-12-31T23:59:59.000Z'"), ("entry", "who = x'ff'"),
                              ("entry", "job = 'many'"), ("entry", "text = 1.5"), ("entry", "reply = x'00'")):
            with self.subTest(change):
                journals.write(f"{file}.other", [], ENTRIES)
                with closing(sqlite3.connect(f"{file}.other")) as db, db:
                    db.execute(f"UPDATE {table} SET {change} WHERE seq = 1")
                ran = plans.plan("journal", self.plan, "--journal", f"{file}.other")
                self.assertEqual((ran.returncode, ran.stdout, ran.stderr.count("\n")), (1, "", 1), ran.stderr)
                self.assertIn("no desk writes what entry 1 has", ran.stderr)
                os.remove(f"{file}.other")

    def test_no_text_of_it_moves_the_cursor(self):
        other = journals.write(f"{self.plan}.other", [], [(*ENTRIES[0][:1], "me\x1b[2J\u202e", *ENTRIES[0][2:])])
        ran = plans.plan("journal", self.plan, "--journal", other)
        self.assertEqual((ran.returncode, ran.stderr), (0, ""))
        self.assertIn("me\\x1b[2J\\u202e", ran.stdout)
        self.assertTrue(ran.stdout.removesuffix("\n").isprintable())

    def test_where_there_is_none(self):
        ran = plans.plan("journal", self.plan, "--journal", f"{self.plan}.none")
        self.assertEqual((ran.returncode, ran.stdout, ran.stderr.count("\n")), (1, "", 1))


if __name__ == "__main__":
    unittest.main()
