"""What opcplan reports after it migrated a plan of schema 1: that an index is gone, if a user had made one on one of
the two tables that are remade, and else nothing about indexes."""

import gzip
import sqlite3
import subprocess
import tempfile
import unittest
from contextlib import closing
from pathlib import Path

from support import plans

MIGRATED = "the plan was migrated from schema 1 to schema 2"
GONE = "is gone: make it again"


class Migrated(unittest.TestCase):
    def reported_after(self, *statements: str) -> str:
        """What a run over a plan of schema 1 writes on standard error, after these statements of SQL."""
        with tempfile.TemporaryDirectory() as room:
            plan = Path(room) / "plan.db"
            plan.write_bytes(gzip.decompress((plans.DATA / "schema-1.db.gz").read_bytes()))
            with closing(sqlite3.connect(plan)) as db:
                for statement in statements:
                    db.execute(statement)
                db.commit()
            ran = subprocess.run([plans.PROGRAM, "--db", plan], input=b"", capture_output=True, timeout=60, check=True)
            return ran.stderr.decode()

    def test_plan_without_an_index_of_the_user(self) -> None:
        reported = self.reported_after()
        self.assertIn(MIGRATED, reported)
        self.assertNotIn(GONE, reported)

    def test_index_on_a_table_that_is_remade(self) -> None:
        for table in "predecessor", "link_in_force":
            with self.subTest(table):
                reported = self.reported_after(f"CREATE INDEX mine ON {table} (pred)")
                self.assertIn(MIGRATED, reported)
                self.assertIn(GONE, reported)

    def test_index_on_a_table_that_stays(self) -> None:
        reported = self.reported_after("CREATE INDEX mine ON cp_row (app)", "CREATE INDEX other ON run_cycle (app)")
        self.assertIn(MIGRATED, reported)
        self.assertNotIn(GONE, reported)


if __name__ == "__main__":
    unittest.main()
