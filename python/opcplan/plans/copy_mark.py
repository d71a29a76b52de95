"""The mark of a copy of a plan that shares a log with others: which entry of which log the copy has, and the digest of
the log up to that entry. It is a table of the copy, so that each further copy has it too. `opcplan` ignores it."""

import contextlib
import sqlite3
from typing import NamedTuple

from opcplan.errors import Unreadable
from opcplan.plans import page_sums
from opcplan.plans.plan_file import Plan

TABLE = "CREATE TABLE copy_mark (log TEXT NOT NULL, seq INTEGER NOT NULL, jobs INTEGER NOT NULL, digest TEXT NOT NULL)"


class CopyMark(NamedTuple):
    """What a copy says of itself: its log, the last entry that it has, how many jobs it has, and the digest of the log
    up to that entry."""

    log: str
    seq: int
    jobs: int
    digest: str


def of(plan: Plan) -> CopyMark | None:
    """The mark of a plan, or None. A plan that has changed since it was copied keeps the mark, and has more jobs."""
    try:
        row = plan.db.execute("SELECT log, seq, jobs, digest FROM copy_mark").fetchone()
    except sqlite3.Error:
        return None
    return None if row is None else CopyMark(*row)


def jobs_of(plan: Plan) -> int:
    """How many jobs a plan has."""
    count: int
    (count,) = plan.db.execute("SELECT count(*) FROM job").fetchone()
    return count


def put(path: str, log: str, seq: int, digest: str) -> None:
    """Puts a mark into a copy that nobody else has, in the place of an earlier one. Raises Unreadable and
    sqlite3.Error."""
    has_sums = page_sums.are_in(path)
    with contextlib.closing(sqlite3.connect(path, isolation_level=None)) as db:
        if has_sums:
            db.execute("PRAGMA wal_checkpoint(TRUNCATE)").fetchall()
            if page_sums.first_wrong(path) is not None:
                raise Unreadable("it is damaged: a page doesn't match its sum")
        db.execute("BEGIN IMMEDIATE")
        db.execute("DROP TABLE IF EXISTS copy_mark")
        db.execute(TABLE)
        db.execute("INSERT INTO copy_mark SELECT ?, ?, count(*), ? FROM job", (log, seq, digest))
        db.execute("COMMIT")
        db.execute("PRAGMA wal_checkpoint(TRUNCATE)").fetchall()
    if has_sums:
        page_sums.put(path)
