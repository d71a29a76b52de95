"""What goes from a desk's journal as it gets older, and how: a new file is written whole and takes the place of the old
one, so that whoever is stopped at whatever moment leaves the one or the other.

What goes is the beginning of the journal. What stays is all that a desk needs to go on: each entry without a reply,
the last one that the plan keeps, a number of entries that are compared with the plan, and all from the start of an
occurrence on that is still started. The jobs of what goes are noted as those that the plan has besides, and of a log
that several desks share the entry up to which it isn't here any more, with its digest. Of what happened, what isn't
over stays, and the last runs of each application, which say how long it takes."""

import contextlib
import os
import sqlite3
from typing import NamedTuple

from opcplan.errors import Unreadable, Unwritable
from opcplan.plans import journal, journal_plan
from opcplan.plans.journal import Journal

# occurrences of each application of which it stays when they ran
RUNS = 30
PART = ".part"
# what goes of what happened, up to an entry
OVER = """DELETE FROM happened WHERE seq <= :cut AND serial NOT IN (
        SELECT serial FROM happened AS last WHERE status NOT IN ('C', 'D') AND NOT EXISTS (
            SELECT 1 FROM happened AS later WHERE later.serial = last.serial AND later.seq > last.seq))
    AND serial NOT IN (
        SELECT serial FROM (SELECT serial, row_number() OVER (PARTITION BY app ORDER BY max(seq) DESC) AS place
            FROM happened GROUP BY serial) WHERE place <= :runs)"""


class Cut(NamedTuple):
    """Where a journal is cut: up to which entry it goes, how many go and stay, when the first and the last of both were
    taken, and why what stays begins there."""

    last: int
    goes: int
    stays: int
    oldest: str
    first: str
    latest: str
    why: str


class Bound(NamedTuple):
    """An entry that stays with all behind it, and why."""

    seq: int
    why: str


def cut_of(record: Journal, before: str, at_least: int = journal_plan.MOST_COMPARED) -> Cut | None:
    """Where a journal is to be cut so that it has what was taken at a moment or later, and so many entries at least;
    None where nothing goes. Raises sqlite3.Error."""
    bounds = [bound for bound in bounds_of(record, before, at_least) if bound.seq is not None]
    if not bounds:
        return None
    bound = min(bounds, key=lambda one: one.seq)
    asked = record.reader.execute("SELECT count(*), min(at) FROM entry WHERE seq < ?", (bound.seq,))
    goes, oldest = asked.fetchone()
    stays, first, latest = record.reader.execute("SELECT count(*), min(at), max(at) FROM entry WHERE seq >= ?",
                                                 (bound.seq,)).fetchone()
    return Cut(bound.seq - 1, goes, stays, oldest, first, latest, bound.why) if goes else None


def bounds_of(record: Journal, before: str, at_least: int) -> list[Bound]:
    """The entries with which what stays may begin at the latest."""
    asked = {
        "": ("SELECT min(seq) FROM entry WHERE at >= ?", before),
        f"the last {at_least:,} always stay": (
            "SELECT min(seq) FROM (SELECT seq FROM entry ORDER BY seq DESC LIMIT ?)", at_least),
        "that entry has no answer yet": ("SELECT min(seq) FROM entry WHERE reply IS NULL", None),
        "what that entry started is still started": ("""SELECT min(seq) FROM happened AS last WHERE status = 'S' AND
            NOT EXISTS (SELECT 1 FROM happened AS later WHERE later.serial = last.serial AND later.seq > last.seq)""",
                                                     None)}
    found = [Bound(record.reader.execute(text, () if value is None else (value,)).fetchone()[0], why)
             for why, (text, value) in asked.items()]
    if last := record.last_kept():
        found.append(Bound(last[0].seq, "it is the last one that the plan keeps"))
    return found


def prune(path: str, cut: Cut) -> None:
    """Has a journal that no desk has lack what goes. Raises Unreadable and Unwritable."""
    part = path + PART
    try:
        with contextlib.closing(Journal(path)):
            pass  # leaves all in one file
        if os.path.exists(f"{path}-wal") and os.path.getsize(f"{path}-wal"):
            raise Unreadable(f"{path}: nothing was done, because another program has it open; end that program first")
        remove(part)
        copied(path, part)
        shorten(part, cut)
        sync(part)
        os.replace(part, path)
        sync(os.path.dirname(path))
    except OSError as error:
        remove(part)
        raise Unwritable(f"{path}: nothing was done: it can't be pruned: {error.strerror}") from None
    except sqlite3.Error as error:
        remove(part)
        raise Unwritable(f"{path}: nothing was done: it can't be pruned: {journal.fault_text(error, path)}") from None


def copied(path: str, part: str) -> None:
    """Makes a whole copy of a journal, which nobody else may read. Raises OSError and sqlite3.Error."""
    os.close(os.open(part, os.O_WRONLY | os.O_CREAT | os.O_EXCL | os.O_CLOEXEC, 0o600))
    with contextlib.closing(sqlite3.connect(path)) as db:
        db.execute("VACUUM INTO ?", (part,))


def shorten(path: str, cut: Cut) -> None:
    """Takes what goes out of a file that nobody has. Raises sqlite3.Error."""
    with contextlib.closing(sqlite3.connect(path, isolation_level=None)) as db:
        tables = {name for (name,) in db.execute("SELECT name FROM sqlite_schema WHERE type = 'table'")}
        db.execute("BEGIN IMMEDIATE")
        gone = {number for (number,) in db.execute("SELECT job FROM entry WHERE seq <= ?", (cut.last,))}
        (digest,) = db.execute("SELECT digest FROM entry WHERE seq = ?", (cut.last,)).fetchone() or (None,)
        if "of_plan" in tables:
            for (known,) in db.execute("SELECT jobs FROM of_plan").fetchall():
                jobs = journal_plan.ranges_text(journal_plan.numbers_of(known) | gone)
                db.execute("UPDATE of_plan SET jobs = ?", (jobs,))
        if "begun" in tables:
            db.execute("UPDATE begun SET since = seq WHERE since IS NULL")
            db.execute("UPDATE begun SET seq = ?, digest = ? WHERE seq < ?", (cut.last, digest, cut.last))
        db.execute(OVER, {"cut": cut.last, "runs": RUNS})
        db.execute("DELETE FROM entry WHERE seq <= ?", (cut.last,))
        db.execute("COMMIT")
        db.execute("VACUUM")


def sync(path: str) -> None:
    """Puts a file, or which files a folder has, on the disk. Raises OSError."""
    number = os.open(path, os.O_RDONLY | os.O_CLOEXEC)
    try:
        os.fsync(number)
    finally:
        os.close(number)


def remove(part: str) -> None:
    """Takes away what a stopped run left."""
    for path in (part, f"{part}-journal", f"{part}-wal", f"{part}-shm"):
        with contextlib.suppress(OSError):
            os.remove(path)
