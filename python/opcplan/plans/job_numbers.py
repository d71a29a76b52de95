"""The job numbers of a plan that are used, and the next one: never one of those that are set aside for `./plan roll`
or that a desk gives itself, so that a stream with these numbers is taken by a desk too."""

import hashlib
import itertools
import sqlite3

from opcplan.plans.entry import FIRST_JOB, LAST_JOB

GREATEST = 999_999_999
# those that are made from what a statement does: no date up to the last planning day begins with these digits
FIRST_MADE, LAST_MADE = 800_000_001, 899_999_999


def greatest(db: sqlite3.Connection) -> int:
    """The greatest number that is kept, those that are set aside apart; 0 where none is."""
    asked = "SELECT coalesce(max(number), 0) FROM job WHERE number NOT BETWEEN ? AND ? AND number NOT BETWEEN ? AND ?"
    number: int = db.execute(asked, (FIRST_JOB, LAST_JOB, FIRST_MADE, LAST_MADE)).fetchone()[0]
    return number


def after_greatest(db: sqlite3.Connection) -> int:
    """The number after the greatest one that is kept."""
    return following(greatest(db))


def following(number: int) -> int:
    """The number after another one, behind those that are set aside."""
    for first, last in ((FIRST_JOB, LAST_JOB), (FIRST_MADE, LAST_MADE)):
        if first <= number + 1 <= last:
            return last + 1
    return number + 1


def made(db: sqlite3.Connection, text: str) -> int:
    """The number of a statement without one, made from its text: the same one each time, until the plan has a refusal
    under it, or another statement."""
    for turn in itertools.count():
        digest = hashlib.sha256(f"{text} {turn}".encode()).digest()
        number = FIRST_MADE + int.from_bytes(digest) % (LAST_MADE - FIRST_MADE + 1)
        kept = db.execute("SELECT body, reply FROM job WHERE number = ?", (number,)).fetchone()
        if kept is None or bytes(kept[0]) == f"{text} --job {number}".encode() and kept[1].startswith("ok"):
            return number
    raise AssertionError("a count has no end")


def kept_from(db: sqlite3.Connection, first: int) -> set[int]:
    """The numbers from one on that are kept."""
    return {number for (number,) in db.execute("SELECT number FROM job WHERE number >= ?", (first,))}


def after_desk(db: sqlite3.Connection) -> int:
    """The number that a desk gives next, as far as a plan shows it."""
    asked = "SELECT coalesce(max(number) + 1, ?1) FROM job WHERE number BETWEEN ?1 AND ?2"
    number: int = db.execute(asked, (FIRST_JOB, LAST_JOB)).fetchone()[0]
    return number


def of_desk(db: sqlite3.Connection) -> int:
    """How many numbers of a desk's own range are kept."""
    asked = "SELECT count(*) FROM job WHERE number BETWEEN ? AND ?"
    count: int = db.execute(asked, (FIRST_JOB, LAST_JOB)).fetchone()[0]
    return count
