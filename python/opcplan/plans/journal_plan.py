"""Whether a journal and a plan belong together: each job that the journal saw answered is in the plan as it was
answered, and the plan has no job besides but those that it had when the journal began."""

import os
from collections.abc import Iterable, Set
from typing import TYPE_CHECKING

from opcplan.errors import Error
from opcplan.plans.entry import Entry

if TYPE_CHECKING:
    from opcplan.plans.journal import Journal
    from opcplan.plans.plan_file import Plan

# of entries that are compared with the plan's jobs, text by text, the last ones
MOST_COMPARED = 2000
TABLE = """CREATE TABLE IF NOT EXISTS of_plan (
    path TEXT NOT NULL, device INTEGER NOT NULL, inode INTEGER NOT NULL, jobs TEXT NOT NULL)"""


class JournalMismatch(Error):
    """Why a journal and a plan don't belong together."""


def check(record: "Journal", held: "Plan", others: Set[int] = frozenset(), upto: int = 1 << 62) -> None:
    """Asks that a Journal is that of a Plan, as far as the plan has entries, and notes that it is; `others` are jobs
    that the plan may have besides. Raises JournalMismatch and LogUnwritable."""
    known = record.of_plan()
    wrong = next(filter(None, (wrong_with(one, held) for one in record.last_kept(MOST_COMPARED, upto))), None)
    if wrong:
        place = f", {known.path}" if known and known.path != os.path.realpath(held.path) else ""
        raise JournalMismatch(f"{record.path}: {wrong}: it is the journal of another plan{place}. Give --journal the "
                              "journal of this plan, or a file that doesn't exist yet for a new journal")
    added = strangers(record, held) - known.jobs - others if known else set()
    if added:
        raise JournalMismatch(f"{held.path}: it has job {min(added)}, which its journal {record.path} lacks: somebody "
                              "changed the plan while no desk had it")
    note(record, held)


def wrong_with(one: Entry, held: "Plan") -> str:
    """What tells that an answered Entry isn't a job of a plan, or nothing."""
    row = held.db.execute("SELECT body, reply FROM job WHERE number = ?", (one.job,)).fetchone()
    if row is None:
        return f"its entry {one.seq} is job {one.job}, which {held.path} lacks"
    if written(bytes(row[0])) != one.text:
        return f"its entry {one.seq} isn't job {one.job} of {held.path}"
    if row[1] != one.reply:
        return f"its entry {one.seq} got the answer `{one.reply}`, but job {one.job} of {held.path} got `{row[1]}`"
    return ""


def strangers(record: "Journal", held: "Plan") -> set[int]:
    """The numbers of jobs that a plan has and its journal hasn't."""
    return {number for (number,) in held.db.execute("SELECT number FROM job")} - record.jobs()


def note(record: "Journal", held: "Plan") -> None:
    """Has a journal know its plan. Raises Unwritable."""
    found = os.stat(held.path)
    record.note_plan(os.path.realpath(held.path), found.st_dev, found.st_ino, ranges_text(strangers(record, held)))


def written(body: bytes | None) -> bytes | None:
    """A kept job's text as a stream has it: with the end of its data."""
    if body is None:
        return None
    line, feed, data = body.partition(b"\n")
    return line + b"\n" + (data + b"/*\n" if feed else b"")


def ranges_text(numbers: Iterable[int]) -> str:
    """Numbers as text: `1-6,9`."""
    found: list[list[int]] = []
    for number in sorted(numbers):
        if found and found[-1][1] == number - 1:
            found[-1][1] = number
        else:
            found.append([number, number])
    return ",".join(f"{first}-{last}" if last > first else f"{first}" for first, last in found)


def numbers_of(text: str) -> set[int]:
    """The numbers of a text of ranges. Raises ValueError."""
    found: set[int] = set()
    for one in filter(None, text.split(",")):
        first, _, last = one.partition("-")
        found |= set(range(int(first), int(last or first) + 1))
    return found
