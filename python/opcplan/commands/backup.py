"""./plan backup: a copy of a plan in one file, which opcplan has opened and found sound."""

import argparse
import contextlib
import os
import sqlite3
import time

from opcplan.cli import output, words
from opcplan.errors import Error, Unreadable, Unwritable, UsageError
from opcplan.plans import atomic_files, checked_copy, copy_mark, journal, locks, own_runs, plan_file, tempfiles
from opcplan.plans.program import is_own
from opcplan.rules import moments, printable

SUMMARY = "a copy of a plan in one file, checked; a run may go on meanwhile"


# seconds for which the journal may lack the answer to the copy's last entry, and between two looks
PATIENCE, REST = 5.0, 0.25


class CopyRefused(Error):
    """Why a copy doesn't take its place."""


def add_words(parser: words.Parser) -> None:
    """Adds its words to a parser."""
    parser.description = (
        "Copies PLAN.db into FILE, with what is in its log, and has opcplan check the copy: each page and its sum, "
        "each row, the plan as a whole. FILE is there whole then, or not at all. PLAN.db stays as it is, and a run "
        "over it may go on: what it answered so far is in the copy. If the plan shares a log with others, the copy "
        "says which entry of the log it has, so that a desk can begin with it. The exit status is 1 if there is no "
        "copy."
    )
    words.add_plan(parser)
    parser.add_argument("file", metavar="FILE", type=words.file, help="the copy")
    parser.add_argument("--force", action="store_true", help="replace a FILE that exists")
    parser.add_argument("--journal", type=words.file, metavar="JOURNAL",
                        help="the journal of a plan that shares a log (else PLAN.db.journal beside it)")
    add_program(parser)


def run(given: argparse.Namespace) -> int:
    """Does what the words ask for; the exit status."""
    target = os.path.realpath(given.file)
    if target in {os.path.realpath(given.plan) + tail for tail in (*plan_file.TAILS, "-shm")}:
        raise UsageError(f"{given.file}: this is the plan, or belongs to it; name another file")
    try:
        check_link(given.file)
        check_place(target, given.force)
        with tempfiles.folder("backup-") as folder:
            mark = Mark(given.plan, given.journal or journal.beside(given.plan))
            copy, meta = checked_copy.made(given.plan, folder, given.program, mark.put)
            put(copy, target, os.path.realpath(given.plan), given.force)
            if given.program is None or is_own(given.program):
                own_runs.keep_equal(target, copy)
    except (CopyRefused, locks.FileLocked) as why:
        raise Unwritable(f"{given.file}: {why}") from None
    except OSError as error:
        raise Unwritable(f"{given.file}: it can't be written: {error.strerror}") from None
    print(printable.fit(f"{given.file} is a copy of {given.plan}, checked: {extent_text(meta)}.{mark.why_not}"))
    return 0


class Mark:
    """The mark of a copy of a plan that shares a log with others: which entry it has, and the digest of the log up to
    it, by the plan's journal. `why_not` says why the copy has none although the plan shares a log."""

    def __init__(self, plan: str, path: str) -> None:
        self.plan, self.path, self.why_not = plan, path, ""

    def put(self, copy: str) -> None:
        """Puts the mark into a copy. Raises Unreadable."""
        if not os.path.isfile(self.path) or not os.path.getsize(self.path):
            return
        try:
            with contextlib.closing(sqlite3.connect(copy)) as db:
                seq = journal.position_in(db)
            until = time.monotonic() + PATIENCE
            while not self.put_digest(copy, seq):  # a desk writes replies within half a second
                if time.monotonic() > until:
                    self.why_not = (f" No desk of the log can begin with it, because {self.path} lacks the answer to "
                                    f"entry {seq}: start the plan's desk once more, and then make a copy.")
                    return
                time.sleep(REST)
        except sqlite3.Error as error:
            raise Unreadable(f"{self.plan}: its copy can't be marked: {error}") from None

    def put_digest(self, copy: str, seq: int) -> bool:
        """Puts the mark into a copy that has an entry; False if the journal doesn't have the digest yet. Raises
        Unreadable."""
        with journal.opened(self.path) as record:
            begun = record.begun()
            if begun is None:
                return True
            if begun.stopped:
                self.why_not = (f" No desk can begin with it, because the plan's desk stopped at entry {begun.stopped} "
                                "of the log: it answered differently from a majority of the desks.")
                return True
            digest = begun.digest if seq == begun.seq else record.digests_at([seq]).get(seq)
        if digest is not None:
            copy_mark.put(copy, begun.log, seq, digest)
        return digest is not None


def extent_text(meta: sqlite3.Row) -> str:
    """How far the plans of a file reach."""
    if not meta["created"]:
        return "it has no long-term plan yet"
    return f"its current plan ends at {moments.moment_text(meta['plan_end'])}"


def check_link(path: str) -> None:
    """Asks that a link at a path is one's own: that of another user could lead anywhere. Raises CopyRefused."""
    if os.path.islink(path) and os.lstat(path).st_uid != os.geteuid():
        raise CopyRefused("it is a link that another user made; name the file itself")


def check_place(target: str, is_forced: bool) -> None:
    """Asks that a copy may stand at a place: no file is there, or may be taken away, and no log that would be read with
    it. Raises CopyRefused."""
    if os.path.lexists(target) and not os.path.isfile(target):
        raise CopyRefused("it is not a file")
    if os.path.exists(target) and not is_forced:
        raise CopyRefused("the file exists already; --force replaces it")
    for tail in plan_file.TAILS[1:]:
        if checked_copy.holds_something(target + tail):
            raise CopyRefused(f"{os.path.basename(target)}{tail} is beside it and would be read with the copy; name "
                              "another file, or remove that one")


def put(copy: str, target: str, plan: str, is_forced: bool) -> None:
    """Puts a copy in its place, whole. Raises CopyRefused and FileLocked."""
    with atomic_files.part(target, "backup") as part:
        checked_copy.write(copy, part, plan)
        if is_forced and os.path.lexists(target):
            replace(part, target)
        else:
            clear_place(target)
            try:
                atomic_files.rename_new(part, target)
            except FileExistsError:
                raise CopyRefused("somebody made this file meanwhile; --force replaces it") from None
    output.sync_folder(target)


def replace(part: str, target: str) -> None:
    """Puts a file in the place of another one that no program has open. Raises CopyRefused and FileLocked."""
    number = os.open(target, os.O_RDWR)
    try:
        with locks.of_a_run(number, target):
            clear_place(target)
            os.replace(part, target)
    finally:
        os.close(number)


def clear_place(target: str) -> None:
    """Takes away the logs beside a place, in which there is nothing. Raises CopyRefused where there is something."""
    check_place(target, True)
    for tail in plan_file.TAILS[1:]:
        with contextlib.suppress(FileNotFoundError):
            os.remove(target + tail)


def add_program(parser: words.Parser) -> None:
    """The option that names the planner, as `words.program`."""
    parser.add_argument("--program", metavar="FILE", type=words.file,
                        help="the planner that checks it (else the one that is built here)")
