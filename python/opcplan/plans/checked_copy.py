"""A copy of a plan in one file, which opcplan has found sound, and files that take their place whole."""

import contextlib
import os
import shutil
import sqlite3
import subprocess
from collections.abc import Callable

from opcplan.errors import Unreadable
from opcplan.plans import own_runs, plan_file, progress
from opcplan.plans.plan_file import Plan
from opcplan.plans.program import built_program, is_own

# a log that has no page: how it begins, and at most how long it is, with what opcplan leaves behind its header
LOG, MOST_WITHOUT_PAGES = b"\x37\x7f\x06", 32 + 24


def made(path: str, folder: str, program: str | None = None, prepare: Callable[[str], None] = lambda copy: None,
         is_anew: bool = False) -> tuple[str, sqlite3.Row]:
    """The path of such a copy in a folder, of the plan in a file and its log, and what plan_meta has. Calls `prepare`
    with the copy before opcplan opens it. Raises Unreadable.

    Of a file that was found sound and hasn't changed since, the copy isn't checked again, unless it shall be `anew`;
    but the sums of pages are, where there are sums: they tell what the times of a file don't. A plan of version 1 keeps
    its version: opcplan, which makes it anew, opens a copy of the copy.

    What opcplan finds sound isn't checked here too. What it doesn't take is, for a sentence that says why."""
    copy = os.path.join(folder, "copy.db")
    try:
        with plan_file.opened(path, by_program=True) as plan:
            if is_anew or not plan_file.is_sound(plan):
                check_by_opcplan(plan, copy, folder, program, prepare)
            else:
                plan_file.check_sums(plan)
                take_of(plan, copy, prepare)
                own_runs.merge(copy)
            meta = plan.meta
        if holds_something(f"{copy}-wal"):
            raise Unreadable(f"{path}: the log of its copy can't be merged into the copy")
        return copy, meta
    except Unreadable:
        with plan_file.opened(path):
            pass
        raise


def check_by_opcplan(plan: Plan, copy: str, folder: str, program: str | None, prepare: Callable[[str], None]) -> None:
    """Makes the copy of a plan, and has opcplan check it. Raises Unreadable."""
    with progress.of(f"checks the pages of {plan.path}"):
        (answer,) = plan.db.execute("PRAGMA integrity_check(1)").fetchone()
    if answer != "ok":
        raise Unreadable(f"{plan.path}: it is damaged: {' '.join(answer.split())}")
    take_of(plan, copy, prepare)
    program = os.path.abspath(program or built_program())
    if plan.version == plan_file.VERSIONS[-1]:
        ask(plan.path, copy, program)
    else:
        own_runs.merge(copy)
        taken(copy, os.path.join(folder, "other.db"))
        ask(plan.path, os.path.join(folder, "other.db"), program)
    if is_own(program):
        plan_file.keep(plan)


def take_of(plan: Plan, copy: str, prepare: Callable[[str], None]) -> None:
    """Makes the copy of a plan and its log, and calls `prepare` with it. Raises Unreadable."""
    taken(plan.db.execute("PRAGMA database_list").fetchone()["file"], copy)
    prepare(copy)


def taken(source: str, copy: str) -> None:
    """Copies a file and what stands beside it."""
    for tail in plan_file.TAILS:
        plan_file.take(source + tail, copy + tail)


def ask(path: str, copy: str, program: str) -> None:
    """Asks that opcplan opens a copy; its log is in the file then. Raises Unreadable."""
    try:
        with progress.of("opcplan checks the copy"):
            ran = subprocess.run([program, "--db", copy], stdin=subprocess.DEVNULL, capture_output=True, check=False)
    except OSError as error:
        raise Unreadable(f"{program}: it can't be run: {error.strerror}") from None
    if ran.returncode:
        reason = ran.stderr.decode(errors="replace").split("\n")[0].removeprefix("opcplan: ").replace(f"{copy}: ", "")
        raise Unreadable(f"{path}: opcplan doesn't accept it: {reason or ran.returncode}")


def holds_something(path: str) -> bool:
    """Whether anything stands at the path of a log or journal but an empty file, or a log without a page."""
    if not os.path.isfile(path):
        return os.path.lexists(path)
    with open(path, "rb") as file:
        data = file.read(MOST_WITHOUT_PAGES + 1)
    return len(data) > MOST_WITHOUT_PAGES or not data.startswith(LOG if data else b"")


# Files that take their place.


def write(source: str, path: str, like: str) -> None:
    """Copies a file to a path, with the mode and, where that is allowed, the owner of another; the disk has it then."""
    number = os.open(path, os.O_WRONLY | os.O_CREAT | os.O_TRUNC | os.O_NOFOLLOW, 0o600)
    try:
        with open(source, "rb") as file, open(number, "wb", closefd=False) as target:
            shutil.copyfileobj(file, target)
        stat = os.stat(like)
        with contextlib.suppress(PermissionError):
            os.fchown(number, stat.st_uid, stat.st_gid)
        os.fchmod(number, stat.st_mode & 0o777)
        os.fsync(number)
    finally:
        os.close(number)
