"""./plan restore: a backup takes the place of a plan, and what stood there is set aside.

What is set aside gets a second name first. As long as PLAN.db has two, opcplan doesn't open it; so a restore that is
stopped in its midst never leaves a file that is served without its log, or beside the log of another one. Where there
is no PLAN.db, a log that is left is set aside first, and then the copy gets its name in one call."""

import argparse
import contextlib
import os
import re
import signal
import stat
import time
from collections.abc import Iterator

from opcplan.cli import output, words
from opcplan.commands import backup
from opcplan.errors import Unwritable, UsageError
from opcplan.plans import atomic_files, checked_copy, locks, own_runs, plan_file, tempfiles
from opcplan.plans.program import is_own
from opcplan.rules import printable

SUMMARY = "puts a backup in the place of a plan, and keeps what was there"
BESIDE = (*plan_file.TAILS[1:], "-shm")
STOPS = {signal.SIGINT, signal.SIGTERM, signal.SIGHUP}


def add_words(parser: words.Parser) -> None:
    """Adds its words to a parser."""
    parser.description = (
        "Checks BACKUP as `./plan backup` does, and renames PLAN.db and its log to a name with the date and time. Then "
        "it puts a copy of BACKUP in the place of PLAN.db, unless another program has that open. If it is stopped "
        "halfway, opcplan doesn't open PLAN.db, nothing is lost, and the same command again finishes it. The exit "
        "status is 1 if PLAN.db isn't the backup then."
    )
    parser.add_argument("backup", metavar="BACKUP", type=words.file, help="the plan to go back to")
    words.add_plan(parser)
    backup.add_program(parser)


def run(given: argparse.Namespace) -> int:
    """Does what the words ask for; the exit status."""
    path = os.path.realpath(given.plan)
    if path == os.path.realpath(given.backup):
        raise UsageError(f"{given.plan}: the backup and the plan are one file")
    if os.path.lexists(path) and not os.path.isfile(path):
        raise Unwritable(f"{given.plan}: it is not a file")
    with tempfiles.folder("restore-") as folder:
        copy, meta = checked_copy.made(given.backup, folder, given.program, is_anew=True)
        try:
            aside = put_back(copy, path, os.path.realpath(given.backup))
        except locks.FileLocked:
            is_desk = locks.is_held(given.plan, locks.OF_A_DESK)
            who = "a desk has it; end the desk first" if is_desk else "another program has it open"
            raise Unwritable(f"{given.plan}: nothing was changed, because {who}") from None
        except OSError as error:
            raise Unwritable(f"{given.plan}: the backup can't be put there: {error.strerror}; repair that, and type "
                             "the same again") from None
        if given.program is None or is_own(given.program):
            own_runs.keep_equal(path, copy)
    lines = [f"{given.plan} is {given.backup} now: {backup.extent_text(meta)}."]
    lines += [f"What was there is now {' and '.join(aside)}, in the same folder."] if aside else []
    lines.append("What opcplan answered since the backup isn't in it: run the streams since then again, in their "
                 "order.")
    print(printable.text(lines))
    return 0


def put_back(copy: str, path: str, like: str) -> list[str]:
    """Puts a copy in the place of a plan. Answers the names of what stood there. Raises FileLocked."""
    with atomic_files.part(path, "restore") as part:
        try:
            number = os.open(path, os.O_RDWR)
        except FileNotFoundError:
            checked_copy.write(copy, part, like)
            aside = put_new(part, path)
        else:
            try:
                with locks.of_a_run(number, path):
                    checked_copy.write(copy, part, path)
                    aside = put_in_place(part, path)
            finally:
                os.close(number)
    output.sync_folder(path)
    return aside


def put_in_place(part: str, path: str) -> list[str]:
    """Puts a file in the place of a plan that nobody else has, and sets that aside."""
    with unstopped():
        name = earlier(path) or free(f"{path}.{now()}")
        if not os.path.lexists(name):
            os.link(path, name)
        output.sync_folder(path)
        set_aside(path, name)
        os.replace(part, path)
    return names_of(name)


def put_new(part: str, path: str) -> list[str]:
    """Puts a file in a place where there is none, and sets aside what stands beside that. Raises FileLocked where
    another program made one meanwhile: that keeps what it had."""
    with unstopped():
        name = free(f"{path}.{now()}")
        moved = set_aside(path, name)
        try:
            atomic_files.rename_new(part, path)
        except FileExistsError:
            for before, after in moved:
                with contextlib.suppress(FileExistsError):
                    atomic_files.rename_new(after, before)
            raise locks.FileLocked from None
    return names_of(name)


@contextlib.contextmanager
def unstopped() -> Iterator[None]:
    """A context in which signals wait."""
    before = signal.pthread_sigmask(signal.SIG_BLOCK, STOPS)
    try:
        yield
    finally:
        signal.pthread_sigmask(signal.SIG_SETMASK, before)


def now() -> str:
    """The date and the time in a name."""
    return time.strftime("%Y%m%d-%H%M%S")


def set_aside(path: str, name: str) -> list[tuple[str, str]]:
    """Gives another name to what stands beside a plan's file. Answers the names before and after."""
    moved = []
    for tail in BESIDE:
        if os.path.lexists(path + tail):
            moved.append((path + tail, free(name + tail)))
            os.rename(*moved[-1])
    output.sync_folder(path)
    return moved


def names_of(name: str) -> list[str]:
    """The names of what was set aside."""
    return [os.path.basename(name + tail) for tail in ("", *BESIDE[:2]) if os.path.lexists(name + tail)]


def earlier(path: str) -> str | None:
    """The second name that a restore gave the plan's file before it was stopped, or None."""
    here, folder = os.stat(path), os.path.dirname(path)
    form = re.compile(re.escape(os.path.basename(path)) + r"\.[0-9]{8}-[0-9]{6}(\.[0-9]+)?")
    for name in sorted(os.listdir(folder)) if here.st_nlink > 1 else ():
        found = os.path.join(folder, name)
        if form.fullmatch(name) and stat.S_ISREG(os.lstat(found).st_mode) and os.path.samestat(os.lstat(found), here):
            return found
    return None


def free(path: str) -> str:
    """A name that nothing has, nor anything beside it: the path, or one with a number behind it."""
    names, number = path, 1
    while any(os.path.lexists(names + tail) for tail in ("", *BESIDE)):
        number += 1
        names = f"{path}.{number}"
    return names
