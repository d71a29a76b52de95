"""What ./plan journal --prune does: it says what goes and what stays, asks, and does it."""

import argparse
import contextlib
import datetime
import os
import re
import sys
import time
from collections.abc import Iterator
from typing import NamedTuple

from opcplan.agent import record
from opcplan.cli import words
from opcplan.desk.held_files import HeldFiles
from opcplan.errors import Error, Unreadable, Unwritable, UsageError
from opcplan.plans import job_logs, journal, journal_prune, locks
from opcplan.plans.job_logs import StoredLog
from opcplan.plans.journal_prune import Cut
from opcplan.rules import amounts

USUAL_KEEP = 90 * 86400
OF_AN_AGENT = re.compile(r"([0-9]{9})\.log")


class Logs(NamedTuple):
    """Logs of a folder: those that go, how many stay, and how large both are."""

    folder: str
    goes: list[StoredLog]
    stays: int
    size_gone: int
    size_left: int

    @property
    def text(self) -> str:
        """The same in words."""
        gone, left = amounts.size_text(self.size_gone), amounts.size_text(self.size_left)
        return f"{self.folder}: {len(self.goes):,} logs go, {gone}; {self.stays:,} stay, {left}"


def add_words(parser: words.Parser) -> None:
    """Adds its words to a parser."""
    parser.add_argument("--keep", type=words.span, metavar="SPAN",
                        help="with --prune: what stays at least, as 90d, 12h or 4w (else 90d)")
    parser.add_argument("--logs", type=words.file, metavar="FOLDER",
                        help="with --prune: the folder of an agent's logs, to remove old ones too")
    parser.add_argument("--size", type=words.size, metavar="SIZE",
                        help="with --prune: how large each folder of logs may be at most, as 500M; the oldest logs go")
    parser.add_argument("--yes", action="store_true", help="with --prune: do it without asking")


def is_named(given: argparse.Namespace) -> bool:
    """Whether words are there that go with --prune alone."""
    return given.yes or any(one is not None for one in (given.keep, given.logs, given.size))


def run(given: argparse.Namespace) -> int:
    """Prunes as the words ask for; the exit status."""
    if any(one is not None for one in (given.app, given.first, given.last)):
        raise UsageError("--prune goes with --keep, not with --app, --from or --to")
    if given.plan is None and (given.logs is None or given.journal):
        raise UsageError("give PLAN.db, or --logs FOLDER alone; ./plan journal --help says more")
    keep, cut = given.keep or USUAL_KEEP, None
    with contextlib.ExitStack() as held:
        path = held.enter_context(held_journal(given)) if given.plan else None
        if path:
            cut = cut_of(path, keep)
            print(journal_text(path, cut))
        logs = list(old_logs(given, time.time() - keep))
        for one in logs:
            print(one.text)
        sys.stdout.flush()
        if cut is None and not any(one.goes for one in logs):
            return 0
        if not given.yes:
            ask()
        if cut is not None and path:
            journal_prune.prune(path, cut)
        for one in logs:
            remove(one)
    return 0


@contextlib.contextmanager
def held_journal(given: argparse.Namespace) -> Iterator[str]:
    """A context in which no desk has a plan and its journal: the whole path of that. Raises Unreadable."""
    path = os.path.realpath(given.journal or journal.beside(given.plan))
    for one in (given.plan, path):
        if not os.path.isfile(one) or not os.path.getsize(one):
            raise Unreadable(f"{one}: there is no such {'plan' if one == given.plan else 'journal'}")
    with contextlib.ExitStack() as left:
        try:
            files = left.enter_context(contextlib.closing(HeldFiles(given.plan, path)))
            left.enter_context(files.locked())
        except locks.FileLocked as held:
            raise Unreadable(f"{held.path}: nothing was done, because a desk has it; end the desk, prune, and start "
                             "the desk again") from None
        except OSError as error:
            raise Unreadable(f"{error.filename or path}: nothing was done: {error.strerror}") from None
        yield path


def cut_of(path: str, keep: int) -> Cut | None:
    """Where a journal is to be cut. Raises Unreadable."""
    before = datetime.datetime.now(datetime.timezone.utc) - datetime.timedelta(seconds=keep)
    with journal.opened(path) as held:
        return journal_prune.cut_of(held, before.strftime("%Y-%m-%dT%H:%M:%S.000Z"))


def journal_text(path: str, cut: Cut | None) -> str:
    """What goes of a journal, and what stays, in words."""
    if cut is None:
        return f"{path}: nothing goes"
    why = f", because {cut.why}" if cut.why else ""
    return (f"{path}: {cut.goes:,} entries go, up to entry {cut.last}, of {day(cut.oldest)} to {day(cut.first)}, and "
            f"the keys of their streams\n{path}: {cut.stays:,} entries stay, from entry {cut.last + 1} on, "
            f"of {day(cut.first)} to {day(cut.latest)}{why}. The times of jobs stay for occurrences that aren't over, "
            f"and for the last {journal_prune.RUNS} of each application")


def day(at: str) -> str:
    """The day of a moment of the journal, by the clock of this machine."""
    return f"{datetime.datetime.fromisoformat(at.replace('Z', '+00:00')).astimezone():%Y-%m-%d}"


def old_logs(given: argparse.Namespace, before: float) -> Iterator[Logs]:
    """The logs that go: those that the desk of the plan keeps, and those of an agent. Raises Unreadable."""
    try:
        if given.plan:
            yield chosen(job_logs.beside(given.plan), job_logs.FILE, before, given.size)
        if given.logs:
            if not os.path.isdir(given.logs):
                raise Unreadable(f"{given.logs}: there is no such folder")
            yield chosen(os.path.realpath(given.logs), OF_AN_AGENT, before, given.size)
    except OSError as error:
        raise Unreadable(f"{error.filename}: nothing was done: it can't be read: {error.strerror}") from None


def chosen(folder: str, form: re.Pattern[str], before: float, most: int | None) -> Logs:
    """The logs of a folder that go: the oldest, as long as they are older than a moment or too large together. That of
    a run whose end isn't reported stays. Raises OSError."""
    found = sorted(job_logs.kept(folder, form), key=lambda one: one.written)
    left, goes = sum(one.size for one in found), []
    for one in found:
        is_old = one.written < before or most is not None and left > most
        if is_old and not os.path.exists(re.sub(r"\.log$", ".run", one.path)):
            goes.append(one)
            left -= one.size
    return Logs(folder, goes, len(found) - len(goes), sum(one.size for one in goes), left)


def ask() -> None:
    """Asks on the terminal whether it shall be done. Raises Error where the answer is another one than yes."""
    if not (sys.stdin and sys.stdin.isatty() and sys.stderr.isatty()):
        raise Error("nothing was done, because there is no terminal to ask on; --yes prunes without asking")
    print("Prune it? [y/N] ", end="", file=sys.stderr, flush=True)
    if sys.stdin.buffer.readline().strip().lower() not in (b"y", b"yes"):
        raise Error("nothing was done")


def remove(logs: Logs) -> None:
    """Takes the logs that go away. Raises Unwritable."""
    for one in logs.goes:
        name = os.path.basename(one.path)
        try:
            if found := OF_AN_AGENT.fullmatch(name):
                record.remove_log(logs.folder, int(found[1]))
            else:
                os.remove(one.path)
        except FileNotFoundError:
            continue
        except OSError as error:
            raise Unwritable(f"{one.path}: it can't be removed: {error.strerror}; the older ones are removed") from None
