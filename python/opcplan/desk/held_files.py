"""The files of a desk: the plan and the journal, open and locked, which must stay where they are."""

import contextlib
import os
from collections.abc import Iterator

from opcplan.errors import Error
from opcplan.plans import locks


class FileReplaced(Error):
    """One of a desk's files was removed, or another file has taken its place."""


class HeldFiles:
    """A plan and a journal that a desk holds open. SQLite's logs (`-wal`) beside them count too, once they are there;
    that of the plan may be a new file for each process of opcplan."""

    def __init__(self, plan: str, journal: str) -> None:
        self.plan = os.path.realpath(plan)
        self.numbers: dict[str, int] = {}
        self.logs: dict[str, tuple[int, int]] = {}
        with contextlib.ExitStack() as left:
            left.callback(self.close)
            self.numbers[self.plan] = os.open(self.plan, os.O_RDWR | os.O_CLOEXEC)
            self.journal = os.path.realpath(journal)
            self.is_new = not os.path.exists(self.journal)
            self.numbers[self.journal] = os.open(self.journal, os.O_RDWR | os.O_CREAT | os.O_CLOEXEC, 0o600)
            left.pop_all()

    @contextlib.contextmanager
    def locked(self) -> Iterator[None]:
        """A context in which no other desk has these files. Raises FileLocked, with the path."""
        with contextlib.ExitStack() as held:
            for path, number in self.numbers.items():
                try:
                    held.enter_context(locks.locked(number, locks.OF_A_DESK))
                except locks.FileLocked:
                    raise locks.FileLocked(path) from None
            held.callback(self.drop_unused)
            yield

    def drop_unused(self) -> None:
        """Removes a journal that was made here and is empty: the desk didn't start."""
        seen = os.fstat(self.numbers[self.journal])
        if self.is_new and not seen.st_size and place_of(self.journal) == (seen.st_dev, seen.st_ino):
            os.unlink(self.journal)

    def close(self) -> None:
        """Closes the files."""
        for number in self.numbers.values():
            os.close(number)
        self.numbers = {}

    def forget_log(self) -> None:
        """Notes that opcplan starts or has ended: the plan's log may be another file from now on."""
        self.logs.pop(self.plan, None)

    def moved(self) -> str:
        """Which file isn't in its place any more, as a sentence, or nothing."""
        for path, number in self.numbers.items():
            own, log = os.fstat(number), place_of(f"{path}-wal")
            if not own.st_nlink:
                return f"{path} was removed while the desk ran"
            if place_of(path) != (own.st_dev, own.st_ino):
                return f"another file has taken the place of {path}"
            if self.logs.get(path, log) != log:
                return f"{path}-wal was removed or replaced while the desk ran"
            if log is not None:
                self.logs[path] = log
        return ""

    def check(self) -> None:
        """Checks that the files are in their places. Raises FileReplaced."""
        if why := self.moved():
            raise FileReplaced(why)


def place_of(path: str) -> tuple[int, int] | None:
    """Device and inode of a file, or None if there is none."""
    try:
        found = os.stat(path)
    except OSError:
        return None
    return found.st_dev, found.st_ino
