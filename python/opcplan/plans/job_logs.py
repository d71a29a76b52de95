"""The ends of the logs of jobs beside a plan, as agents gave them to its desk: a file for each try, whose name is made
of serial and try alone. `log_room` decides which give way if there is no room for another."""

import contextlib
import os
import re
import threading
from collections.abc import Iterator
from typing import NamedTuple

from opcplan.plans.log_room import Log, LogRoom

FILE = re.compile(r"([0-9]{9})\.([0-9]{2})\.log")
TAIL = ".logs"
LAST_SERIAL, LAST_TRY = 999_999_999, 99
# bytes of one try that are kept, and of one serial that are shown
MOST_OF_A_TRY, MOST_SHOWN = 1 << 18, 1 << 18
# how many are kept, and, unless a desk is told otherwise, how many bytes of all
MOST_LOGS, MOST_BYTES = 50_000, 1 << 30


class StoredLog(NamedTuple):
    """A file of the folder: its path, its size, and when it was written."""

    path: str
    size: int
    written: float


class JobLogs:
    """The ends of logs in a folder, which is made where there is none. Its calls raise OSError."""

    def __init__(self, folder: str, most_bytes: int = MOST_BYTES, most_logs: int = MOST_LOGS) -> None:
        self.folder, self.most_bytes, self.most_logs = folder, most_bytes, most_logs
        self.lock = threading.Lock()
        self.known: LogRoom | None = None  # None where it isn't known which files there are

    def path_of(self, serial: int, attempt: int) -> str:
        """The path of the file of a try."""
        return os.path.join(self.folder, f"{serial:09}.{attempt:02}.log")

    def room(self) -> LogRoom:
        """The LogRoom of the files that there are. If they were written before, it isn't known yet whether their
        occurrences are over."""
        if self.known is None:
            room = LogRoom(self.most_logs, self.most_bytes)
            for one in sorted(kept(self.folder), key=lambda one: one.written):
                found = FILE.fullmatch(os.path.basename(one.path))
                assert found is not None  # `kept` asked that
                room.stored(Log(int(found[1]), int(found[2])), one.size)
            self.known = room
        return self.known

    def put(self, serial: int, attempt: int, data: bytes) -> None:
        """Keeps the end of a try's log in the place of what was there. Later tries are those of an earlier run, and go.
        Raises NoRoom."""
        with self.lock:
            os.makedirs(self.folder, 0o700, exist_ok=True)
            room, log = self.room(), Log(serial, attempt)
            try:
                for one in room.gives_way(serial, attempt, len(data)):
                    if one != log:
                        with contextlib.suppress(FileNotFoundError):  # somebody pruned it
                            os.remove(self.path_of(*one))
                        room.removed(one)
                self.write(self.path_of(*log), data)
            except OSError:
                self.known = None  # it is read again
                raise
            room.stored(log, len(data))

    @staticmethod
    def write(path: str, data: bytes) -> None:
        """Writes a file whole."""
        part = f"{path}.part"
        number = os.open(part, os.O_WRONLY | os.O_CREAT | os.O_TRUNC | os.O_NOFOLLOW | os.O_CLOEXEC, 0o600)
        try:
            with open(number, "wb") as file:
                file.write(data)
            os.replace(part, path)
        except OSError:
            with contextlib.suppress(OSError):
                os.remove(part)
            raise

    def tries(self, serial: int) -> list[int]:
        """The tries of a serial that there are."""
        return [attempt for attempt in range(1, LAST_TRY + 1) if os.path.exists(self.path_of(serial, attempt))]

    def read(self, serial: int) -> bytes | None:
        """What is kept of a serial, one try behind the other, of the end as much as is shown; None where there is
        nothing."""
        with self.lock:
            found = [self.of_try(serial, attempt) for attempt in self.tries(serial)]
        return b"".join(found)[-MOST_SHOWN:] if found else None

    def of_try(self, serial: int, attempt: int) -> bytes:
        """What is kept of a try."""
        with open(self.path_of(serial, attempt), "rb") as file:
            return file.read(MOST_OF_A_TRY)


def beside(plan: str) -> str:
    """The folder of a plan."""
    return os.path.realpath(plan) + TAIL


def kept(folder: str, form: re.Pattern[str] = FILE) -> Iterator[StoredLog]:
    """The files of a folder whose names are of a form. Raises OSError."""
    with contextlib.suppress(FileNotFoundError), os.scandir(folder) as found:
        for one in found:
            if form.fullmatch(one.name) and one.is_file(follow_symlinks=False):
                seen = one.stat(follow_symlinks=False)
                yield StoredLog(one.path, seen.st_size, seen.st_mtime)
