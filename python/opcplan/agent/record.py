"""The record of a run: a file beside the log of its output, named by the serial.

The agent writes the record before it sends the start to the desk. From then on only the runner writes it: first that
the job begins, then how it ended. The lock of the log belongs to the agent first, and then to the runner as long as it
lives.

The record alone determines the key of each step: the key of the run, the number of the try, and the step. So an agent
that is started again sends a step under the same key."""

import contextlib
import dataclasses
import fcntl
import json
import math
import os
import re
from collections.abc import Iterator
from typing import Any

from opcplan.agent import trusted_paths
from opcplan.errors import Unreadable
from opcplan.plans import atomic_files

FILE = re.compile(r"([0-9]{9})\.run")
RESET = re.compile(r".*\.([0-9]{1,3})-reset")
# the longest pause that a key names, in seconds
LONGEST = 999_999_999
# the fields that are lists in the file
OF_LISTS = ("command", "complete", "pauses")


@dataclasses.dataclass(frozen=True)
class Record:
    """A run of an occurrence."""

    serial: int
    app: str
    ia: str  # as statements have it
    key: str  # names the run; the start of the first try is sent under it
    after: int  # the position of the desk's journal when the start was requested
    limit: float | None  # in seconds
    began: str | None = None
    ended: str | None = None
    status: int | None = None  # of the job: its exit status, or less than 0 the signal that ended it
    why: str | None = None  # what else is known of its end
    attempt: int = 1  # the number of this try
    tries: int = 1  # how many tries are allowed
    pauses: tuple[float, ...] = ()  # seconds from the end of a try to the next; the last counts for all later
    complete: tuple[int, ...] = (0,)  # exit statuses that count as complete
    command: tuple[str, ...] = ()  # empty: the file of the application
    folder: str | None = None  # where it runs, else the folder of the jobs
    user: str | None = None  # as whom it runs, else as the agent
    environment: tuple[tuple[str, str], ...] | None = None  # None: the agent's
    offset: int = 0  # where the output of this try begins in the log

    @property
    def name(self) -> str:
        """The occurrence as messages name it."""
        return f"{self.app} {self.ia} (serial {self.serial})"

    @property
    def is_good(self) -> bool:
        """Whether a job that ended counts as complete."""
        return self.status in self.complete and self.why is None

    @property
    def is_tried_again(self) -> bool:
        """Whether another try follows one that ended."""
        return not self.is_good and self.attempt < self.tries

    @property
    def start_key(self) -> str:
        """The key under which the start of this try is sent."""
        return self.key if self.attempt == 1 else f"{self.key}.{self.attempt}"

    @property
    def end_key(self) -> str:
        """The key under which the end of this try is sent. If another try follows, it says after how many seconds."""
        pause = min(math.ceil(self.pause), LONGEST)
        return f"{self.start_key}-again{pause}" if self.is_tried_again else f"{self.start_key}-end"

    def is_end_key(self, key: str | None) -> bool:
        """Whether the end of this try has this key; before, the keys of all ends were alike."""
        return key in (self.end_key, f"{self.start_key}-end")

    @property
    def reset_key(self) -> str:
        """The key under which the reset after this try, if it failed, is sent."""
        return f"{self.key}.{self.attempt}-reset"

    @property
    def pause(self) -> float:
        """The seconds between the end of this try and the next one."""
        return self.pauses[min(self.attempt, len(self.pauses)) - 1] if self.pauses else 0.0

    @property
    def try_text(self) -> str:
        """The number of the try as messages have it; empty if one try is all."""
        return f"try {self.attempt} of {self.tries}" if self.tries > 1 else ""

    def next_try(self, after: int) -> "Record":
        """The record of the next try, whose start is requested at a position."""
        return dataclasses.replace(self, attempt=self.attempt + 1, after=after, began=None, ended=None, status=None,
                                   why=None, offset=0)

    @property
    def ended_text(self) -> str:
        """How the job ended, as messages have it."""
        if self.status is None:
            return self.why or ""
        how = f"status {self.status}" if self.status >= 0 else f"by signal {-self.status}"
        return f"{how}; {self.why}" if self.why else how


def try_after(key: str | None) -> int:
    """The number of an occurrence's next try, if the entry with this key gave it its status: agents count on from the
    tries of others."""
    found = RESET.fullmatch(key or "")
    return int(found[1]) + 1 if found else 1


class InvalidRecord(Unreadable):
    """What is wrong with the file of a record."""


def path_of(folder: str, serial: int) -> str:
    """The path of a record."""
    return os.path.join(folder, f"{serial:09}.run")


def log_of(folder: str, serial: int) -> str:
    """The path of the log of a serial's runs."""
    return os.path.join(folder, f"{serial:09}.log")


def write(folder: str, one: Record) -> None:
    """Replaces the file of a record, atomically and synced. Raises OSError."""
    atomic_files.replace(path_of(folder, one.serial), json.dumps(dataclasses.asdict(one)).encode())


def read(folder: str, serial: int) -> Record:
    """The record of a serial. Raises InvalidRecord and OSError."""
    path = path_of(folder, serial)
    number = os.open(path, trusted_paths.READ)
    with open(number, encoding="utf-8") as file:
        if why := trusted_paths.objection(path, os.fstat(number), trusted_paths.users()):
            raise InvalidRecord(why)
        try:
            one = of_json(json.load(file))
        except (ValueError, TypeError, AttributeError):
            raise InvalidRecord(f"{path}: this file isn't the record of a run") from None
    if one.serial != serial:
        raise InvalidRecord(f"{path}: this is the record of another serial, {one.serial}")
    return one


def of_json(fields: Any) -> Record:
    """The record of a file's fields. Raises ValueError, TypeError and AttributeError."""
    given = {name: tuple(value) if name in OF_LISTS else value for name, value in fields.items()}
    if given.get("environment") is not None:
        given["environment"] = tuple((str(name), str(value)) for name, value in given["environment"])
    return Record(**given)


def serials(folder: str) -> list[int]:
    """The serials that have records, in their order. Raises OSError."""
    return sorted(int(found[1]) for found in map(FILE.fullmatch, os.listdir(folder)) if found)


def remove_log(folder: str, serial: int) -> bool:
    """Deletes the log of a serial unless a run needs it; whether it did. Raises OSError."""
    with locked_log(folder, serial) as log:
        is_free = log is not None and not os.path.exists(path_of(folder, serial))
        if is_free:
            os.remove(log_of(folder, serial))
        return is_free


def forget(folder: str, serial: int) -> None:
    """Deletes a record. Raises OSError."""
    os.remove(path_of(folder, serial))
    atomic_files.sync_folder(folder)


def open_log(folder: str, serial: int) -> int | None:
    """The descriptor of the log, with its lock; None if another process has the lock. Raises OSError."""
    flags = os.O_WRONLY | os.O_CREAT | os.O_APPEND | os.O_NOFOLLOW | os.O_CLOEXEC
    path = log_of(folder, serial)
    while True:
        number = os.open(path, flags, 0o640)
        if not is_taken(number):
            os.close(number)
            return None
        if is_at(number, path):
            return number
        os.close(number)  # a prune of logs deleted it meanwhile


def is_at(number: int, path: str) -> bool:
    """Whether a path still names an open file. Raises OSError."""
    try:
        return os.path.samestat(os.fstat(number), os.stat(path, follow_symlinks=False))
    except FileNotFoundError:
        return False


@contextlib.contextmanager
def locked_log(folder: str, serial: int) -> Iterator[int | None]:
    """A context with what `open_log` returns, which is closed at its end. Raises OSError."""
    number = open_log(folder, serial)
    try:
        yield number
    finally:
        if number is not None:
            os.close(number)


def is_taken(number: int) -> bool:
    """Takes the lock of an open file; whether it got it."""
    try:
        fcntl.flock(number, fcntl.LOCK_EX | fcntl.LOCK_NB)
    except BlockingIOError:
        return False
    return True


def is_run(folder: str, serial: int) -> bool:
    """Whether a runner has the log of a serial. Raises OSError."""
    with locked_log(folder, serial) as log:
        return log is None
