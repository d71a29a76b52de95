"""Which ends of jobs' logs a desk stores, and which give way, decided without I/O.

What always holds (tests/test_log_room.py goes through a small world):

- Each log is of an occurrence that is or was started.
- There are at most so many logs, and they have at most so many bytes.
- A log gives way to that of another occurrence only if its own occurrence is over: complete, or deleted.
- The occurrence gives way first, with the logs of all its tries, of which nothing was heard for the longest time: no
  other status, and no log.
- A log is refused for want of room only if no occurrence that is over has enough of it.

Whoever has the files keeps to this order: what gives way is removed, then the new log is written, then it is `stored`.
So no bound is exceeded in between, apart from the earlier log of the same try, which is there until the new one is."""

import enum
from typing import NamedTuple

from opcplan.errors import Error


class Standing(enum.Enum):
    """How far an occurrence is, as far as its logs are concerned."""

    NEVER = enum.auto()  # it wasn't started
    OPEN = enum.auto()  # it was started, and isn't over
    OVER = enum.auto()  # it was started, and is complete or deleted


class Log(NamedTuple):
    """The log of one try of an occurrence's job."""

    serial: int
    attempt: int


class NoRoom(Error):
    """A log doesn't fit, and no occurrence that is over has enough room."""


class LogRoom:
    """The logs that are stored: at most `most_logs`, of `most_bytes` bytes."""

    def __init__(self, most_logs: int, most_bytes: int) -> None:
        self.most_logs, self.most_bytes = most_logs, most_bytes
        self.logs = self.bytes = 0
        self.open: dict[int, dict[int, int]] = {}  # bytes by serial and try
        self.over: dict[int, dict[int, int]] = {}  # the same; what gives way first comes first
        # the serials in `open` of which it isn't known whether they are over by now, in the order of their changes
        self.doubtful: dict[int, None] = {}

    def tries(self, serial: int) -> dict[int, int]:
        """The bytes of an occurrence's logs by try."""
        return self.open.get(serial) or self.over.get(serial) or {}

    def changed(self, serial: int) -> None:
        """Notes that an occurrence got another status or log: it may not be over any more, or may be over now."""
        if tries := self.tries(serial):
            self.over.pop(serial, None)
            self.open[serial] = tries
            self.doubtful.pop(serial, None)
            self.doubtful[serial] = None

    def noted(self, serial: int, standing: Standing) -> None:
        """Notes how far an occurrence is now."""
        self.doubtful.pop(serial, None)
        if standing is not Standing.OPEN and (tries := self.open.pop(serial, None)):
            self.over[serial] = tries

    def replaced(self, serial: int, attempt: int) -> list[Log]:
        """The logs that a log of a try replaces: its earlier one, and those of later tries, which are of an earlier
        run."""
        return [Log(serial, one) for one in self.tries(serial) if one >= attempt]

    def is_short(self, serial: int, attempt: int, size: int) -> bool:
        """Whether another occurrence has to give way to a log of so many bytes."""
        gone = self.replaced(serial, attempt)
        return not self.fits(len(gone), sum(self.tries(serial)[one.attempt] for one in gone), size)

    def fits(self, logs: int, freed: int, size: int) -> bool:
        """Whether there is room for one more log of so many bytes, once so many logs and bytes are gone."""
        return self.logs - logs + 1 <= self.most_logs and self.bytes - freed + size <= self.most_bytes

    def gives_way(self, serial: int, attempt: int, size: int) -> list[Log]:
        """The logs that go before a log of so many bytes is stored, and its own earlier one, if there is one. Raises
        NoRoom."""
        gone = self.replaced(serial, attempt)
        logs, freed = len(gone), sum(self.tries(serial)[one.attempt] for one in gone)
        for other, tries in self.over.items():
            if self.fits(logs, freed, size):
                break
            if other != serial:
                gone += [Log(other, one) for one in tries]
                logs, freed = logs + len(tries), freed + sum(tries.values())
        if not self.fits(logs, freed, size):
            raise NoRoom(f"it has {self.logs:,} logs of jobs, {self.bytes >> 10:,} KiB in all, and may have "
                         f"{self.most_logs:,} logs of {self.most_bytes >> 10:,} KiB; those that could give way are of "
                         "occurrences that aren't over")
        return gone

    def removed(self, log: Log) -> None:
        """Notes that a log is gone."""
        for held in (self.open, self.over):
            if (size := held.get(log.serial, {}).pop(log.attempt, None)) is not None:
                self.logs, self.bytes = self.logs - 1, self.bytes - size
                if not held[log.serial]:
                    del held[log.serial]
                    self.doubtful.pop(log.serial, None)

    def stored(self, log: Log, size: int) -> None:
        """Notes that a log of so many bytes is stored."""
        self.removed(log)
        tries = {**(self.open.pop(log.serial, None) or self.over.pop(log.serial, None) or {}), log.attempt: size}
        self.open[log.serial] = tries
        self.logs, self.bytes = self.logs + 1, self.bytes + size
        self.changed(log.serial)


def standing_of(statuses: str) -> Standing:
    """How far an occurrence is that got these statuses, in their order."""
    if not set(statuses) & set("SEC"):
        return Standing.NEVER
    return Standing.OVER if statuses[-1] in "CD" else Standing.OPEN
