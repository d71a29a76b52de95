"""A clock that is set by hand, and how full the disk is: a small file that several processes have in memory.

The clock stands in place of the machine's clock and of the steady one, as seconds since 1970."""

import datetime
import mmap
import struct
from typing import NamedTuple

from opcplan.plans import entry
from opcplan.rules import moments

NUMBER = struct.Struct("<d")
DISK = 10 ** 12  # bytes


class Usage(NamedTuple):
    """What shutil.disk_usage answers."""

    total: int
    used: int
    free: int


class Clock:
    """The clock in a file, and the disk."""

    def __init__(self, path):
        with open(path, "r+b") as file:
            self.memory = mmap.mmap(file.fileno(), 2 * NUMBER.size)

    @classmethod
    def made(cls, path, minute, disk=50.0):
        """A clock in a new file: a plan's minute, and how full the disk is, in percent."""
        with open(path, "wb") as file:
            file.write(NUMBER.pack(seconds_of(minute)) + NUMBER.pack(disk))
        return cls(path)

    @property
    def seconds(self):
        """Seconds since 1970."""
        return NUMBER.unpack(self.memory[:NUMBER.size])[0]

    @seconds.setter
    def seconds(self, value):
        self.memory[:NUMBER.size] = NUMBER.pack(value)

    @property
    def disk(self):
        """How full the disk is, in percent."""
        return NUMBER.unpack(self.memory[NUMBER.size:])[0]

    @disk.setter
    def disk(self, value):
        self.memory[NUMBER.size:] = NUMBER.pack(value)

    @property
    def minute(self):
        """The moment as a plan has it: minutes since 1970 by the local clock."""
        return int((datetime.datetime.fromtimestamp(self.seconds) - moments.EPOCH).total_seconds() // 60)

    def set_to(self, minute):
        """Sets it to the begin of a plan's minute."""
        self.seconds = seconds_of(minute)

    # What modules of the program have of `time` and of the machine's clock.

    def time(self):
        """In place of time.time."""
        return self.seconds

    monotonic = time

    def now(self, text=None):
        """In place of moments.now."""
        return self.minute if text is None else moments.moment_of(text)

    def disk_usage(self, path):
        """In place of shutil.disk_usage."""
        used = int(DISK * self.disk / 100)
        return Usage(DISK, used, DISK - used)

    def moment_now(self):
        """In place of entry.moment_now."""
        return entry.moment_text(self.seconds)


def seconds_of(minute):
    """Seconds since 1970 of a plan's minute, by the local clock."""
    return (moments.EPOCH + datetime.timedelta(minutes=minute)).timestamp()
