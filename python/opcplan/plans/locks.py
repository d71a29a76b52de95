"""Locks on a plan's file: the one that a run of opcplan holds, the turn of those who send to it, and that of a desk.

They belong to the open file, so they last until it is closed, whatever else this process opens, and go with it."""

import contextlib
import fcntl
import os
import struct
import time
from collections.abc import Iterator

from opcplan.errors import Error

# SQLite's pending, reserved and shared bytes: a run holds them all, a reader one
OF_A_RUN = (1 << 30, 512)
# bytes behind them, which SQLite never locks
OF_A_SENDER = ((1 << 30) + 512, 1)
OF_A_DESK = ((1 << 30) + 513, 1)
REST = 0.05


class FileLocked(Error):
    """Another program has the lock, perhaps that of a file whose path is known."""

    def __init__(self, path: str = "") -> None:
        super().__init__(f"{path}: another program has it open" if path else "another program has it open")
        self.path = path


@contextlib.contextmanager
def locked(number: int, span: tuple[int, int], until: float = 0.0) -> Iterator[None]:
    """A context in which an open file has the lock of a span; it is waited for until a moment of the steady clock.
    Raises FileLocked."""
    begin, length = span
    while not set_lock(number, fcntl.F_WRLCK, begin, length):
        if time.monotonic() >= until:
            raise FileLocked
        time.sleep(REST)
    try:
        yield
    finally:
        set_lock(number, fcntl.F_UNLCK, begin, length)


@contextlib.contextmanager
def of_a_run(number: int, path: str) -> Iterator[None]:
    """A context in which an open file has the lock of a run, and is still the file at a path. Raises FileLocked."""
    with locked(number, OF_A_RUN):
        if not os.path.samestat(os.fstat(number), os.stat(path)):
            raise FileLocked
        yield


def is_held(path: str, span: tuple[int, int]) -> bool:
    """Whether another program has a lock of a span of a file; nothing is locked, and nobody is in its way."""
    begin, length = span
    with open(path, "rb") as file:
        asked = struct.pack("hhqqi", fcntl.F_WRLCK, os.SEEK_SET, begin, length, 0)
        (kind, *_) = struct.unpack("hhqqi", fcntl.fcntl(file, fcntl.F_OFD_GETLK, asked))
    return bool(kind != fcntl.F_UNLCK)


def set_lock(number: int, kind: int, begin: int, length: int) -> bool:
    """Whether the lock was set, or let go."""
    try:
        fcntl.fcntl(number, fcntl.F_OFD_SETLK, struct.pack("hhqqi", kind, os.SEEK_SET, begin, length, 0))
    except (BlockingIOError, PermissionError):  # EAGAIN or EACCES: another one has it
        return False
    return True
