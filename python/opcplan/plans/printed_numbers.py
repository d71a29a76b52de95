"""Which job numbers the streams have that were printed for a plan, so that two of them don't get the same ones before
either is run.

- Each line of a file is a stream that was printed: its plan, its first and its last number, when, and a digest of its
  statements. Lines are only added, under a lock and each by one write; the file is emptied once all are a week old.
- Two different streams of the last week have no number in common. Equal ones have the same numbers: whoever runs the
  second one does nothing twice.
- A stream is printed after its line was added. A command that is killed leaves the lines that there were, perhaps with
  its own, and its lock goes with it. Nobody waits longer than PATIENCE seconds.

The file is PLAN.db.numbers, with the mode and the group of the plan, for all who may write it. Whoever may not, or
has no right to that file, has another one, in the folder XDG_STATE_HOME (else ~/.local/state). Where neither can be
used, streams are numbered as if nothing had been printed."""

import contextlib
import fcntl
import hashlib
import os
import re
import stat
import time
from collections.abc import Callable, Iterator
from typing import NamedTuple

from opcplan.errors import Error, Unwritable
from opcplan.plans import atomic_files, tempfiles

TAIL, FILE = ".numbers", "printed-numbers.txt"
DAY = 86_400  # seconds
LONGEST = 7 * DAY
PATIENCE, REST = 5.0, 0.02
MOST_BYTES = 1 << 20
BY_OTHERS = stat.S_IWGRP | stat.S_IWOTH
LINE = re.compile(rb"([0-9a-f]{16}) ([0-9]{1,9}) ([0-9]{1,9}) ([0-9]{1,12}) ([0-9a-f]{64})")


class Printed(NamedTuple):
    """A stream that was printed: a digest of its statements, its first and its last number, and when."""

    digest: str
    first: int
    last: int
    at: int


class Place(NamedTuple):
    """A file of printed streams, what its lines name the plan by, and the plan whose mode it has, if it has that."""

    path: str
    name: str
    like: str | None


class InvalidNumbersFile(Error):
    """Why what a file has isn't taken."""


def numbered(path: str, text: str, least: int, numbers_from: Callable[[int], list[int]]) -> list[int]:
    """The numbers of a stream for the plan of a file, from the least on or behind those of streams that were printed
    and not run yet. A stream that was printed before gets the numbers that it had. Raises Unwritable."""
    digest, found = hashlib.sha256(text.encode()).hexdigest(), places(path)
    for place in found:
        with contextlib.suppress(OSError, InvalidNumbersFile), opened(place) as held:
            before = [one for other in found if other != place for one in seen(other)]
            return reserved(held, place, Printed(digest, least, 0, int(time.time())), before, numbers_from)
    return numbers_from(least)


def behind(path: str, least: int) -> int:
    """The least number, or the one behind those of all streams that were printed for the plan of a file and not run
    yet."""
    return max([least, *(one.last + 1 for place in places(path) for one in seen(place))])


def places(path: str) -> list[Place]:
    """The files that may have the streams of a plan: the one beside it, where this user may write the plan, and the
    user's own."""
    plan = os.path.realpath(path)
    name = hashlib.sha256(os.fsencode(plan)).hexdigest()[:16]
    base = os.environ.get("XDG_STATE_HOME", "")
    base = base if os.path.isabs(base) else os.path.expanduser("~/.local/state")
    own = Place(os.path.join(base, "opcplan", FILE), name, None)
    is_writer = os.access(plan, os.W_OK) and os.access(os.path.dirname(plan), os.W_OK)
    return [Place(plan + TAIL, "0" * 16, plan), own] if is_writer else [own]


def reserved(
    held: int, place: Place, wanted: Printed, before: list[Printed], numbers_from: Callable[[int], list[int]]
) -> list[int]:
    """The numbers of a stream, which the open file has from now on. Raises InvalidNumbersFile."""
    data = read(held)
    known = [one for one in live(data, place.name) if abs(wanted.at - one.at) < LONGEST]
    again = next((one for one in known if one.digest == wanted.digest and wanted.first <= one.first), None)
    found = numbers_from(again.first if again else max([wanted.first, *(one.last + 1 for one in [*known, *before])]))
    if again is None or wanted.at - again.at > DAY or found[-1] != again.last:
        line = f"{place.name} {found[0]} {found[-1]} {wanted.at} {wanted.digest}\n".encode()
        if all(abs(wanted.at - int(one[4])) >= LONGEST for one in LINE.finditer(data)):
            os.ftruncate(held, 0)
            data = b""
        added = line if data.endswith(b"\n") or not data else b"\n" + line  # behind a line that wasn't written whole
        if len(data) + len(added) > MOST_BYTES:
            raise InvalidNumbersFile(f"{place.path}: it is full")
        os.pwrite(held, added, len(data))
    return found


def seen(place: Place) -> list[Printed]:
    """The streams of the last week in a file, as far as it can be read; nothing is made or locked."""
    with contextlib.suppress(OSError, InvalidNumbersFile):
        number = os.open(place.path, os.O_RDONLY | os.O_NOFOLLOW | os.O_CLOEXEC)
        try:
            check(number, place)
            return [one for one in live(read(number), place.name) if abs(time.time() - one.at) < LONGEST]
        finally:
            os.close(number)
    return []


def live(data: bytes, name: str) -> list[Printed]:
    """The streams of a plan in the bytes of a file; what is no whole line counts for nothing."""
    found = [LINE.fullmatch(line) for line in data.split(b"\n")[:-1]]
    return [Printed(one[5].decode(), int(one[2]), int(one[3]), int(one[4]))
            for one in found if one and one[1].decode() == name]


def read(number: int) -> bytes:
    """All bytes of an open file. Raises InvalidNumbersFile."""
    data = os.pread(number, MOST_BYTES + 1, 0)
    if len(data) > MOST_BYTES:
        raise InvalidNumbersFile("it is too long")
    return data


@contextlib.contextmanager
def opened(place: Place) -> Iterator[int]:
    """A context in which this process alone has a file open, which is made where there is none. Raises OSError,
    InvalidNumbersFile, and Unwritable where another program keeps it."""
    if not os.path.lexists(place.path):
        make(place)
    until = time.monotonic() + PATIENCE
    while True:
        number = os.open(place.path, os.O_RDWR | os.O_NOFOLLOW | os.O_CLOEXEC)
        try:
            check(number, place)
            if is_locked(number) and os.path.samestat(os.fstat(number), os.stat(place.path)):
                yield number
                return
        finally:
            os.close(number)
        if time.monotonic() >= until:
            raise Unwritable(f"{place.path}: another program has had it for {PATIENCE:.0f} seconds, so it isn't known "
                             "which job numbers are free. Type the same again, or give a number with --job")
        time.sleep(REST)


def is_locked(number: int) -> bool:
    """Whether an open file gets the lock that no other process has."""
    try:
        fcntl.flock(number, fcntl.LOCK_EX | fcntl.LOCK_NB)
    except BlockingIOError:
        return False
    return True


def make(place: Place) -> None:
    """Makes an empty file: it has its mode and its group before it has its name. Raises OSError."""
    folder = os.path.dirname(place.path)
    if place.like is None:
        os.makedirs(folder, 0o700, exist_ok=True)
    with tempfiles.beside(place.path) as part, contextlib.suppress(FileExistsError):
        number = os.open(part, os.O_RDWR | os.O_CREAT | os.O_EXCL | os.O_NOFOLLOW | os.O_CLOEXEC, 0o600)
        try:
            if place.like is not None:
                plan = os.stat(place.like)
                with contextlib.suppress(PermissionError):
                    os.fchown(number, -1, plan.st_gid)
                os.fchmod(number, stat.S_IMODE(plan.st_mode) & 0o666)
        finally:
            os.close(number)
        atomic_files.rename_new(part, place.path)


def check(number: int, place: Place) -> None:
    """Asks that an open file is one, and that nobody may write it but who may write the plan, or for a user's own file
    this user. Raises OSError and InvalidNumbersFile."""
    found, folder = os.fstat(number), os.stat(os.path.dirname(place.path))
    if not stat.S_ISREG(found.st_mode) or found.st_nlink != 1:
        raise InvalidNumbersFile("it isn't a file of its own")
    if place.like is None:
        if any(one.st_uid != os.geteuid() or one.st_mode & BY_OTHERS for one in (found, folder)):
            raise InvalidNumbersFile("other users may write it")
        return
    plan = os.stat(place.like)
    if found.st_mode & BY_OTHERS & ~plan.st_mode:
        raise InvalidNumbersFile("more users may write it than may write the plan")
    if folder.st_mode & stat.S_ISVTX and found.st_uid not in (os.geteuid(), plan.st_uid):
        raise InvalidNumbersFile("another user made it, in a folder that is open to all")
