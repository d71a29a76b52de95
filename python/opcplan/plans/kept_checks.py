"""Results of checks that are kept: a plan's file that was checked and hasn't changed since isn't checked again.

A result is a small file in a cache folder of the user's own. Its name is made of the path of the plan's file. Its text
says what that file and its log were when they were found sound, and by which rules. What opcplan made of a sound file
is sound too (`successions`). A file that isn't sound has no
result, so it is checked and refused each time. A result counts only if its text is, byte by byte, what it would be now,
and only if nobody else can have written it: the folder and the result belong to this user, and no other may write them.

Nothing depends on a result. If one can't be read or written, the file is checked."""

import contextlib
import os
import sqlite3
import stat
from collections.abc import Iterator
from typing import NamedTuple

# what decides whether a plan is sound, below the package
RULES = ("plans/page_sums.py", "plans/plan_file.py", "plans/sound_pairs.py", "plans/sound_rows.py",
         "plans/successions.py", "plans/table_checks.py", "rules/definitions.py", "rules/loops.py")
PACKAGE = os.path.dirname(os.path.dirname(os.path.abspath(__file__)))
FOLDER, PART = "opcplan", ".part"
MOST_KEPT, LONGEST = 500, 4096
BY_OTHERS = stat.S_IWGRP | stat.S_IWOTH


class Trust:
    """Whether this process goes by results that are kept."""

    is_given = True


def distrust() -> None:
    """From here on this process checks each file, and keeps the results anew."""
    Trust.is_given = False


class StoredResult(NamedTuple):
    """The text of a result, and the name of its file."""

    name: str
    text: str


def of_file(path: str, state: str) -> StoredResult | None:
    """The result for a file that is sound in a state; None if the rules of this program can't be read."""
    import hashlib

    try:
        rules = hashlib.blake2b(b"".join(map(bytes_of, RULES)), digest_size=32).hexdigest()
    except OSError:
        return None
    name = hashlib.blake2b(os.fsencode(path), digest_size=32).hexdigest()
    return StoredResult(name, f"sound by {rules} and SQLite {sqlite3.sqlite_version}: {state}\n")


def bytes_of(name: str) -> bytes:
    """A file of the package."""
    with open(os.path.join(PACKAGE, name), "rb") as file:
        return file.read()


def is_there(kept: StoredResult) -> bool:
    """Whether a result is kept, and can be trusted."""
    with contextlib.suppress(OSError), opened_folder(False) as folder:
        if not Trust.is_given or folder is None:
            return False
        number = os.open(kept.name, os.O_RDONLY | os.O_NOFOLLOW | os.O_NONBLOCK, dir_fd=folder)
        with open(number, "rb") as file:
            seen = os.fstat(number)
            return stat.S_ISREG(seen.st_mode) and is_own(seen) and file.read(LONGEST) == kept.text.encode()
    return False


def put(kept: StoredResult) -> None:
    """Keeps a result, if there is a folder for it."""
    with contextlib.suppress(OSError), opened_folder(True) as folder:
        if folder is None:
            return
        part = f"{kept.name}{PART}{os.getpid()}"
        number = os.open(part, os.O_WRONLY | os.O_CREAT | os.O_TRUNC | os.O_NOFOLLOW, 0o600, dir_fd=folder)
        try:
            with open(number, "wb") as file:
                file.write(kept.text.encode())
            os.replace(part, kept.name, src_dir_fd=folder, dst_dir_fd=folder)
        except BaseException:
            os.remove(part, dir_fd=folder)
            raise
        drop_oldest(folder)


def drop_oldest(folder: int) -> None:
    """Removes the oldest results of a folder if there are too many."""
    names = os.listdir(folder)
    if len(names) <= MOST_KEPT:
        return
    ages = sorted((os.stat(name, dir_fd=folder, follow_symlinks=False).st_mtime_ns, name) for name in names)
    for _, name in ages[: len(names) - MOST_KEPT * 9 // 10]:
        os.remove(name, dir_fd=folder)


@contextlib.contextmanager
def opened_folder(is_made: bool) -> Iterator[int | None]:
    """The folder of results, open, or None if there is none that this user alone may write; it is made if asked for."""
    cache = os.environ.get("XDG_CACHE_HOME", "")
    if not os.path.isabs(cache):  # as its specification asks
        cache = os.path.join(os.path.expanduser("~"), ".cache")
    path = os.path.join(cache, FOLDER)
    if not os.path.isabs(path):
        yield None
        return
    if is_made and not os.path.lexists(path) and may_make(cache):
        with contextlib.suppress(FileExistsError):
            os.mkdir(path, 0o700)
    number = os.open(path, os.O_RDONLY | os.O_DIRECTORY | os.O_NOFOLLOW)
    try:
        yield number if is_own(os.fstat(number)) else None
    finally:
        os.close(number)


def may_make(cache: str) -> bool:
    """Whether a user's folder of caches is there, or could be made, and is this user's: nothing is made for another,
    whose home `sudo` may have left."""
    if not os.path.isdir(cache):
        home = os.path.dirname(cache)
        if not os.path.isdir(home) or os.stat(home).st_uid != os.geteuid():
            return False
        with contextlib.suppress(FileExistsError):
            os.mkdir(cache, 0o700)
    return os.stat(cache).st_uid == os.geteuid()


def is_own(seen: os.stat_result) -> bool:
    """Whether something belongs to this user, and no other may write it."""
    return seen.st_uid == os.geteuid() and not seen.st_mode & BY_OTHERS
