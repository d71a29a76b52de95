"""Files and folders of a command's own, as a private copy of a plan: they go when it ends, also where it is stopped."""

import contextlib
import fcntl
import os
from collections.abc import Iterator

HELD: set[str] = set()


@contextlib.contextmanager
def folder(prefix: str) -> Iterator[str]:
    """The path of a folder of one's own, as long as the context lasts. Those that commands of this user left that were
    killed go first: the folder of a command that runs is locked."""
    drop_left(prefix)
    number = None
    while number is None:
        with taken(os.path.join(of_all(), prefix + os.urandom(10).hex())) as path:
            os.mkdir(path, 0o700)
            number = locked_folder(path)
            if number is not None:
                try:
                    yield path
                finally:
                    os.close(number)


def locked_folder(path: str) -> int | None:
    """A folder, open and locked, or None where a command that drops what is left has found it before that."""
    with contextlib.suppress(FileNotFoundError):
        number = os.open(path, os.O_RDONLY | os.O_DIRECTORY)
        if is_locked(number) and os.path.isdir(path):
            return number
        os.close(number)
    return None


def of_all() -> str:
    """The folder for temporary files."""
    import tempfile

    return tempfile.gettempdir()


def is_locked(number: int) -> bool:
    """Whether an open folder gets the lock that no other process has."""
    try:
        fcntl.flock(number, fcntl.LOCK_EX | fcntl.LOCK_NB)
    except BlockingIOError:
        return False
    return True


def drop_left(prefix: str) -> None:
    """Takes away the folders with a prefix that no process has locked, of this user alone."""
    import re
    import shutil

    form = re.compile(re.escape(prefix) + "[0-9a-f]{20}")
    with contextlib.suppress(OSError), os.scandir(of_all()) as found:
        for path in [item.path for item in found if form.fullmatch(item.name)]:
            with contextlib.suppress(OSError):
                number = os.open(path, os.O_RDONLY | os.O_DIRECTORY | os.O_NOFOLLOW)
                try:
                    if os.fstat(number).st_uid == os.getuid() and is_locked(number):
                        shutil.rmtree(path, ignore_errors=True)
                finally:
                    os.close(number)


@contextlib.contextmanager
def beside(path: str) -> Iterator[str]:
    """The path of a file that isn't there yet, beside another one; what stands there when the context ends goes."""
    with taken(os.path.join(os.path.dirname(path), f".plan-{os.urandom(8).hex()}")) as part:
        yield part


@contextlib.contextmanager
def taken(path: str) -> Iterator[str]:
    """A path at which nothing is left when the context ends."""
    import shutil  # noqa: F401  # what `drop` needs is loaded before there is something to take away

    HELD.add(path)
    try:
        yield path
    finally:
        drop(path)


def is_held(path: str) -> bool:
    """Whether a path is one of this command's own, or below one."""
    places = [os.path.realpath(held) for held in HELD]
    return any(path == place or path.startswith(place + os.sep) for place in places)


def drop(path: str) -> None:
    """Takes away what stands at a path that is held; where that fails the path is held still."""
    import shutil

    shutil.rmtree(path, ignore_errors=True)
    with contextlib.suppress(OSError):
        os.remove(path)
    with contextlib.suppress(OSError):
        if os.path.basename(path) not in os.listdir(os.path.dirname(path)):
            HELD.discard(path)


def drop_all() -> None:
    """Takes away all that is still held."""
    for path in list(HELD):
        drop(path)
