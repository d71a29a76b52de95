"""A file that takes its place whole: it is written under a hidden name of its own beside the place, and renamed.

The hidden name is the same each time, so what a command leaves that is killed goes when it runs again."""

import contextlib
import errno
import os
from collections.abc import Iterator

from opcplan.plans import locks

WITHOUT_CALL = {errno.ENOSYS, errno.EINVAL, errno.EOPNOTSUPP}
AT_FOLDER, NO_REPLACE = -100, 1


@contextlib.contextmanager
def part(path: str, ending: str) -> Iterator[str]:
    """The name of an empty file of one's own beside a path, which goes when the context ends. Raises FileLocked."""
    name = os.path.join(os.path.dirname(path), f".{os.path.basename(path)}.{ending}")
    if is_one_file(name, path):
        # what `rename_new` leaves where it is killed between two calls
        os.remove(name)
    number = os.open(name, os.O_RDWR | os.O_CREAT | os.O_NOFOLLOW, 0o600)
    try:
        with locks.of_a_run(number, name):
            try:
                yield name
            finally:
                with contextlib.suppress(FileNotFoundError):
                    if os.path.samestat(os.fstat(number), os.lstat(name)):
                        os.remove(name)
    finally:
        os.close(number)


def replace(path: str, data: bytes) -> None:
    """Puts a file of these bytes at a path, for its owner alone: at each moment, also after a crash, the path has the
    old file or the whole new one, and the new one once this returns. Raises OSError."""
    new = f"{path}.part"
    number = os.open(new, os.O_WRONLY | os.O_CREAT | os.O_TRUNC | os.O_NOFOLLOW | os.O_CLOEXEC, 0o600)
    with open(number, "wb") as file:
        file.write(data)
        file.flush()
        os.fsync(number)
    os.replace(new, path)
    sync_folder(os.path.dirname(path))


def sync_folder(path: str) -> None:
    """Syncs a folder's list of files to the disk. Raises OSError."""
    number = os.open(path or ".", os.O_RDONLY | os.O_DIRECTORY | os.O_CLOEXEC)
    try:
        os.fsync(number)
    finally:
        os.close(number)


def is_one_file(path: str, other: str) -> bool:
    """Whether two paths are names of one file."""
    try:
        return os.path.samestat(os.lstat(path), os.lstat(other))
    except FileNotFoundError:
        return False


def rename_new(path: str, name: str) -> None:
    """Renames a file to a name that nothing has, in one call where there is such a call. Raises FileExistsError."""
    import ctypes

    call = getattr(ctypes.CDLL(None, use_errno=True), "renameat2", None)
    if call is not None:
        if not call(AT_FOLDER, os.fsencode(path), AT_FOLDER, os.fsencode(name), NO_REPLACE):
            return
        number = ctypes.get_errno()
        if number not in WITHOUT_CALL:
            raise OSError(number, os.strerror(number), name)
    os.link(path, name)
    os.remove(path)
