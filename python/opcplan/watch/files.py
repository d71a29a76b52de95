"""A file of a watch that is replaced whole. Only one watch writes it, so what a watch leaves that is killed has one
name, and goes when the next one writes."""

import contextlib
import os

TAIL = ".new"


def put(path: str, data: bytes, mode: int, is_synced: bool) -> None:
    """Replaces a file in one step, with these rights. If it is synced, the disk has the file before it has its name,
    and the name before this returns. Raises OSError."""
    path = os.path.realpath(path)
    part = f"{path}{TAIL}"
    with contextlib.suppress(FileNotFoundError):
        os.remove(part)
    with open(os.open(part, os.O_WRONLY | os.O_CREAT | os.O_EXCL | os.O_CLOEXEC, 0o600), "wb") as file:
        file.write(data)
        file.flush()
        os.fchmod(file.fileno(), mode)
        if is_synced:
            os.fsync(file.fileno())
    os.replace(part, path)
    if is_synced:
        sync_folder(os.path.dirname(path))


def sync_folder(path: str) -> None:
    """Has the disk keep the names in a folder. Raises OSError."""
    number = os.open(path, os.O_RDONLY | os.O_DIRECTORY)
    try:
        os.fsync(number)
    finally:
        os.close(number)
