"""What people acknowledged, in a folder beside the state of a watch: a file for each call, with its id as the name. The
command that acknowledges makes it, and the watch takes it with its next look."""

import contextlib
import os
import re
import stat

FOLDER = ".acknowledged"
ID = re.compile("[0-9a-f]{12}-[0-9]{1,15}")


def folder_of(state: str) -> str:
    """The folder beside the file of a state."""
    return f"{os.path.realpath(state)}{FOLDER}"


def prepare(state: str) -> None:
    """Makes the folder, for the user of the watch alone. Raises OSError."""
    os.makedirs(folder_of(state), mode=0o700, exist_ok=True)
    if not stat.S_ISDIR(os.lstat(folder_of(state)).st_mode):
        raise NotADirectoryError(20, "it isn't a folder", folder_of(state))


def noted(state: str) -> list[str]:
    """The ids of calls that were acknowledged, and aren't taken yet."""
    with contextlib.suppress(OSError):
        return sorted(name for name in os.listdir(folder_of(state)) if ID.fullmatch(name))
    return []


def drop(state: str, call: str) -> None:
    """Notes that an acknowledgement is taken."""
    with contextlib.suppress(OSError):
        os.remove(os.path.join(folder_of(state), call))


def put(state: str, call: str) -> None:
    """Acknowledges a call. Raises OSError; FileNotFoundError if no watch has used this state."""
    path = os.path.join(folder_of(state), call)
    os.close(os.open(path, os.O_WRONLY | os.O_CREAT | os.O_NOFOLLOW | os.O_CLOEXEC, 0o600))
