"""Acts that were begun: their statements are noted before the first one is sent, so that the same call goes on with
them if it was stopped.

- An act is noted by the plan and what was wanted, with its stream and the key under which a desk gets it. It is noted
  before anything of it is done, and dropped once all of it was answered.
- So whatever stops a call, also the machine: the same call finds what is left, and sends the same stream again, in
  which nothing is done twice.

The notes are files of the user, in the folder XDG_STATE_HOME (else ~/.local/state). What is a day old is dropped."""

import contextlib
import hashlib
import json
import os
import time
from typing import NamedTuple

from opcplan.errors import Unwritable
from opcplan.plans import atomic_files

FOLDER, LONGEST = "acts", 86_400


class Begun(NamedTuple):
    """An act that was begun: its stream, with job numbers over a file; for a desk the key, and the tag of the state in
    which its first statement is done."""

    stream: str
    key: str = ""
    tag: str = ""


def folder() -> str:
    """The folder of the notes."""
    base = os.environ.get("XDG_STATE_HOME", "")
    base = base if os.path.isabs(base) else os.path.expanduser("~/.local/state")
    return os.path.join(base, "opcplan", FOLDER)


def path_of(plan: str, wanted: str) -> str:
    """The file of an act of a plan, which a path or a desk names."""
    digest = hashlib.sha256(f"{plan}\0{wanted}".encode("utf-8", "surrogateescape")).hexdigest()
    return os.path.join(folder(), f"{digest[:32]}.json")


def find(plan: str, wanted: str) -> Begun | None:
    """The act that was begun and not dropped, or None."""
    drop_old()
    with contextlib.suppress(OSError, ValueError, TypeError, KeyError):
        path = path_of(plan, wanted)
        if os.stat(path).st_uid != os.geteuid():
            return None
        with open(path, encoding="utf-8") as file:
            found = json.load(file)
        return Begun(str(found["stream"]), str(found["key"]), str(found["tag"]))
    return None


def note(plan: str, wanted: str, begun: Begun) -> None:
    """Notes an act before it is begun. Raises Unwritable."""
    path = path_of(plan, wanted)
    try:
        os.makedirs(folder(), 0o700, exist_ok=True)
        atomic_files.replace(path, json.dumps(begun._asdict()).encode())
    except OSError as error:
        raise Unwritable(f"{folder()}: what is to be done can't be noted there: {error.strerror}; set XDG_STATE_HOME "
                         "to a folder that you may write to. Nothing was done") from None


def drop(plan: str, wanted: str) -> None:
    """Drops the note of an act that was answered."""
    with contextlib.suppress(OSError):
        os.remove(path_of(plan, wanted))


def drop_old() -> None:
    """Drops notes that are a day old."""
    with contextlib.suppress(OSError):
        for one in os.scandir(folder()):
            with contextlib.suppress(OSError):
                if abs(time.time() - one.stat(follow_symlinks=False).st_mtime) > LONGEST:
                    os.remove(one.path)
