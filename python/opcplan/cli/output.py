"""What a subcommand prints, and the file that it writes: whole, or it is told why it isn't."""

from __future__ import annotations

import errno
import io
import os
import select
import stat
import sys

from opcplan.errors import Unwritable
from opcplan.plans import tempfiles

TYPE_CHECKING = False  # as in `typing`, which `./plan --help` needn't load
if TYPE_CHECKING:
    from typing import Any

    from opcplan.cli.words import Parser

# how a log of a database begins, and what its name ends with
LOGS = (b"\x37\x7f\x06\x82", b"\x37\x7f\x06\x83", b"\xd9\xd5\x05\xf9\x20\xa1\x63\xd7")
TAILS = ("-wal", "-journal", "-shm")


class Standard(io.FileIO):
    """Standard output. Where it takes no more, that is told once, and what comes later is dropped."""

    is_over = False

    def write(self, data: Any, /) -> int:
        """Writes all of some bytes, or drops them where nothing is taken any more. Raises Unwritable."""
        if self.is_over:
            return len(data)
        try:
            while (taken := super().write(data)) is None:
                select.select([], [self], [])
            return taken
        except BrokenPipeError:
            self.is_over = True
            raise
        except OSError as error:
            self.is_over = True
            why = "it is closed" if error.errno == errno.EBADF else f"it can't be written: {error.strerror}"
            raise Unwritable(f"standard output: {why}") from None


def prepare() -> None:
    """Makes standard output a Standard. Where one of the three is closed, no file that is opened takes its place: what
    is read or printed there fails, and what is told is dropped."""
    for number, way in enumerate((os.O_WRONLY, os.O_RDONLY, os.O_WRONLY)):
        try:
            os.fstat(number)
        except OSError:
            os.open(os.devnull, way)
    lines = os.isatty(1)
    sys.stdout = io.TextIOWrapper(
        io.BufferedWriter(Standard(1, "w", closefd=False)), encoding="utf-8", errors="replace", line_buffering=lines
    )
    if sys.stderr is None:
        sys.stderr = open(2, "w", encoding="utf-8", errors="backslashreplace", closefd=False)


def add_words(parser: Parser, what: str) -> None:
    """The options of a subcommand that writes a file, as `words.out` and `words.force`."""
    from opcplan.cli import words

    parser.add_argument("-o", dest="out", metavar="FILE", type=words.file,
                        help=f"where to write {what} (else standard output)")
    parser.add_argument("--force", action="store_true", help="overwrite a file that exists, unless it is a database")


def objection(path: str, is_forced: bool, *plans: str) -> str | None:
    """Why no file may be written where a path says, or None. No database and no log of one is ever written over, also
    none of these plans; another file only by force."""
    real = os.path.realpath(path)
    if real in {os.path.realpath(plan) + tail for plan in plans for tail in ("", *TAILS)} or is_of_database(real):
        return f"{path}: this is, or may be, a database or its log, which is never overwritten; name another file"
    if os.path.isdir(real):
        return f"{path}: it is a folder"
    if os.path.isfile(real) and not is_forced:
        return f"{path}: the file exists already; --force overwrites it"
    return None


def is_of_database(path: str) -> bool:
    """Whether a path is that of a database, or of a log as it stands or would stand beside one."""
    from opcplan.plans import plan_file

    if begins_with(path, plan_file.BEGIN, *LOGS):
        return True
    return any(path.endswith(tail) and os.path.isfile(path.removesuffix(tail)) for tail in TAILS)


def begins_with(path: str, *signs: bytes) -> bool:
    """Whether a file begins with one of some signs. What can't be looked at may."""
    if not os.path.isfile(path):
        return False
    try:
        with open(path, "rb") as file:
            return file.read(max(map(len, signs))).startswith(signs)
    except OSError:
        return True


def write(path: str, data: bytes, is_forced: bool, *plans: str) -> None:
    """Writes a file whole or not at all, where there is no objection; what is no file, as a pipe, is written to. Raises
    Unwritable."""
    if why := objection(path, is_forced, *plans):
        raise Unwritable(why)
    try:
        if os.path.exists(path) and not os.path.isfile(path):
            with open(path, "wb") as target:
                target.write(data)
        else:
            put(os.path.realpath(path), data, is_forced)
    except FileExistsError:
        raise Unwritable(f"{path}: somebody made this file meanwhile; --force overwrites it") from None
    except OSError as error:
        raise Unwritable(f"{path}: it can't be written: {error.strerror}") from None


def put(path: str, data: bytes, is_forced: bool) -> None:
    """Writes a file beside its place, and puts it there once the disk has it."""
    mode = stat.S_IMODE(os.stat(path).st_mode) if os.path.exists(path) else 0o666 & ~umask()
    with tempfiles.beside(path) as part:
        with open(os.open(part, os.O_WRONLY | os.O_CREAT | os.O_EXCL, 0o600), "wb") as target:
            target.write(data)
            target.flush()
            os.fchmod(target.fileno(), mode)
            os.fsync(target.fileno())
        if is_forced:
            os.replace(part, path)
        else:
            put_anew(part, path)
    sync_folder(path)


def sync_folder(path: str) -> None:
    """Has the disk keep what names stand beside a path."""
    number = os.open(os.path.dirname(path), os.O_RDONLY)
    try:
        os.fsync(number)
    finally:
        os.close(number)


def put_anew(part: str, path: str) -> None:
    """Gives a file its name, where nothing has it. Raises FileExistsError."""
    try:
        os.link(part, path)
    except FileExistsError:
        raise
    except OSError:  # the file system has one name for a file
        if os.path.lexists(path):
            raise FileExistsError from None
        os.replace(part, path)


def umask() -> int:
    """The bits that a new file doesn't get."""
    mask = os.umask(0)
    os.umask(mask)
    return mask
