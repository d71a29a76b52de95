"""The file of a job stream, or standard input."""

import contextlib
import io
from collections.abc import Iterator

from opcplan.errors import Unreadable, UsageError
from opcplan.plans import plan_file
from opcplan.rules.stream import OF_STREAM, Bounds, Source


@contextlib.contextmanager
def opened(path: str, bounds: Bounds = OF_STREAM) -> Iterator[Source]:
    """A Source of a file, or of standard input where the path is `-`. Raises Unreadable, and UsageError where a
    database is given for a job stream."""
    try:
        file: io.BufferedReader = io.BufferedReader(io.FileIO(0, closefd=False)) if path == "-" else open(path, "rb")
    except OSError as error:
        raise Unreadable(f"{path}: it can't be read: {error.strerror}") from None
    named = "standard input" if path == "-" else path
    with file:
        if bounds == OF_STREAM and is_database(file):
            raise UsageError(f"{named} is a database, and no job stream: give the stream, and PLAN.db where --help has "
                             "it")
        yield Source(file, named, bounds)


def is_database(file: io.BufferedReader) -> bool:
    """Whether a file that is open begins as a database does. What can't be read is told once it is asked for."""
    try:
        return file.peek(len(plan_file.BEGIN)).startswith(plan_file.BEGIN)
    except OSError:
        return False
