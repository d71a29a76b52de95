"""The items of a caller's job stream, with what the desk needs to send each."""

import dataclasses
from collections.abc import Iterator

from opcplan.errors import Error, Unreadable
from opcplan.plans import entry
from opcplan.rules import statement_words, statements, stream

MOST_STATEMENTS = 100_000
# the option of a change that has its number, and what a line gets whose number the desk gives
JOB = b"--job"
NO_JOB = b" --job %d" % entry.FIRST_JOB


class BadStream(Error):
    """Why a stream is refused. Nothing of it is done."""


@dataclasses.dataclass(frozen=True)
class StreamItem:
    """An item of a stream."""

    name: str  # the statement's name, or `none`
    words: str  # the words of its line, without a job number if the desk gives one
    data: bytes | None
    job: int | None
    changes: bool
    reply: str | None = None  # if it is known without the planner
    text: bytes = b""  # what opcplan gets of an item that changes nothing

    @property
    def role(self) -> statements.Role:
        """The role that it needs."""
        return statements.KINDS[self.name].role if self.changes else statements.Role.READ


def of_stream(body: bytes) -> list[StreamItem]:
    """The items of a stream, in their order. Raises BadStream."""
    return [one for one in steps(body) if one is not None]


def steps(body: bytes) -> Iterator[StreamItem | None]:
    """The items of a stream, in their order; and None after each piece of it that has none, so that others may have a
    turn meanwhile. Raises BadStream."""
    count = 0
    try:
        for item in stream.steps(body, "the stream", read_line):
            if item is None:
                yield None
                continue
            if item.has_data and item.data is None:
                raise BadStream(f"the data of line {item.line} have no end, so the stream isn't complete")
            yield of_item(item)
            count += 1
            if count > MOST_STATEMENTS:
                raise BadStream(f"the stream has more than {MOST_STATEMENTS:,} statements; send it in parts")
    except Unreadable as why:
        raise BadStream(str(why)) from None


def read_line(line: bytes, length: int) -> tuple[statement_words.Statement | None, str]:
    """The statement of a line and nothing, or None and why the line is none. A change that has no job number gets
    NO_JOB."""
    if JOB not in line and statements.KINDS[stream.first_word(line).decode("ascii")].changes:
        whole = line + NO_JOB
        return stream.read_line(whole, length + len(NO_JOB))
    return stream.read_line(line, length)


def of_item(item: stream.Item) -> StreamItem:
    """The StreamItem of an item. Raises BadStream."""
    statement = item.statement
    lacks_job = JOB not in item.text
    if statement is None:
        return StreamItem("none", item.shown(), None, None, False, "refused 10")
    if item.has_data and not item.is_whole:
        return StreamItem(statement.name, item.shown(), None, None, False, "refused 11 0")
    changes = statements.KINDS[statement.name].changes
    line = " ".join(statement.words[:-2] if lacks_job and changes else statement.words)
    if not changes:
        return StreamItem(statement.name, line, None, None, False, None, line.encode("ascii") + b"\n")
    job = None if lacks_job else statement.job
    if job is not None and entry.FIRST_JOB <= job <= entry.LAST_JOB:
        raise BadStream(f"line {item.line} has --job {job}, but only the desk gives the numbers {entry.FIRST_JOB} to "
                        f"{entry.LAST_JOB}; leave --job out, or use another number")
    return StreamItem(statement.name, line, item.data if item.has_data else None, job, True)
