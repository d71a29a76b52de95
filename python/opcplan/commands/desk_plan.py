"""The plan of a desk as a file: a copy that the desk gives, which goes again."""

import contextlib
import io
import os
import time
from collections.abc import Iterator

from opcplan.desk import client
from opcplan.errors import Unreadable
from opcplan.plans import tempfiles
from opcplan.rules import statement_words, statements, stream


class CopyUnavailable(Unreadable):
    """Why a desk gives no copy for now."""


@contextlib.contextmanager
def copied(desk: client.Client) -> Iterator[str]:
    """The path of a copy of a desk's plan. Raises Unreadable, and CopyUnavailable of it where the desk
    may give one later."""
    with tempfiles.folder("desk-") as folder:
        path = os.path.join(folder, "plan.db")
        try:
            with open(path, "wb") as file:
                desk.download("/snapshot", file)
        except (client.DeskUnreachable, client.RequestRefused) as why:
            message = str(why) if str(why).startswith(desk.name) else f"{desk.name}: {why}"
            is_later = isinstance(why, client.DeskUnreachable) or why.status == 503
            raise (CopyUnavailable if is_later else Unreadable)(message) from None
        yield path


def numbered(text: bytes, first: int) -> bytes:
    """A stream in which each statement that lacks its job number has one, from a first one on, as a desk gives them."""
    source = stream.Source(io.BytesIO(text), "the stream")
    lines, number = text.splitlines(keepends=True), first
    for item in stream.items(source):
        words = item.text.decode("ascii", "replace").replace("\t", " ").split()
        if item.statement is None and statement_words.read([*words, "--job", "1"])[0] is not None:
            line = lines[item.line - 1]
            bare = line.rstrip(b"\r\n")
            lines[item.line - 1] = bare + b" --job %d" % number + line[len(bare):]
        elif item.statement is None or not statements.KINDS[item.statement.name].changes:
            continue
        number += 1  # a desk counts all that it puts into its log
    return b"".join(lines)


def answer(desk: client.Client, text: bytes, used: str) -> bytes:
    """What a desk answers to a stream, under a key. Raises Unreadable."""
    try:
        found: bytes = desk.statements(text, used, time.monotonic())
        return found
    except client.RequestRefused as why:
        raise Unreadable(f"{desk.name}: {why}") from None
    except client.DeskUnreachable as why:
        advice = "nothing was sent"
        if why.may_be_done:
            advice = f"it may be done all the same; `./plan send --desk {desk.name} --key {used} < STREAM` sends it "
            advice += "again, and nothing is done twice"
        raise Unreadable(f"{why}; {advice}") from None


def of_words(name: str) -> client.Client:
    """The desk that words name. Raises Unreadable."""
    try:
        return client.Client(name, client.token())
    except client.InvalidAddress as why:
        raise Unreadable(str(why)) from None
    except OSError as error:
        raise Unreadable(f"{error.filename}: the token can't be read: {error.strerror}") from None
