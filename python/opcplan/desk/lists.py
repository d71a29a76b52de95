"""The lists of `GET /rows`, as lines of JSON. Each is made once, and sent again while the plan doesn't change.

A process of its own turns a long list into JSON, and the desk sends it from a file, so that other callers don't
wait."""

import asyncio
import contextlib
import os
import sys
import tempfile
import weakref
from typing import IO, NamedTuple, TYPE_CHECKING

from opcplan.desk import rows
from opcplan.desk.errors import StatementRejected
from opcplan.plans.program import PYTHON

if TYPE_CHECKING:
    from opcplan.desk.core import Desk
    from opcplan.desk.planner import Submission

PROCESS = [sys.executable, "-E", "-S", "-B", "-m", "opcplan.desk.rows_process"]
# the most bytes of rows that this process turns into JSON: it takes a millisecond or two
SHORT = 1 << 16
# the most lists in the cache, and the most bytes of them
MOST, MOST_BYTES = 64, 200 << 20
# the longest time of a process, in seconds
LONGEST = 300


class ListContent(NamedTuple):
    """A list as lines of JSON, in memory or, if it is long, in a file; and the state of the plan that it shows."""

    tag: str
    position: int
    size: int
    data: bytes = b""
    file: IO[bytes] | None = None


class CachedList(NamedTuple):
    """A list that is made or being made, and the question by which opcplan prints it."""

    ask: "Submission"
    shown: asyncio.Task[ListContent]

    @property
    def size(self) -> int:
        """How many bytes it takes, in memory or on the disk."""
        return self.ask.row_bytes + (self.shown.result().size if self.shown.done() else 0)


class Lists:
    """The cache of a desk's lists."""

    def __init__(self, desk: "Desk") -> None:
        self.desk = desk
        self.asks: dict[bytes, Submission] = {}  # by statement: the question to opcplan
        self.made: dict[rows.Selection, CachedList] = {}
        self.callers: weakref.WeakValueDictionary[str, asyncio.Lock] = weakref.WeakValueDictionary()

    async def shown(self, who: str, selection: rows.Selection) -> ListContent:
        """A list for a caller; one list of a caller is made at a time. Raises StatementRejected and PlannerStopped."""
        lock = self.callers[who] = self.callers.get(who) or asyncio.Lock()
        async with lock:
            made = self.made.get(selection)
            if made is None:
                made = self.begin(selection, who)
            return await asyncio.shield(made.shown)

    def begin(self, selection: rows.Selection, who: str) -> CachedList:
        """Begins to make a list for a caller. Raises StatementRejected."""
        self.drop_oldest()
        ask = self.ask(selection.text, who)
        made = self.made[selection] = CachedList(ask, asyncio.create_task(shown_of(ask, selection)))
        made.shown.add_done_callback(lambda done: self.settle(selection, made))
        return made

    def ask(self, text: bytes, who: str) -> "Submission":
        """The Submission of a caller's statement that shows a list. Raises StatementRejected."""
        ask = self.asks.get(text)
        if ask is None:
            ask = self.asks[text] = self.desk.ask_question("list", text, who)
        return ask

    def settle(self, selection: rows.Selection, made: CachedList) -> None:
        """Drops a list that couldn't be made, so that the next request tries again."""
        if (made.shown.cancelled() or made.shown.exception()) and self.made.get(selection) is made:
            del self.made[selection]
            self.forget(made.ask)

    def drop_oldest(self) -> None:
        """Drops the oldest lists if there are too many."""
        size = sum(made.size for made in self.made.values())
        while self.made and (len(self.made) >= MOST or size > MOST_BYTES):
            oldest = self.made.pop(next(iter(self.made)))
            size -= oldest.size
            self.forget(oldest.ask)

    def forget(self, ask: "Submission") -> None:
        """Drops a question."""
        if ask.text is not None and self.asks.get(ask.text) is ask:
            del self.asks[ask.text]

    def changed(self) -> None:
        """Drops the lists from before a change. A question without an answer will have the change, and stays."""
        self.asks = {text: ask for text, ask in self.asks.items() if ask.reply is None}
        self.made = {selection: made for selection, made in self.made.items() if made.ask.reply is None}

    def clear(self) -> None:
        """Drops all."""
        self.asks, self.made = {}, {}


async def shown_of(ask: "Submission", selection: rows.Selection) -> ListContent:
    """The content of a list, once opcplan has answered. Raises StatementRejected and PlannerStopped."""
    await ask.wait()
    if ask.wrong is not None:
        raise StatementRejected(503, ask.wrong)
    tag = ask.tag or ""
    try:
        if ask.row_bytes <= SHORT:
            data = b"".join(map(selection.lines, ask.pieces()))
            return ListContent(tag, ask.position, len(data), data)
        file = tempfile.TemporaryFile(prefix="desk-")  # it is gone once nobody reads it any more
        await turned(ask.number(), file.fileno(), selection)
        return ListContent(tag, ask.position, os.fstat(file.fileno()).st_size, file=file)
    except rows.InvalidSelection as why:
        raise StatementRejected(503, str(why)) from None
    except OSError as error:
        raise StatementRejected(503, f"the rows of the list can't be stored: {error.strerror}; try again") from None


async def turned(lines: int, json: int, selection: rows.Selection) -> None:
    """Has a process turn the lines of one file into JSON in another one. Raises StatementRejected and OSError."""
    process = await asyncio.create_subprocess_exec(
        *PROCESS, *selection.words, cwd=PYTHON, stdin=lines, stdout=json, stderr=asyncio.subprocess.PIPE)
    try:
        _, said = await asyncio.wait_for(process.communicate(), LONGEST)
    except asyncio.TimeoutError:
        raise StatementRejected(503, "making the list took too long; try again") from None
    finally:
        if process.returncode is None:
            with contextlib.suppress(ProcessLookupError):
                process.kill()
    if process.returncode:
        message = said.decode("utf-8", "replace").strip().split("\n")[-1]
        raise StatementRejected(503, "the desk can't make the list: "
                                f"{message or f'its process ended with status {process.returncode}'}")
