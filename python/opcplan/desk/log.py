"""The log of a desk: the order of all changes. A change is in the log before opcplan gets it.

There are two implementations: the journal of one machine (local_log.py), and a log in etcd that several desks share
(etcd_log.py). With both, a journal beside the plan has what was done here, and the replies."""

import abc
import asyncio
from collections.abc import Callable, Mapping, Sequence
from concurrent.futures import ThreadPoolExecutor
from typing import Any

from opcplan.errors import Error, LogUnwritable
from opcplan.plans.entry import Entry, Wanted
from opcplan.plans.journal import Journal, JournalReply

# the most changes that are appended together
MOST_TOGETHER = 64


class AppendUncertain(LogUnwritable):
    """Why it isn't known whether a batch is in the log. Sending it again under its keys settles that."""


class LogAdvanced(Error):
    """Other desks have appended entries before the batch. Nothing of the batch is in the log."""


class KeysInUse(Error):
    """Keys of a batch belong to entries already. `found` has by the place in the batch an Entry, or None if it is
    another statement's. Nothing of the batch is in the log."""

    def __init__(self, found: Mapping[int, Entry | None]) -> None:
        super().__init__()
        self.found = found


class Log(abc.ABC):
    """The log as a desk uses it. A thread of its own writes the journal; meanwhile reads return what is on the disk."""

    is_shared = False  # whether other desks append to it too
    begins = 0  # the journal has all entries after this one

    def __init__(self, journal: Journal) -> None:
        self.journal = journal
        self.writer = ThreadPoolExecutor(1, "journal")
        self.unwritten = ""  # why the journal can't be written for now

    # The order.

    @property
    @abc.abstractmethod
    def life(self) -> str:
        """The name of the log: as long as it stays, a position names the same state of the plan."""

    @property
    @abc.abstractmethod
    def given(self) -> int:
        """The last entry that the desk has sent to opcplan, or has to send."""

    @property
    @abc.abstractmethod
    def trouble(self) -> str:
        """Why the log accepts no change for now, or nothing."""

    @abc.abstractmethod
    def chain_at(self, position: int) -> str | None:
        """The digest of the log up to an answered entry, or None if it isn't known."""

    @abc.abstractmethod
    async def append(self, batch: Sequence[Wanted], replies: Sequence[JournalReply], until: float) -> list[Entry]:
        """Appends changes, and writes replies, until a time of the monotonic clock; the Entries of the changes. Raises
        LogUnwritable, LogAdvanced and KeysInUse."""

    @abc.abstractmethod
    async def others(self) -> list[Entry]:
        """The next Entries that other desks appended, none if there are none for now. Raises LogUnwritable."""

    @abc.abstractmethod
    async def ask_last(self, until: float) -> int:
        """The number of the last entry. Raises LogUnwritable."""

    @abc.abstractmethod
    def used(self, wanted: Sequence[Wanted]) -> dict[int, Entry | None]:
        """What has the keys of changes already, as in KeysInUse."""

    def start(self, on_news: Callable[[], None], on_stop: Callable[[str], None],
              answered: Callable[[], Mapping[int, str]]) -> None:
        """Begins to follow what other desks append. Calls `on_news` when they did, and `on_stop` with a sentence if a
        majority of the desks answered an entry differently. `answered` returns digests by the numbers of entries, those
        that the journal may lack."""

    def standing(self, position: int) -> dict[str, Any]:
        """The state of the log for /health, by name, for a plan at a position."""
        return {}

    def gauges(self, position: int) -> dict[str, float]:
        """The numbers of `standing` for /metrics, by name."""
        return {}

    @property
    def divided(self) -> str:
        """Why the desk is held, or nothing: desks answered an entry differently, and no majority did it alike."""
        return ""

    async def check_answers(self, until: float, is_confirmed: bool) -> None:
        """Compares what the desk answered with what others had published when `ask_last` was called. If the answers
        have to be confirmed, waits until a majority of the desks has published the same. Raises LogUnwritable."""

    async def close(self) -> None:
        """Writes all to the disk, and closes the journal."""
        self.writer.shutdown()
        self.journal.close()

    # The journal beside the plan.

    async def written(self, how: Callable[..., None], *words: object) -> None:
        """Has the writer do something. Raises LogUnwritable."""
        try:
            await asyncio.get_running_loop().run_in_executor(self.writer, how, *words)
        except LogUnwritable as why:
            self.unwritten = str(why)
            raise
        self.unwritten = ""

    async def keep(self, entries: Sequence[Entry], replies: Sequence[JournalReply]) -> None:
        """Writes numbered entries, and replies, into the journal. Raises LogUnwritable."""
        await self.written(self.journal.put, entries, replies)

    async def keep_replies(self, replies: Sequence[JournalReply]) -> None:
        """Writes the replies of entries into the journal. Raises LogUnwritable."""
        await self.written(self.journal.keep_replies, replies)

    def entries(self, since: int, most: int, upto: int) -> list[Entry]:
        """The answered Entries after a position and up to another one, at most `most`, in their order."""
        return self.journal.entries(since, most, upto)

    def unanswered(self) -> list[Entry]:
        """The Entries from the first one without a stored reply to the last one, in their order: a desk that starts
        sends them to opcplan again. Empty if the journal has gaps after the first, or ends before the last."""
        found = [one for one in self.journal.unanswered() if one.seq <= self.given]
        is_whole = found and [one.seq for one in found] == list(range(found[0].seq, self.given + 1))
        return found if is_whole else []

    def stream_of(self, who: str, key: str) -> str | None:
        """The digest of the stream that has a caller's key, or None if no known stream has it."""
        return self.journal.stream_of(who, key)

    def find(self, who: str, key: str) -> Entry | None:
        """The stored Entry of a caller's key, or None."""
        return self.journal.find(who, key)
