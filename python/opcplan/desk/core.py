"""A desk: its callers' requests, and their answers."""

import asyncio
import contextlib
import time
from collections.abc import Callable, Sequence

from opcplan.desk import metrics, state
from opcplan.desk.agents import Agents
from opcplan.desk.errors import StatementRejected, used_otherwise
from opcplan.desk.events import Events
from opcplan.desk.feed import Feed, PATIENCE
from opcplan.desk.held_files import HeldFiles
from opcplan.desk.lists import Lists
from opcplan.desk.live_facts import Service
from opcplan.desk.log import Log
from opcplan.desk.planner import Planner, PlannerStopped, Submission
from opcplan.desk.reports import Reports
from opcplan.desk.turns import Turns, Work
from opcplan.errors import LogUnwritable
from opcplan.plans import journal
from opcplan.plans.entry import Entry, Wanted
from opcplan.plans.journal import JournalReply

# seconds until replies go into the journal if no further change takes them along
LATE = 0.5


class Desk:
    """The desk over HeldFiles, whose locks it has, and a log, of a plan with a name. First of all it sends the planner
    again what the journal has without a reply."""

    def __init__(self, program: str, files: HeldFiles, the_log: Log, why_not: Callable[[], str], limit: float,
                 name: str = "plan") -> None:
        self.log, self.files, self.name = the_log, files, name
        pending = the_log.unanswered()
        position = pending[0].seq - 1 if pending else the_log.given
        self.state: state.State[Submission] = state.State(the_log.life, position, the_log.chain_at(position),
                                                          [ask_of(one, one.line.split(" ")[0]) for one in pending])
        self.planner = Planner(program, files, self.state, self.on_answer, self.on_stop, why_not, limit)
        self.events, self.metrics = Events(self), metrics.Metrics()
        self.agents = Agents(the_log.journal.agents())
        self.reports, self.service = Reports(self.agents), Service()
        self.turns = Turns(lambda: self.is_busy)  # at the desk's own thread
        self.feed = Feed(self)
        self.lists = Lists(self)
        self.on_status: Callable[[int], None] = lambda serial: None  # gets occurrences that have another status
        self.writing: asyncio.Task[None] | None = None

    def start(self) -> None:
        """Starts the planner, the queues, and the writing of replies."""
        self.planner.start()
        self.feed.start()
        self.writing = asyncio.create_task(self.write_late())

    async def close(self) -> None:
        """Finishes what is in flight. Then the plan is one file, and the journal is complete."""
        await self.feed.close()
        await self.planner.close()
        if self.writing is not None:
            self.writing.cancel()
        with contextlib.suppress(LogUnwritable):
            await self.keep_replies()
        self.events.close()
        await self.log.close()

    @property
    def is_busy(self) -> bool:
        """Whether changes are in progress."""
        return bool(self.feed.queue or self.feed.batch or self.state.changes)

    # Requests.

    @property
    def position(self) -> int:
        """The last entry that the plan has."""
        return self.state.position

    def tag(self) -> str:
        """The tag of the plan's state."""
        return self.state.tag

    def after(self, last: int, most: int) -> list[Entry]:
        """The answered Entries after one, at most `most` of them."""
        due = self.state.due(last, most)
        if not isinstance(due, state.Read):
            return due
        found = self.log.entries(due.since, most, due.upto) or self.state.due(due.upto, most)
        assert not isinstance(found, state.Read)  # what comes after that is in memory
        return found

    def work(self, who: str, is_long: bool = False) -> Work:
        """Work for a caller on the desk's own thread."""
        return Work(self.turns, who, is_long)

    def ask_question(self, name: str, text: bytes, who: str, waits: bool = False) -> Submission:
        """The Submission of a caller's statement that changes nothing. If `waits`, it comes after the changes before
        it. Raises StatementRejected."""
        ask = Submission(name, text)
        ask.who = who
        self.feed.put(ask, not waits)
        return ask

    def ask_change(self, name: str, wanted: Wanted, condition: str | Submission | None = None) -> Submission:
        """The Submission of a change, perhaps the earlier one under its key. Raises StatementRejected."""
        if why := self.log.divided:
            raise StatementRejected(503, f"{why}; send the request again later")
        known = self.known(wanted)
        if known is not None:
            return known
        ask = Submission(name, None, wanted)
        ask.condition = condition
        self.feed.put(ask)
        if wanted.key is not None:
            self.state.wants(wanted.who, wanted.key, ask)
        return ask

    def known(self, wanted: Wanted) -> Submission | None:
        """The Submission that already has the key of a change, or None. Raises StatementRejected if that is another
        change."""
        if wanted.key is None:
            return None
        ask = self.state.known(wanted.who, wanted.key)
        if ask is None:
            old = self.log.find(wanted.who, wanted.key)
            if old is None or old.reply is None:  # the plan is older than its journal
                return None
            ask = Submission.of_answered(old, self.state.tag_after(old.seq))
        if ask.entry is not None:
            is_same = wanted.text(ask.entry.job) == ask.entry.text
        else:
            is_same = ask.wanted is not None and wanted.is_like(ask.wanted)
        if not is_same:
            raise used_otherwise(wanted.key)
        return ask

    def claim(self, who: str, key: str, stream: str) -> None:
        """Claims a caller's key for a stream with this digest, until `release`. Raises StatementRejected if the key
        belongs to another stream."""
        if not self.state.claim(who, key, stream, self.log.stream_of(who, key)):
            raise used_otherwise(key)

    def release(self, who: str, key: str) -> None:
        """Releases a caller's key, once its stream is over."""
        self.state.release(who, key)

    def ask_of(self, one: Entry, name: str | None) -> Submission:
        """The Submission of an Entry, which can be found by the entry's key."""
        ask = ask_of(one, name)
        if one.key is not None:
            self.state.wants(one.who, one.key, ask)
        return ask

    async def catch_up(self, is_confirmed: bool = False) -> int:
        """Waits until the plan has what the log has now, perhaps until a majority of the desks has published the same
        answers; the last entry. Raises StatementRejected."""
        until = time.monotonic() + PATIENCE
        try:
            last = await self.log.ask_last(until)
        except LogUnwritable as why:
            raise StatementRejected(503, f"the last entry of the log isn't known: {why}") from None
        while self.position < last:
            if self.planner.stopped or time.monotonic() > until:
                raise StatementRejected(503, f"this desk hasn't applied the log up to entry {last} yet: "
                                        f"{self.trouble or 'try again'}")
            await asyncio.sleep(LATE / 50)
        try:
            await self.log.check_answers(until, is_confirmed)
        except LogUnwritable as why:
            raise StatementRejected(503, str(why)) from None
        return last

    def forget(self, ask: Submission) -> None:
        """Drops a statement that was rejected."""
        if ask.wanted is not None and ask.wanted.key is not None:
            self.state.forget(ask.wanted.who, ask.wanted.key, ask)
        self.lists.forget(ask)

    # Answers.

    def on_answer(self, one: state.Answer[Submission]) -> None:
        """Passes the Answer of a statement on to its callers."""
        ask = one.item
        if ask.name is not None:
            self.metrics.count(ask, one.reply)
        if one.entry is not None:
            ask.entry = one.entry
            if one.reply.startswith("ok"):
                self.lists.changed()
                if found := journal.STATUS.fullmatch(one.reply):
                    self.on_status(int(found[1]))
            self.events.wake()
        if ask.is_again:  # the journal, or the log before it, has its key
            self.forget(ask)
        ask.tag, ask.position = one.tag, one.position
        if one.item.entry is not None and (why := self.log.divided):
            ask.fail(StatementRejected(503, f"{why}; the statement is in the log"))
        ask.answer(one.reply)

    def on_stop(self, why: str) -> None:
        """Rejects all that waits for the planner; what is in the log stays there."""
        self.feed.drop_queue(PlannerStopped(why))
        self.feed.drop_questions(PlannerStopped(why))
        for ask in (*self.feed.batch, *self.feed.asking):
            ask.fail(PlannerStopped(why))
        self.lists.clear()

    async def write_late(self) -> None:
        """Writes replies that no further change takes along, and checks that the files are in their places, also while
        no request comes."""
        while True:
            await asyncio.sleep(LATE)
            self.planner.has_moved()
            self.service.note(self.trouble, self.log.standing(self.position))
            if self.state.unkept():
                with contextlib.suppress(LogUnwritable):
                    await self.keep_replies()

    async def keep_replies(self) -> None:
        """Writes the replies that the journal lacks. Raises LogUnwritable."""
        entries = self.state.unkept()
        if entries:
            await self.log.keep_replies(self.replies_of(entries))
            self.state.keeps(entries)

    def replies_of(self, entries: Sequence[Entry]) -> list[JournalReply]:
        """The replies of answered Entries, as the journal stores them."""
        return [JournalReply(one.seq, one.reply or "", digest) for one,
                digest in zip(entries, self.state.digests(entries))]

    @property
    def trouble(self) -> str:
        """Why the desk answers nothing, or accepts no change, for now; empty if it does both."""
        return self.planner.trouble or self.log.trouble


def ask_of(one: Entry, name: str | None) -> Submission:
    """The Submission of an Entry."""
    ask = Submission(name, one.text)
    ask.entry = one
    return ask
