"""How statements go through one queue into the log, and then to the planner, with what other desks appended."""

import asyncio
import collections
import contextlib
import time
from collections.abc import AsyncIterator, Mapping, Sequence
from typing import TYPE_CHECKING

from opcplan.desk import log
from opcplan.desk.errors import StatementRejected, used_otherwise
from opcplan.desk.planner import Submission
from opcplan.desk.shares import Shares
from opcplan.desk.turns import Turns
from opcplan.errors import LogUnwritable
from opcplan.plans.entry import Entry

if TYPE_CHECKING:
    from opcplan.desk.core import Desk

MOST_QUEUED = 5000
# the most bytes of changes that are appended together
BATCH_BYTES = 1 << 19
# seconds in which the log has to accept a change
PATIENCE = 10.0
# seconds until the log is tried again
REST = 0.1


class Feed:
    """The queues of a desk, and the two loops that empty them: one for changes and for questions that wait for changes,
    and one for other questions."""

    def __init__(self, desk: "Desk") -> None:
        self.desk, self.log = desk, desk.log
        self.queue: collections.deque[Submission] = collections.deque()
        self.batch: list[Submission] = []
        self.questions: collections.deque[Submission] = collections.deque()
        self.wake, self.question_wake, self.hold = asyncio.Event(), asyncio.Event(), asyncio.Lock()
        self.is_closing: bool = False
        self.asking: list[Submission] = []  # the question that opcplan is answering
        self.turns = Shares()  # of questions
        self.copies = Turns(self.is_busy)  # of the plan
        self.pumps: list[asyncio.Task[None]] = []

    def start(self) -> None:
        """Starts the loops."""
        self.log.start(self.wake.set, self.desk.planner.halt, self.desk.state.answered)
        self.pumps = [asyncio.create_task(one) for one in (self.pump(), self.pump_questions())]

    async def close(self) -> None:
        """Finishes what waits, or drops it if the planner is stopped."""
        self.is_closing = True
        self.wake.set()
        self.question_wake.set()
        while not all(pump.done() for pump in self.pumps):
            await asyncio.wait(self.pumps, timeout=REST)
            if self.desk.planner.stopped:
                for pump in self.pumps:
                    pump.cancel()  # its changes are in the log

    def put(self, ask: Submission, is_alone: bool = False) -> None:
        """Puts a statement into the queue of changes, or that of questions alone. Raises StatementRejected."""
        if self.is_closing:
            raise StatementRejected(503, "the desk is shutting down; send the request again later")
        if self.desk.planner.stopped:
            raise StatementRejected(503, f"the desk is stopped: {self.desk.planner.stopped}")
        if len(self.queue) + len(self.questions) >= MOST_QUEUED:
            raise StatementRejected(503, "too many statements are waiting; send the request again later")
        (self.questions if is_alone else self.queue).append(ask)
        (self.question_wake if is_alone else self.wake).set()

    # Statements go to the log, and then to the planner.

    async def pump(self) -> None:
        """Empties the queue of changes, until the desk closes."""
        while True:
            self.wake.clear()
            is_level = await self.take_others()
            if not is_level and self.log_is_late():
                self.drop_queue(StatementRejected(503, f"{self.desk.trouble}; nothing was done"))
            elif not is_level:
                await asyncio.sleep(REST)
            elif self.queue:
                self.batch = await self.next_batch()
                if await self.enter(self.batch):
                    await self.give(self.batch)
                self.batch = []
                continue
            if self.is_closing and not self.queue:
                return
            if is_level:
                await self.wake.wait()

    async def pump_questions(self) -> None:
        """Empties the queue of questions, until the desk closes."""
        while not self.is_closing or self.questions:
            if not self.questions:
                self.question_wake.clear()
                await self.question_wake.wait()
                continue
            place = self.turns.choose([ask.who for ask in self.questions], time.monotonic(), self.is_busy())
            if place is None:
                await asyncio.sleep(REST / 20)
                continue
            ask, begun = self.questions[place], time.monotonic()
            del self.questions[place]
            await self.answered(ask)
            self.note_question(ask.who, begun)

    def note_question(self, who: str, begun: float) -> None:
        """Notes that a caller's question, which opcplan got at a time, is answered."""
        now = time.monotonic()
        self.turns.over(who, now - begun, now)

    async def wait_for_question(self, who: str) -> None:
        """Waits until a caller may ask a question that comes after its changes."""
        while self.turns.choose([who], time.monotonic(), self.is_busy()) is None:
            await asyncio.sleep(REST / 20)

    def is_busy(self) -> bool:
        """Whether changes are in progress, and go first."""
        return self.desk.is_busy and not self.is_closing

    @contextlib.asynccontextmanager
    async def at_rest(self, who: str = "") -> AsyncIterator[None]:
        """A context for a caller in which no statement is in flight, or the planner is stopped. There is one at a
        time."""
        async with self.copies.turn(who), self.hold:
            await self.desk.planner.idle_or_stopped()
            yield

    async def answered(self, ask: Submission) -> None:
        """Sends the planner a question, and waits for the answer."""
        future, self.asking = ask.wait(), [ask]
        await self.give([ask])
        await asyncio.wait([future])
        if not future.cancelled():
            future.exception()
        self.asking = []

    async def give(self, asks: Sequence[Submission]) -> None:
        """Sends the planner statements."""
        await self.desk.planner.room.wait()
        async with self.hold:
            await self.desk.planner.give(asks)

    async def take_others(self) -> bool:
        """Sends the planner what other desks appended; whether it got all."""
        try:
            while entries := await self.log.others():
                if self.desk.planner.stopped:
                    return False
                replies = self.desk.state.unkept()
                await self.log.keep(entries, self.desk.replies_of(replies))
                self.desk.state.keeps(replies)
                await self.give([self.desk.ask_of(one, None) for one in entries])
        except LogUnwritable:
            return False
        return True

    def log_is_late(self) -> bool:
        """Whether the first statement in the queue has waited too long for the log."""
        return bool(self.queue) and self.queue[0].begun + PATIENCE < time.monotonic()

    async def next_batch(self) -> list[Submission]:
        """The next statements of the queue. One with a condition comes alone, and is rejected unless the plan is in its
        state."""
        batch: list[Submission] = []
        size = 0
        while self.queue and self.queue[0].condition is None and len(batch) < log.MOST_TOGETHER and size < BATCH_BYTES:
            batch.append(self.queue.popleft())
            size += batch[-1].size
        if batch:
            return batch
        ask, why = self.queue[0], None
        try:
            if await self.log.ask_last(time.monotonic() + PATIENCE) != self.log.given:
                return []  # what others appended comes first
            await self.desk.planner.idle_or_stopped()
            if ask.is_after_refusal and not self.is_done(ask):
                why = StatementRejected(424, "an earlier statement was refused, so this one wasn't done")
            elif not (self.desk.state.is_state(ask.asked_tag) or self.is_done(ask)):
                why = StatementRejected(412, "the plan is no longer in the state that If-Match names; nothing was done")
        except LogUnwritable as error:
            why = StatementRejected(503, f"{error}; nothing was done")
        if not self.queue or self.queue[0] is not ask:  # it was rejected meanwhile
            return []
        self.queue.popleft()
        if why is not None:
            self.drop_all([ask], why)
        return [] if why is not None else [ask]

    def is_done(self, ask: Submission) -> bool:
        """Whether a change is in the log under its key, and gets its old answer."""
        if ask.is_again or ask.wanted is None:
            return ask.is_again
        known = self.log.used([ask.wanted]).get(0)
        if known is None:
            return False
        ask.stands_for(known)
        return True

    async def enter(self, batch: Sequence[Submission]) -> bool:
        """Appends the changes of a batch to the log; whether it did. Otherwise their callers get the reason."""
        changes = [ask for ask in batch if ask.is_change]
        if not changes:
            return True
        replies = self.desk.state.unkept()
        try:
            entries = await self.log.append([ask.wanted for ask in changes if ask.wanted is not None],
                                            self.desk.replies_of(replies), time.monotonic() + PATIENCE)
        except (LogUnwritable, log.LogAdvanced, log.KeysInUse) as why:
            self.not_entered(batch, changes, why)
            return False
        self.desk.state.keeps(replies)
        for ask, one in zip(changes, entries):
            ask.text, ask.entry = one.text, one
        return True

    def not_entered(self, batch: Sequence[Submission], changes: Sequence[Submission], why: Exception) -> None:
        """Puts the statements of a batch back into the queue, or rejects them; none of them is in the log."""
        if isinstance(why, log.AppendUncertain):
            self.drop_all(batch, StatementRejected(503, str(why)))
            self.drop_queue(StatementRejected(503, "an earlier change has no answer yet; nothing was done"))
            return
        if isinstance(why, LogUnwritable):
            self.drop_all(batch, StatementRejected(503, f"{why}; nothing was done"))
            return
        found: Mapping[int, Entry | None] = why.found if isinstance(why, log.KeysInUse) else {}
        self.queue.extendleft(reversed(batch))
        for place, one in found.items():
            ask = changes[place]
            if ask not in self.queue:
                continue  # it was rejected with one of its stream
            if one is None:
                assert ask.wanted is not None
                self.queue.remove(ask)
                self.drop_all([ask], used_otherwise(ask.wanted.key))
            else:
                ask.stands_for(one)

    # Rejections.

    def drop_queue(self, error: Exception) -> None:
        """Rejects all that is in the queue."""
        queue, self.queue = list(self.queue), collections.deque()
        self.drop_all(queue, error)

    def drop_questions(self, error: Exception) -> None:
        """Rejects the questions that wait for no change."""
        while self.questions:
            self.drop(self.questions.popleft(), error)

    def drop_all(self, asks: Sequence[Submission], error: Exception) -> None:
        """Rejects statements that aren't in the log, and what their streams have after them: no statement of a stream
        is done before those in front of it."""
        while asks:
            for ask in asks:
                self.drop(ask, error)
            broken: list[Submission] = []
            left: collections.deque[Submission] = collections.deque()
            for ask in self.queue:
                (broken if any(one.is_broken for one in ask.streams) else left).append(ask)
            self.queue, asks = left, broken

    def drop(self, ask: Submission, error: Exception) -> None:
        """Rejects a statement."""
        for one in ask.streams:
            one.is_broken = True
        self.desk.forget(ask)
        ask.fail(error)
