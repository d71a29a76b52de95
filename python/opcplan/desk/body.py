"""A caller's stream in progress, and the bytes of its answers."""

import asyncio
import hashlib
import json
import re
import time
from collections.abc import Iterator, Mapping, Sequence
from typing import NamedTuple, TYPE_CHECKING

from opcplan.desk import routes
from opcplan.desk.errors import StatementRejected
from opcplan.desk.planner import Submission
from opcplan.desk.requests import StreamItem
from opcplan.desk.turns import Work
from opcplan.plans import chain, entry

if TYPE_CHECKING:
    from opcplan.desk.core import Desk

# statements of one stream that are in the queue at once
WINDOW = 32
CHANGED = 412  # HTTP's status if the plan isn't in the state that If-Match names
REFUSED = 424  # HTTP's status if an earlier statement of an act was refused
KEY = re.compile(routes.KEY)
# how many bytes of an answer wait for the state after its last statement, and for how many seconds: callers who have
# several desks wait 30 seconds for the first byte
MOST_HELD, LONGEST_HELD = 1 << 20, 10.0


class SubmittedItem(NamedTuple):
    """A statement of a stream, and a future of its Submission."""

    asked: StreamItem
    answer: asyncio.Future[Submission]


class PlanState(NamedTuple):
    """The tag of a state of the plan, and the last entry that it has."""

    tag: str
    position: int


class AnsweredItem(NamedTuple):
    """A statement of a stream, its answered Submission, and the state of the plan after it."""

    asked: StreamItem
    ask: Submission
    state: PlanState


def key_of(heads: Mapping[str, str]) -> str | None:
    """The key of a stream in the headers of its request, or None. Raises StatementRejected."""
    key = heads.get("Idempotency-Key")
    if key is not None and not KEY.fullmatch(key):
        raise StatementRejected(400, "`Idempotency-Key` must have 1 to 200 printable characters, without blanks and #; "
                                "nothing was done")
    return key


def state_after(ask: Submission, before: PlanState) -> PlanState:
    """The state of the plan after an answered statement of a stream. `before` is the state after the statement in front
    of it, or, of the first one, that in which the stream came. A statement that opcplan didn't get leaves the state as
    it is, and a change that was done before has the state of then.

    So a stream whose first change needs the state after the last statement of the one before it is done if nobody else
    changed the plan in between, and only then."""
    return before if ask.tag is None else PlanState(ask.tag, ask.position)


class Body:
    """The statements of a stream. They go into the queue in their order, even after the caller has hung up."""

    def __init__(self, desk: "Desk", asked: Sequence[StreamItem], who: str, key: str | None,
                 condition: str | None) -> None:
        self.desk, self.asked, self.who, self.key, self.condition = desk, asked, who, key, condition
        self.at = entry.moment_now()
        self.last: Submission | None = None  # the change after which the next one comes, if there is a condition
        # of an act: no statement is done after one that was refused. It needs a condition
        self.ends_at_refusal = False
        self.before: Submission | None = None  # the statement in front of the next one
        # after the last answered statement; before the first one, that in which the stream came
        self.state = PlanState(desk.tag(), desk.position)
        self.asks: asyncio.Queue[SubmittedItem] = asyncio.Queue()
        self.room = asyncio.Semaphore(WINDOW)
        self.has_changes = any(one.changes for one in asked)
        self.is_left = False  # the caller doesn't read its answers any more
        self.is_broken = False  # a statement was rejected, so none after it is accepted
        self.digest: str | None = None  # of the stream that has the key
        self.is_claimed, self.is_put, self.left = False, False, 0  # `left`: the number of statements without an answer

    def take_at_once(self) -> bool:
        """Puts a single statement into the queue; whether the stream has no other one."""
        if len(self.asked) != 1:
            return False
        self.asks.put_nowait(SubmittedItem(self.asked[0], self.put(self.asked[0], 0)))
        self.is_put = True
        self.release()
        return True

    async def take(self) -> None:
        """Puts the statements into the queue, up to the first that is rejected: WINDOW of them at a time that the
        caller hasn't read, or one at a time once the caller is gone."""
        try:
            for place, one in enumerate(self.asked):
                if not self.is_left:
                    await self.room.acquire()
                is_question = self.has_changes and not one.changes and one.reply is None
                if is_question:
                    await self.desk.feed.wait_for_question(self.who)
                begun, future = time.monotonic(), self.put(one, place)
                self.asks.put_nowait(SubmittedItem(one, future))
                if self.is_broken:
                    return
                if self.is_left or is_question:
                    await asyncio.wait([future])
                if is_question:
                    self.desk.feed.note_question(self.who, begun)
        finally:
            self.is_put = True
            self.release()

    def put(self, one: StreamItem, place: int) -> asyncio.Future[Submission]:
        """Puts a statement into the queue; a future of its Submission."""
        try:
            if self.is_broken:
                raise StatementRejected(503, "an earlier statement of the stream was rejected, so this one wasn't done")
            ask = self.ask(one, place)
            ask.streams.append(self)
            future = ask.wait()
        except StatementRejected as why:
            self.is_broken = True
            future = asyncio.get_running_loop().create_future()
            future.set_exception(why)
        self.left += 1
        future.add_done_callback(self.settle)
        return future

    def settle(self, done: asyncio.Future[Submission]) -> None:
        """Notes that a statement is answered or rejected."""
        _ = done.cancelled() or done.exception()
        self.left -= 1
        self.release()

    def release(self) -> None:
        """Releases the key once nothing of the stream is in progress."""
        if self.key is not None and self.is_claimed and self.is_put and not self.left:
            self.is_claimed = False
            self.desk.release(self.who, self.key)

    def leave(self) -> None:
        """Notes that the caller reads no more answers."""
        self.is_left = True
        self.room.release()

    def ask(self, one: StreamItem, place: int) -> Submission:
        """The Submission of a statement. Raises StatementRejected."""
        if one.reply is not None:
            ask = Submission(one.name)
            ask.reply = one.reply
            return ask
        if not one.changes:
            return self.desk.ask_question(one.name, one.text, self.who, self.has_changes)
        ask = self.desk.ask_change(one.name, self.wanted(one, place), self.condition and (self.last or self.condition))
        if ask.is_change:  # one that was done before under its key needs no state
            self.last = ask
            ask.accepted = self.before if self.ends_at_refusal else None
        self.before = ask
        return ask

    def wanted(self, one: StreamItem, place: int) -> entry.Wanted:
        """The change as it goes to the log."""
        key = self.key if place == 0 or self.key is None else f"{self.key}#{place}"
        return entry.Wanted(self.who, key, one.words, one.data, one.job, self.at, self.digest)

    async def claim(self, work: Work) -> None:
        """Claims the key for this stream. Raises StatementRejected if it belongs to another one."""
        if self.key is None:
            return
        self.digest = await requests_digest(self.asked, work)
        changes = 0
        for place, one in enumerate(self.asked):
            if one.changes and one.reply is None:
                self.desk.known(self.wanted(one, place))
                changes += 1
            if work.is_over:
                await work.rest()
        if changes:
            self.desk.claim(self.who, self.key, self.digest)
            self.is_claimed = True

    def done(self, upto: int) -> list[AnsweredItem]:
        """The statements, from the first one on, that were done under the key and are answered, up to an entry. Raises
        StatementRejected if the key is that of others."""
        found: list[AnsweredItem] = []
        for place, one in enumerate(self.asked):
            ask = self.desk.known(self.wanted(one, place))
            if ask is None or ask.reply is None or ask.entry is None or ask.entry.seq > upto:
                break
            found.append(self.answered(one, ask))
        return found

    async def next(self) -> AnsweredItem:
        """Waits for the next answered statement. Raises StatementRejected and PlannerStopped."""
        one, answer = await self.asks.get()
        ask = await answer
        self.room.release()
        if ask.wrong is not None:
            raise StatementRejected(503, ask.wrong)
        return self.answered(one, ask)

    def answered(self, one: StreamItem, ask: Submission) -> AnsweredItem:
        """Notes that a statement is answered, after those in front of it."""
        self.state = state_after(ask, self.state)
        return AnsweredItem(one, ask, self.state)


async def requests_digest(found: Sequence[StreamItem], work: Work) -> str:
    """A digest of a stream, by which the desk sees another stream under the same key."""
    whole = hashlib.sha256()
    for one in found:
        data = b"" if one.data is None else one.data
        whole.update(f"{one.name} {one.words} {one.job} {one.reply} {len(data)}\n".encode() + data)
        if work.is_over:
            await work.rest()
    return whole.hexdigest()[:chain.DIGEST]


class HeldAnswer:
    """The answer to a stream as far as its headers wait for the state after its last statement. They don't wait for the
    end of an answer that is long, or takes long."""

    def __init__(self, begun: float) -> None:
        self.until, self.size = begun + LONGEST_HELD, 0
        self.pieces: list[bytes] = []

    def hold(self, data: bytes, now: float) -> bool:
        """Keeps the next bytes; whether they may wait. If not, all that is held has to be sent now."""
        self.pieces.append(data)
        self.size += len(data)
        return self.size <= MOST_HELD and now <= self.until

    def release(self) -> bytes:
        """All that is held, which is dropped here."""
        found, self.pieces = b"".join(self.pieces), []
        return found


def as_text(one: AnsweredItem) -> Iterator[bytes]:
    """The bytes of an answer as opcplan prints it."""
    yield from one.ask.pieces()
    yield one.ask.line


def as_json(one: AnsweredItem) -> Iterator[bytes]:
    """The bytes of an answer as a line of JSON."""
    ask, known = one.ask, one.ask.entry
    values = {"seq": known.seq, "statement": known.line, "job": known.job} if known else {
        "seq": None, "statement": one.asked.words, "job": None}
    yield json.dumps(values).removesuffix("}").encode() + b', "rows": ['
    between = b""
    for piece in ask.pieces():
        lines = piece.decode("ascii").splitlines()
        yield between + ", ".join(map(json.dumps, lines)).encode()
        between = b", "
    rest = {"reply": ask.reply, "at": known.at if known else entry.moment_now(), "key": known.key if known else None,
            **one.state._asdict()}
    yield b"], " + json.dumps(rest).removeprefix("{").encode() + b"\n"
