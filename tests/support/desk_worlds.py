"""Small worlds around the state of a desk: callers, a reader, a subscriber, the disk and opcplan. Each step that may
come next is a state of its own; what the state promises is asked there of what the disk and the plan really have."""

import dataclasses
import random
from collections import deque
from typing import NamedTuple

from support.copies import shallow, with_containers
from support.exploration import path_to

from opcplan.desk import state
from opcplan.plans import chain
from opcplan.plans.entry import Entry, number_of

LIFE, START = "life", chain.chain_of("life", 0)
AT = "2024-01-01T00:00:00.000Z"


class InvariantViolated(Exception):
    """What a world shows that must not be."""


class Ask(NamedTuple):
    """A statement of a caller, at a place of its stream, or a list."""

    caller: int
    place: int
    entry: Entry | None = None
    is_again: bool = False


class Stream(NamedTuple):
    """What a caller sends under a key."""

    key: str
    texts: tuple

    @property
    def digest(self):
        return " ".join(self.texts)

    def key_at(self, place):
        return f"{self.key}#{place}" if place else self.key


class Kind(NamedTuple):
    """A small world: what its callers send one after another, who else is there, and how often what goes wrong."""

    streams: tuple
    readers: int = 0
    subscribers: int = 0
    looks: int = 0
    planner_ends: int = 0
    planner_stops: int = 0
    desk_ends: int = 0
    disk_fails: int = 0
    answers_lost: int = 0
    copies: int = 0
    most_recent: int = state.MOST_RECENT  # answered entries in memory


class Caller(NamedTuple):
    """How far a caller is: with which stream, what it was answered by place, and whether a request is under way."""

    turn: int = 0
    is_waiting: bool = False
    got: tuple = ()


READER, QUESTION = 9, "?"
MOST_STEPS = 5000  # of a walk
PLAIN = (int, str, bool, type(None), tuple)  # values that stay as they are


@dataclasses.dataclass
class World:
    """One state of all that there is. What is on the disk: `journal`, entries with their replies or none, and `plan`,
    what opcplan did: (seq, text, reply)."""

    kind: Kind
    core: state.State | None
    left: Kind  # how much may still go wrong
    journal: tuple = ()
    plan: tuple = ()
    queue: tuple = ()  # changes that wait for the writer
    writing: tuple | None = None  # changes, replies, whether the disk has them
    asked: tuple = ()  # on the way to opcplan
    replies: tuple = ()  # on the way from opcplan
    is_stopped: bool = False
    callers: tuple = ()
    acknowledged: tuple = ()
    cursor: int | None = None
    heard: tuple = ()
    seen: int = 0  # the greatest entry whose reply a desk saw
    look: tuple | None = None
    listed: bool = False
    copy: tuple | None = None  # what the desk said before a copy, and what the copied file has, once it is made
    copied: tuple | None = None  # a copy that is exact: its position, and what it has

    def next(self):
        """A copy that is to change."""
        found = shallow(self)
        if self.core is not None:
            found.core = with_containers(self.core)
        return found

    def frozen(self):
        """What tells this state from others."""
        core = self.core and tuple([
            value if type(value) in PLAIN else tuple(value.items()) if isinstance(value, dict)
            else tuple(value) if isinstance(value, (list, deque)) else value for value in vars(self.core).values()])
        return (core, self.left, self.journal, self.plan, self.queue, self.writing, self.asked, self.replies,
                self.is_stopped, self.callers, self.acknowledged, self.cursor, self.heard, self.seen, self.look,
                self.listed, self.copy, self.copied)

    def spent(self, name):
        """Notes that something went wrong once more."""
        self.left = self.left._replace(**{name: getattr(self.left, name) - 1})

    # What the plan and the disk have.

    def content(self):
        """The changes that the plan shows."""
        return tuple(seq for seq, _, reply in self.plan if reply.startswith("ok"))

    def reply_of(self, entry):
        """What opcplan answers to an entry: a job that it keeps as before, a text that was done before not again."""
        for seq, _, reply in self.plan:
            if seq == entry.seq:
                return reply
        texts = [text.split()[0] for _, text, reply in self.plan if reply.startswith("ok")]
        return "refused 29" if entry.text.split()[0] in texts else f"ok serial {len(texts) + 1} status S"

    def find(self, who, key):
        """The entry of a key in the journal, or None."""
        return next((one for one in self.journal if (one.who, one.key) == (who, key)), None)

    def stored(self, who, key):
        """The stream for which the journal has a key, or None."""
        return next((one.stream for one in self.journal if one.who == who and one.key.partition("#")[0] == key), None)

    # The desk.

    def begin(self, kind_of_state):
        """A desk begins over what the journal has."""
        pending = [one for one in self.journal if one.reply is None]
        position = pending[0].seq - 1 if pending else len(self.journal)
        digest = START
        for one in self.journal[:position]:
            digest = chain.chained(digest, one)
        pending = [Ask(-1, 0, dataclasses.replace(one, reply=None)) for one in self.journal[position:]]
        self.core = kind_of_state(LIFE, position, digest, pending)
        self.core.most_recent = self.kind.most_recent
        self.queue, self.writing, self.asked, self.replies, self.is_stopped = (), None, (), (), False

    def do(self, commands):
        """What is around the state does what it says."""
        for one in commands:
            if isinstance(one, state.Send):
                self.asked += (one.item,)
            elif isinstance(one, state.Answer):
                self.answer(one)
            elif isinstance(one, state.Drop):
                self.drop(one.item)

    def answer(self, one):
        if one.item.caller == READER:
            wanted = tuple(seq for seq, _, reply in self.plan[: one.position] if reply.startswith("ok"))
            if tuple(map(int, one.reply.split()[1:])) != wanted:
                raise InvariantViolated(f"a list of {one.reply} is told as that of entry {one.position}")
            return
        entry = one.entry or one.item.entry
        for number, caller in enumerate(self.callers):
            stream = self.stream_of(number)
            if caller.is_waiting and stream is not None and entry.key in map(stream.key_at, range(len(stream.texts))):
                self.get(number, entry.key, one.reply)

    def drop(self, item):
        if item.entry is not None:
            self.fail([item.entry.key])

    def drop_queue(self):
        """Opcplan is stopped: what the writer doesn't have goes."""
        for ask, key, *_ in self.queue:
            self.core.forget("me", key, ask)
        self.fail([key for _, key, *_ in (*self.queue, *(self.writing[0] if self.writing else ()))])
        self.queue = ()

    def fail(self, keys):
        """Requests that wait for these keys are sent away with status 503."""
        for number, caller in enumerate(self.callers):
            stream = self.stream_of(number)
            if caller.is_waiting and any(stream.key_at(place) in keys for place in range(len(stream.texts))):
                self.set(number, caller._replace(is_waiting=False, got=()))
                self.core.release("me", stream.key)

    def stream_of(self, number):
        streams, turn = self.kind.streams[number], self.callers[number].turn
        return streams[turn] if turn < len(streams) else None

    def set(self, number, caller):
        self.callers = self.callers[:number] + (caller,) + self.callers[number + 1 :]

    def get(self, number, key, reply):
        """A caller's request gets the reply of one of its statements; with the last one the caller has its answer."""
        caller, stream = self.callers[number], self.stream_of(number)
        got = tuple(sorted({*caller.got, (key, reply)}))
        self.set(number, caller._replace(got=got))
        if len(got) == len(stream.texts):
            self.acknowledged = tuple(sorted({*self.acknowledged, *got}))
            self.core.release("me", stream.key)
            self.set(number, Caller(caller.turn + 1))

    def send(self, number):
        """A caller sends its stream, perhaps again."""
        caller, stream = self.callers[number], self.stream_of(number)
        if not self.core.claim("me", stream.key, stream.digest, self.stored("me", stream.key)):
            self.set(number, Caller(caller.turn + 1))  # 409
            return
        self.set(number, caller._replace(is_waiting=True))
        for place, text in enumerate(stream.texts):
            self.put(number, place, stream, text)

    def put(self, number, place, stream, text):
        """A statement of a stream goes to the writer, or is found under its key."""
        key = stream.key_at(place)
        if text == QUESTION:
            self.get(number, key, QUESTION)
        elif (known := self.core.known("me", key)) is not None:
            waits = [one for one, *_ in self.queue + (self.writing[0] if self.writing else ())]
            answered = {one.seq: one.reply for one in self.core.recent}
            if known.entry is not None and known.entry.seq in answered:
                self.get(number, key, answered[known.entry.seq])
            elif known not in (*waits, *self.core.line, *self.core.flight):
                raise InvariantViolated(f"{key} is waited for, and nobody has it")
        elif (one := self.find("me", key)) is None:
            ask = Ask(number, place)
            self.core.wants("me", key, ask)
            self.queue += ((ask, key, text, stream.digest),)
        elif one.reply is None:
            raise InvariantViolated(f"{key} is in the journal without a reply, and not in line")
        else:
            self.get(number, key, one.reply)


def steps(world, kind_of_state):
    """Each state that may come next, with what happens."""
    if world.core is None:
        found = world.next()
        found.begin(kind_of_state)
        yield "the desk begins", found
        return
    yield from steps_of_people(world)
    yield from steps_of_the_disk(world)
    yield from steps_of_the_planner(world)
    if world.left.desk_ends:
        found = world.next()
        found.spent("desk_ends")
        found.core, found.queue, found.writing, found.asked, found.replies = None, (), None, (), ()
        found.cursor = found.copy = None
        for number, caller in enumerate(found.callers):
            found.set(number, caller._replace(is_waiting=False, got=()))
        yield "the desk is killed", found


def steps_of_people(world):
    for number, caller in enumerate(world.callers):
        if not caller.is_waiting and world.stream_of(number) is not None and not world.is_stopped:
            found = world.next()
            found.send(number)
            yield f"caller {number} sends", found
        if caller.turn and world.left.answers_lost and not caller.is_waiting:
            found = world.next()
            found.spent("answers_lost")
            found.set(number, Caller(caller.turn - 1))
            yield f"caller {number} lost its answer", found
    if world.left.readers and not world.is_stopped:
        found = world.next()
        found.spent("readers")
        found.do(found.core.asked(Ask(READER, found.left.readers)))
        yield "a list is asked", found
    if world.kind.copies:
        yield from steps_of_a_copy(world)
    if world.kind.subscribers:
        yield from steps_of_the_subscriber(world)
    if world.left.looks and (world.core.is_idle or world.is_stopped):
        found = world.next()
        found.spent("looks")
        found.look = found.core.tag, found.content()
        yield "the plan is looked at", found


def steps_of_a_copy(world):
    """A copy begins, the file is copied, and the copy counts if the desk says the same before and after."""
    found = world.next()
    if world.copy is None and world.left.copies:
        found.spent("copies")
        found.copy = world.core.rest(), None
        yield "a copy begins", found
    elif world.copy is not None and world.copy[1] is None:
        found.copy = world.copy[0], tuple(seq for seq, *_ in world.plan)
        yield "the file is copied", found
    elif world.copy is not None:
        rest, content = world.core.copied(world.copy[0]), world.copy[1]
        found.copy = None
        if rest.is_exact:
            found.copied = rest.position, content
        yield "the copy ends", found


def steps_of_the_subscriber(world):
    if world.cursor is None:
        found = world.next()
        found.cursor = found.heard[-1] if found.heard else 0
        yield "the subscriber comes", found
        return
    due = world.core.due(world.cursor, 2)
    if due:
        found = world.next()
        if isinstance(due, state.Read):
            seen = [one.seq for one in world.journal if due.since < one.seq <= due.upto and one.reply is not None]
            found.cursor = due.upto
        else:
            seen = [one.seq for one in due]
            found.cursor = seen[-1]
        found.heard += tuple(seen)
        yield "the subscriber hears", found


def steps_of_the_disk(world):
    core = world.core
    if world.writing is None and (world.queue or core.unkept()):
        found = world.next()
        found.writing = world.queue, tuple(found.core.unkept()), False
        found.queue = ()
        yield "the writer begins", found
    elif world.writing is not None and not world.writing[2]:
        batch, replies, _ = world.writing
        found = world.next()
        entries = tuple(entry_of(one, core.durable + place) for place, one in enumerate(batch, 1))
        kept = {one.seq: one for one in replies}
        found.journal = tuple(kept.get(one.seq, one) for one in world.journal) + entries
        found.writing = batch, replies, True
        yield "the disk has it", found
        if world.left.disk_fails:
            found = world.next()
            found.spent("disk_fails")
            found.writing = None
            for ask, key, *_ in batch:
                found.core.forget("me", key, ask)
            found.fail([key for _, key, *_ in batch])
            yield "the disk is full", found
    elif world.writing is not None:
        batch, replies, _ = world.writing
        found = world.next()
        found.writing = None
        items = []
        for place, one in enumerate(batch, 1):
            item = one[0]._replace(entry=entry_of(one, core.durable + place))
            found.core.wants("me", one[1], item)
            items.append(item)
        found.core.keeps(replies)
        found.do(found.core.appended(items))
        yield "the writer tells", found


def entry_of(one, seq):
    """The entry that a change becomes."""
    _, key, text, digest = one
    return Entry(seq, AT, "me", key, number_of(seq), text.encode(), None, digest)


def steps_of_the_planner(world):
    if not world.core.is_open:
        found = world.next()
        found.do(found.core.opened())
        found.is_stopped = False
        yield "opcplan opens the plan", found
        if world.left.planner_stops and not world.is_stopped:
            found = world.next()
            found.spent("planner_stops")
            found.is_stopped = True
            found.do(found.core.stopped())
            found.drop_queue()
            yield "opcplan can't be started", found
        return
    if world.asked:
        found = world.next()
        item, found.asked = world.asked[0], world.asked[1:]
        if item.entry is None:
            reply = " ".join(["ok", *map(str, world.content())])
        else:
            reply = world.reply_of(item.entry)
            if item.entry.seq not in [seq for seq, *_ in world.plan]:
                found.plan += ((item.entry.seq, item.entry.text.decode(), reply),)
        found.replies += (reply,)
        yield "opcplan answers", found
    if world.replies:
        found = world.next()
        first = world.core.flight[0]
        found.replies = world.replies[1:]
        if first.entry is not None:
            found.seen = max(found.seen, first.entry.seq)
        found.do(found.core.replied(world.replies[0]))
        yield "the desk hears it", found
    if world.left.planner_ends:
        found = world.next()
        found.spent("planner_ends")
        found.asked = found.replies = ()
        found.core.ended()
        yield "opcplan is killed", found


def check(world):
    """Asks all that has to hold of a state. Raises InvariantViolated."""
    core = world.core
    check_disk(world)
    if list(world.heard) != list(range(1, len(world.heard) + 1)):
        raise InvariantViolated(f"the subscriber hears of {world.heard}")
    if core is None:
        return
    if why := core.broken():
        raise InvariantViolated(why)
    done = {seq for seq, *_ in world.plan}
    if not set(range(1, core.position + 1)) <= done or core.position > world.seen:
        raise InvariantViolated(f"position {core.position} of a plan that has {sorted(done)}, and answered up to "
                                f"{world.seen}")
    if core.durable > len(world.journal):
        raise InvariantViolated(f"entry {core.durable} counts as durable")
    if world.cursor is not None and list(range(1, world.cursor + 1)) != list(world.heard):
        raise InvariantViolated(f"the subscriber is at {world.cursor} and heard {world.heard}")
    if world.cursor is not None and not core.due(world.cursor, 2) and world.cursor < core.position:
        if world.writing is None and not core.unkept():
            raise InvariantViolated(f"entry {core.position} is never told to one who has {world.cursor}")
    if world.copied is not None and world.copied[1] != tuple(range(1, world.copied[0] + 1)):
        raise InvariantViolated(f"a copy says entry {world.copied[0]}, and has {world.copied[1]}")
    if world.look is not None and core.is_idle and core.is_state(world.look[0]) and world.look[1] != world.content():
        raise InvariantViolated(f"{world.look[0]} named {world.look[1]}, and names {world.content()}")


def check_disk(world):
    """What is acknowledged is durable, as it was answered, and a key has one stream."""
    by_key, replies = {}, {seq: reply for seq, _, reply in world.plan}
    for one in world.journal:
        if one.reply is not None and replies.get(one.seq) != one.reply:
            raise InvariantViolated(f"entry {one.seq} is kept with {one.reply}, and the plan has "
                                    f"{replies.get(one.seq)}")
        key, stream = one.key.partition("#")[0], one.stream
        if by_key.setdefault(key, stream) != stream:
            raise InvariantViolated(f"{key} stands for {stream} and for {by_key[key]}")
    for key, reply in world.acknowledged:
        one = world.find("me", key)
        if reply != QUESTION and (one is None or replies.get(one.seq) != reply):
            raise InvariantViolated(f"{key} was answered {reply}, and isn't so")
    if [one.seq for one in world.journal] != list(range(1, len(world.journal) + 1)):
        raise InvariantViolated("the journal has gaps")


def explored(kind, kind_of_state=state.State):
    """How many states a world has. Raises InvariantViolated, with how it comes to that."""
    first = World(kind, None, kind, callers=(Caller(),) * len(kind.streams))
    begin = hash(first.frozen())
    seen, waiting = {begin: (None, "")}, deque([(begin, first)])
    while waiting:
        number, world = waiting.popleft()
        try:
            check(world)
            for label, found in steps(world, kind_of_state):
                if (other := hash(found.frozen())) not in seen:
                    seen[other] = number, label
                    waiting.append((other, found))
        except (InvariantViolated, state.InvariantBroken) as why:
            raise InvariantViolated(f"{why}\n" + "\n".join(path_to(seen, number))) from None
    return len(seen)


def walked(kind, seed, kind_of_state=state.State):
    """How many steps a walk at random through a world takes until nothing is left. Raises InvariantViolated, with the
    path."""
    chosen, path = random.Random(seed), []
    world = World(kind, None, kind, callers=(Caller(),) * len(kind.streams))
    try:
        while len(path) < MOST_STEPS:
            check(world)
            found = list(steps(world, kind_of_state))
            if not found:
                break
            label, world = chosen.choice(found)
            path.append(label)
    except (InvariantViolated, state.InvariantBroken) as why:
        raise InvariantViolated("\n".join([f"{why}, by seed {seed}", *path])) from None
    return len(path)
