"""Small worlds of several desks over one log: callers who send a stream again at another desk, appends whose answers
are lost or that reach etcd late, desks that are killed or replaced by a copy, trims, and a week that passes. Each step
that may come next is a state of its own. What desks decide of keys is `opcplan.desk.keys`; the rest here is what etcd,
disks and callers do by themselves."""

import random
from collections import deque
from typing import NamedTuple

from support.exploration import path_to

from opcplan.desk import keys, log
from opcplan.plans import entry
from opcplan.plans.entry import Wanted

WHO, QUESTION = "me", "?"
# the two moments of a world, in seconds since 1970: the second one is more than a week later
MOMENTS = 1_704_100_000, 1_704_100_000 + 20 * 24 * 3600
MOST_STEPS = 2000  # of a walk


class InvariantViolated(Exception):
    """What a world shows that must not be."""


class Stream(NamedTuple):
    """What a caller sends under a key."""

    key: str
    texts: tuple

    def wanted(self, at):
        """Its changes as they go to the log."""
        digest = " ".join(self.texts)
        return tuple(Wanted(WHO, f"{self.key}#{place}" if place else self.key, text, None, None, at, digest)
                     for place, text in enumerate(self.texts) if text != QUESTION)


class Left(NamedTuple):
    """How often what may go wrong may still happen."""

    overs: int = 0  # a caller gives a desk up
    answers: int = 0  # a caller loses its answer, and sends again
    losses: int = 0  # an append's answer is lost
    kills: int = 0
    lost: int = 0  # machines
    copies: int = 0
    trims: int = 0
    weeks: int = 0


class Rules(NamedTuple):
    """What the desks run; tests put mutants here."""

    known: type = keys.Keys
    first_since: object = keys.first_since
    trimmed_to: object = keys.trimmed_to
    reads_keys: bool = True  # of the entries before the journal


class Kind(NamedTuple):
    """A kind of world: how many desks, the streams that each caller sends one after another, what may go wrong."""

    desks: int
    callers: tuple
    left: Left
    rules: Rules = Rules()


class Append(NamedTuple):
    """A batch on its way to etcd, after a head. `came`: whether it is done, None until etcd has it."""

    head: int
    entries: tuple
    came: bool | None = None


class Desk(NamedTuple):
    """A desk. Its journal has the entries after `begins`, up to `given`; `reading` is the next entry whose key it reads
    before it serves, or 0; `before` has what it read; `head` is the last entry that it heard of."""

    is_up: bool
    begins: int
    given: int
    journal: tuple = ()
    reading: int = 0
    before: tuple = ()
    head: int = 0
    queue: tuple = ()
    append: Append | None = None

    def find(self, who, key):
        """The Entry of a caller's key, or None."""
        return next((one for one in self.journal if (one.who, one.key) == (who, key)), None)

    def stream_of(self, who, key):
        """The stream that has a caller's key, or None."""
        return next((one.stream for one in self.journal if one.who == who and one.key.partition("#")[0] == key), None)

    def keys(self, rules):
        """The Keys that it has."""
        found = rules.known(self)
        for who, key, holder in self.before:
            found.learn_holder(who, key, holder)
        return found


class Caller(NamedTuple):
    """How far a caller is: with which stream, at which desk it waits (or -1), and which keys got which entries."""

    turn: int = 0
    at: int = -1
    got: tuple = ()


class World(NamedTuple):
    """One state of all that there is."""

    history: tuple  # each entry that the log ever had
    first: int  # the first one that is left
    late: tuple  # appends that no desk waits for, and that etcd may still get
    now: int
    desks: tuple
    callers: tuple
    acknowledged: tuple  # keys with the moment and the entry for which they were acknowledged
    copies: tuple  # positions
    left: Left

    @property
    def since(self):
        """The moment since which keys are kept."""
        return keys.young_since(MOMENTS[self.now])

    def put(self, place, desk):
        """The same with another state of a desk."""
        return self._replace(desks=self.desks[:place] + (desk,) + self.desks[place + 1 :])

    def set(self, number, caller):
        """The same with another state of a caller."""
        return self._replace(callers=self.callers[:number] + (caller,) + self.callers[number + 1 :])

    def spent(self, name):
        """The same after something went wrong once more."""
        return self._replace(left=self.left._replace(**{name: getattr(self.left, name) - 1}))


def beginning(kind):
    """The first state."""
    return World((), 1, (), 0, (Desk(True, 0, 0),) * kind.desks, (Caller(),) * len(kind.callers), (), (), kind.left)


def steps(world, kind):
    """Each state that may come next, with what happens."""
    yield from progress(world, kind)
    yield from steps_of_callers(world, kind)
    yield from steps_of_machines(world, kind)
    yield from steps_of_time(world, kind)


# What happens by itself.


def progress(world, kind):
    for place, desk in enumerate(world.desks):
        if desk is None:
            continue
        if desk.reading:
            yield f"{place} reads the key of entry {desk.reading}", world.put(place, read(world, desk, kind.rules))
        elif desk.is_up and desk.append is not None:
            yield from appends(world, kind, place)
        elif desk.is_up:
            yield from takes(world, kind, place)
            if desk.queue:
                yield from places(world, kind, place)
    for place, one in enumerate(world.late):
        history, _ = arrived(world, one)
        yield f"etcd gets a late append after entry {one.head}", world._replace(
            history=history, late=world.late[:place] + world.late[place + 1 :])


def begun(world, desk, rules):
    """A desk that begins: it reads the keys of the entries before its journal, if the log has them."""
    found = rules.first_since(world.first, desk.begins, world.since)
    try:
        seq = next(found)
        while True:
            seq = found.send(world.history[seq - 1].at if seq >= world.first else None)
    except StopIteration as first:
        reading = first.value if rules.reads_keys and first.value <= desk.begins else 0
    return desk._replace(is_up=not reading, reading=reading, before=(), head=desk.given, queue=(), append=None)


def read(world, desk, rules):
    """A desk reads the next key before its journal, if its entry is left."""
    found = desk.keys(rules)
    if desk.reading >= world.first:
        found.learn([world.history[desk.reading - 1]])
    before = tuple((who, key, holder) for (who, key), holder in found.before.items())
    rest = desk.reading + 1 if desk.reading < desk.begins else 0
    return desk._replace(before=before, reading=rest, is_up=not rest)


def takes(world, kind, place):
    """A desk takes the next entry of the log, or hears of the head."""
    desk = world.desks[place]
    if world.first <= desk.given + 1 <= len(world.history):
        one = world.history[desk.given]
        yield f"{place} takes entry {one.seq}", world.put(place, desk._replace(
            given=one.seq, journal=desk.journal + (one,), head=max(desk.head, one.seq)))
    if desk.queue and desk.head < len(world.history):
        yield f"{place} hears of entry {len(world.history)}", world.put(
            place, desk._replace(head=len(world.history)))


def places(world, kind, place):
    """A desk decides what becomes of its queue."""
    desk = world.desks[place]
    try:
        entries = tuple(desk.keys(kind.rules).placed(desk.queue, desk.given, desk.head))
    except log.LogAdvanced:
        return
    except log.KeysInUse as why:
        queue = tuple(one for number, one in enumerate(desk.queue) if number not in why.found)
        found = world.put(place, desk._replace(queue=queue))
        for number, one in why.found.items():
            found = told(found, kind, place, desk.queue[number].key, one)
        yield f"{place} finds keys of {len(why.found)} changes", found
        return
    yield f"{place} sends entries after {desk.head}", world.put(
        place, desk._replace(append=Append(desk.head, entries)))


def arrived(world, append):
    """The history once etcd has an append, and whether it was done."""
    is_done = append.head == len(world.history)
    return (world.history + append.entries if is_done else world.history), is_done


def appends(world, kind, place):
    """An append reaches etcd, and its answer the desk, or doesn't."""
    desk = world.desks[place]
    if desk.append.came is None:
        history, is_done = arrived(world, desk.append)
        yield f"etcd gets the append of {place}", world._replace(history=history).put(
            place, desk._replace(append=desk.append._replace(came=is_done)))
    elif desk.append.came:
        entries = desk.append.entries
        found = world.put(place, desk._replace(
            given=entries[-1].seq, head=max(desk.head, entries[-1].seq), journal=desk.journal + entries, append=None,
            queue=()))
        for one in entries:
            found = told(found, kind, place, one.key, one)
        yield f"{place} hears that entry {entries[-1].seq} is done", found
    else:
        yield f"{place} hears that the log has advanced", world.put(
            place, desk._replace(append=None, head=len(world.history)))
    if world.left.losses:
        found = gone(world.spent("losses"), place)
        yield f"the answer to the append of {place} is lost", found.put(
            place, desk._replace(append=None, queue=()))


def gone(world, place):
    """What a desk had in progress is gone: its callers get no answer, and its append may reach etcd later."""
    append = world.desks[place].append
    late = world.late + ((append,) if append is not None and append.came is None else ())
    callers = tuple(one._replace(at=-1, got=()) if one.at == place else one for one in world.callers)
    return world._replace(late=late, callers=callers)


# Callers.


def stream_of(world, kind, number):
    """The stream of a caller, or None if it has sent all."""
    streams, turn = kind.callers[number], world.callers[number].turn
    return streams[turn] if turn < len(streams) else None


def told(world, kind, place, key, one):
    """Those who wait at a desk get the answer to a statement: that of an entry, or 409 if there is none."""
    for number, caller in enumerate(world.callers):
        stream = stream_of(world, kind, number)
        wanted = () if stream is None else stream.wanted("")
        if caller.at != place or key not in [each.key for each in wanted]:
            continue
        if one is None:
            world = world.set(number, Caller(caller.turn + 1))
            continue
        world = world._replace(acknowledged=tuple(sorted({*world.acknowledged, (key, world.now, one.seq)})))
        got = tuple(sorted({*caller.got, (key, one.seq)}))
        world = world.set(number, caller._replace(got=got) if len(got) < len(wanted) else Caller(caller.turn + 1))
    return world


def steps_of_callers(world, kind):
    for number, caller in enumerate(world.callers):
        stream = stream_of(world, kind, number)
        if caller.at < 0 and stream is not None:
            for place, desk in enumerate(world.desks):
                if desk is not None and desk.is_up:
                    yield f"caller {number} sends {stream.key} to {place}", sent(world, kind, number, place)
        if caller.at >= 0 and world.left.overs:
            yield f"caller {number} gives {caller.at} up", world.spent("overs").set(
                number, caller._replace(at=-1, got=()))
        if caller.at < 0 and caller.turn and world.left.answers:
            last = kind.callers[number][caller.turn - 1]
            if all(one.at >= world.since for one in world.history if one.key.partition("#")[0] == last.key):
                yield f"caller {number} never got its answer", world.spent("answers").set(
                    number, Caller(caller.turn - 1))


def sent(world, kind, number, place):
    """A caller's stream is at a desk: a key of another stream is refused, what is in the journal is answered, and the
    rest goes into the queue."""
    desk, caller = world.desks[place], world.callers[number]
    stream = stream_of(world, kind, number)
    wanted = stream.wanted(entry.moment_text(MOMENTS[world.now]))
    busy = (*desk.queue, *(one for one in desk.append.entries if desk.append.came is not False)) \
        if desk.append is not None else desk.queue
    others = [one.stream for one in busy if one.key.partition("#")[0] == stream.key]
    known = desk.keys(kind.rules).stream_of(WHO, stream.key)
    if any(one != wanted[0].stream for one in [*others, *([] if known is None else [known])]):
        return world.set(number, Caller(caller.turn + 1))  # 409
    found = world.set(number, caller._replace(at=place, got=()))
    for one in wanted:
        if (old := desk.find(one.who, one.key)) is not None:
            found = told(found, kind, place, one.key, old)
        elif one.key not in [each.key for each in desk.queue]:
            desk = desk._replace(queue=desk.queue + (one,))
            found = found.put(place, desk)
    return found


# Machines, and time.


def steps_of_machines(world, kind):
    for place, desk in enumerate(world.desks):
        if desk is None:
            for position in sorted(set(world.copies)):
                if position + 1 >= world.first:
                    yield f"a desk begins with a copy at {position}", world.put(
                        place, begun(world, Desk(False, position, position), kind.rules))
            continue
        if desk.is_up and world.left.copies:
            yield f"a copy is made at {desk.given}", world.spent("copies")._replace(
                copies=world.copies + (desk.given,))
        is_on = desk.is_up or desk.reading
        if is_on and world.left.kills:
            yield f"{place} is killed", gone(world.spent("kills"), place).put(
                place, desk._replace(is_up=False, reading=0, before=(), queue=(), append=None))
        if not is_on:
            yield f"{place} begins again", world.put(place, begun(world, desk, kind.rules))
        if world.left.lost:
            yield f"the machine of {place} is lost", gone(world.spent("lost"), place).put(place, None)


def steps_of_time(world, kind):
    if world.left.trims and world.history:
        last, positions = len(world.history), {
            str(place): desk.given for place, desk in enumerate(world.desks) if desk is not None}
        young = next((one.seq for one in world.history[world.first - 1 :] if one.at >= world.since), None)
        first = kind.rules.trimmed_to(last, positions, young)
        if first > world.first:
            yield f"the log is trimmed before {first}", world.spent("trims")._replace(first=first)
    if world.left.weeks and not world.now:
        used = {one.key.partition("#")[0] for one in world.history}  # nobody sends them again after that
        streams = [stream_of(world, kind, number) for number in range(len(world.callers))]
        callers = tuple(Caller(caller.turn + (caller.at >= 0 or one is not None and one.key in used))
                        for caller, one in zip(world.callers, streams))
        desks = tuple(desk and desk._replace(queue=(), append=None) for desk in world.desks)
        yield "a week passes", world.spent("weeks")._replace(now=1, callers=callers, desks=desks, late=())


# What has to hold.


def check(world, kind):
    """Asks all that has to hold of a state. Raises InvariantViolated."""
    entries, streams = {}, {}
    for one in world.history:
        if entries.setdefault((one.key, one.at), one.seq) != one.seq:
            raise InvariantViolated(f"{one.key} is done twice, as entries {entries[one.key, one.at]} and {one.seq}")
        base = one.key.partition("#")[0], one.at
        if streams.setdefault(base, one.stream) != one.stream:
            raise InvariantViolated(f"{base[0]} belongs to `{streams[base]}` and to `{one.stream}`")
    seen = {}
    for key, now, seq in world.acknowledged:
        if seen.setdefault((key, now), seq) != seq or world.history[seq - 1].key != key:
            raise InvariantViolated(f"{key} is answered as entry {seq}")
    for desk in world.desks:
        if desk is not None and desk.journal != world.history[desk.begins : desk.given]:
            raise InvariantViolated(f"a journal after {desk.begins} has {[one.seq for one in desk.journal]}")
    if any(desk is not None and desk.queue for desk in world.desks) and not any(progress(world, kind)):
        raise InvariantViolated("a change waits, and nothing happens")


def alike(world):
    """The same world with its desks in an order of their own: those that differ only by the place of a desk are one."""
    callers = {}
    for number, caller in enumerate(world.callers):
        callers.setdefault(caller.at, []).append(number)
    names = [hash((desk, *callers.get(place, ()))) for place, desk in enumerate(world.desks)]
    order = sorted(range(len(names)), key=names.__getitem__)
    if order == list(range(len(names))):
        return world
    places = {old: new for new, old in enumerate(order)}
    return world._replace(desks=tuple(world.desks[place] for place in order), callers=tuple(
        caller if caller.at < 0 else caller._replace(at=places[caller.at]) for caller in world.callers))


def explored(kind):
    """How many states a world has. Raises InvariantViolated, with how it comes to that."""
    first = alike(beginning(kind))
    seen, waiting = {hash(first): (None, "")}, deque([(hash(first), first)])
    while waiting:
        number, world = waiting.popleft()
        try:
            check(world, kind)
        except InvariantViolated as why:
            raise InvariantViolated("\n".join([str(why), *path_to(seen, number)])) from None
        for label, found in steps(world, kind):
            found = alike(found)
            if (other := hash(found)) not in seen:
                seen[other] = number, label
                waiting.append((other, found))
    return len(seen)


def walked(kind, seed):
    """How many steps a walk at random through a world takes until nothing is left. Raises InvariantViolated, with the
    path."""
    chosen, path, world = random.Random(seed), [], beginning(kind)
    while len(path) < MOST_STEPS:
        try:
            check(world, kind)
        except InvariantViolated as why:
            raise InvariantViolated("\n".join([f"{why}, by seed {seed}", *path])) from None
        found = list(steps(world, kind))
        if not found:
            break
        label, world = chosen.choice(found)
        path.append(label)
    return len(path)
