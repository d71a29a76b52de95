"""Small worlds around the state of a watch: what is the case changes at any moment, several calls are under way at
once, the watch is killed between any two steps, calls fail, answers to calls are lost, a call that a killed watch left
comes late, time passes, and people acknowledge. Each step that may come next is a state of its own; what the watch
promises is asked there of what the targets heard."""

import dataclasses
import json
from collections import deque
from typing import NamedTuple

from support.copies import shallow

from opcplan.watch import state
from opcplan.watch.state import NEW, OVER, WORSE, Found, Looked, Route

RULE = "rule"
THEN = "z"  # who is called after the first target
SECONDS = 600.0  # after which that is
ROUNDS = 200
PLAIN = (int, str, bool, float, type(None), tuple)  # values that stay as they are
MOST_STEPS = 160  # of a walk
CALM = ("look", "idle")  # phases in which others act; between two others nothing comes that doesn't come there too


class InvariantViolated(Exception):
    """What a world shows that must not be."""


class Kind(NamedTuple):
    """A small world: how many things may be the case, who is called, how bad it gets, whether somebody is called after
    the first target, and whether that one has to acknowledge; and how often something changes or goes wrong."""

    keys: int = 1
    targets: int = 1
    worst: int = 1
    has_then: bool = False
    acknowledge: bool = False
    changes: int = 3
    blind: int = 0  # times that nothing can be looked at
    kills: int = 0
    fails: int = 0  # calls that don't come to their target
    lost: int = 0  # calls that come to it, and whose answer doesn't
    late: int = 0  # times that a long time passes
    acks: int = 0  # calls that somebody acknowledges


class Heard(NamedTuple):
    """A call that came to a target."""

    id: str
    mentions: tuple


@dataclasses.dataclass
class World:
    """One state of all that there is. `phase` is what the watch does next: `look`, `keep` what it took, `due` (form
    calls), `keep-call`, `begin` those of `todo`, be `idle`, `keep-sent`, and for what people acknowledged `keep-ack`
    and `drop-ack`."""

    kind: Kind
    left: Kind
    truth: tuple  # by key its level, or None
    watch: state.State
    cls: type
    disk: str
    phase: str = "look"
    is_blind: bool = False
    time: int = 0
    steady: float = 0.0
    todo: tuple = ()  # calls that are begun next
    under_way: tuple = ()  # calls that are
    orphans: tuple = ()  # calls that were as the watch was killed
    risked: int = 0  # how many calls may come again because the watch was killed between a call and its note
    heard: tuple = ()  # by target a tuple of Heard
    noted: frozenset = frozenset()  # events that the disk had: key and since
    acks: tuple = ()  # ids of calls that were acknowledged, and aren't taken yet
    known: frozenset = frozenset()  # events of which the first target is known to have heard how they are
    known_kept: frozenset = frozenset()
    acked: frozenset = frozenset()  # events that somebody acknowledged as they are
    allowed: frozenset = frozenset()  # events of which those after the first target may hear

    def next(self):
        found = shallow(self)
        found.watch = copied(self.watch)
        return found

    def frozen(self):
        return (self.left, self.truth, frozen(self.watch), self.disk, self.phase, self.is_blind, self.time, self.todo,
                self.under_way, self.orphans, self.risked, self.heard, self.acks, self.known, self.acked, self.allowed)

    def frozen_end(self):
        """What decides of a state what comes of it once nothing goes wrong any more: not what could still have gone
        wrong, nor what a killed watch left."""
        return (self.truth, frozen(self.watch), self.phase, self.is_blind, self.time, self.steady, self.todo,
                self.under_way, self.risked, self.heard, self.noted, self.acks, self.known, self.acked, self.allowed)

    def spent(self, name):
        self.left = self.left._replace(**{name: getattr(self.left, name) - 1})

    @property
    def targets(self):
        return tuple(f"t{number}" for number in range(self.kind.targets))

    @property
    def everybody(self):
        return self.targets + ((THEN,) if self.kind.has_then else ())

    # What the driver does; opcplan.watch.driver does the same.

    def go_on(self):
        """The next step of the watch by itself, where it isn't idle."""
        step = {"look": self.look, "keep": self.keep_look, "due": self.due, "keep-call": self.keep_call,
                "begin": self.begin, "keep-sent": self.keep_look, "keep-ack": self.keep_ack, "drop-ack": self.drop_ack}
        step[self.phase]()

    def look(self):
        watch = self.watch
        if self.acks:
            for call in self.acks[:1]:
                self.take_ack(call)
            self.phase = "keep-ack"
            return
        watch.rests.clear()  # a look is later than the pauses
        found = tuple(Found(str(key), level, f"{key} {level}") for key, level in enumerate(self.truth)
                      if level is not None)
        if not self.is_blind:
            worse = {(one.key, watch.events[one.key].since) for one in found if one.key in watch.events
                     and one.level > watch.events[one.key].level}
            self.acked, self.known = self.acked - worse, self.known - worse
        watch.take(float(self.time), RULE, self.targets, None if self.is_blind else Looked(found))
        self.phase = "keep"

    def take_ack(self, call):
        names = {one.name for heard in self.heard for other in heard if other.id == call for one in other.mentions}
        self.watch.acknowledge(call)
        self.acked |= names

    def keep_ack(self):
        self.keep()
        self.phase = "drop-ack"

    def drop_ack(self):
        self.acks = self.acks[1:]
        self.phase = "look"

    def keep_look(self):
        self.keep()
        self.phase = "due"

    def due(self):
        self.watch.tick(float(self.time), self.steady)
        self.todo = tuple(self.watch.due(self.steady))
        self.phase = "keep-call" if self.watch.is_changed else "begin" if self.todo else "idle"

    def keep_call(self):
        self.keep()
        self.phase = "begin" if self.todo else "idle"

    def begin(self):
        call, *left = self.todo
        if any(one.target == call.target for one in self.under_way):
            raise InvariantViolated(f"{call.target} is called twice at once")
        self.watch.begun(call.target)
        self.under_way += (call,)
        self.todo = tuple(left)
        self.phase = "begin" if left else "idle"

    def end(self, call, how):
        """A call ends: `good`, `fails` or `lost`."""
        self.under_way = tuple(one for one in self.under_way if one is not call)
        if how != "fails":
            self.come(call)
        if how == "good":
            self.watch.sent(call.target)
            if call.target == self.targets[0]:
                events = self.watch.events
                self.known |= {one.name for one in call.mentions
                               if one.key not in events or one.level == events[one.key].level}
        else:
            self.watch.failed(call.target, self.steady)
        self.phase = "keep-sent" if self.watch.is_changed else "due"

    def come(self, call):
        """A call comes to its target."""
        place = self.everybody.index(call.target)
        heard = list(self.heard)
        heard[place] = (*heard[place], Heard(call.id, call.mentions))
        self.heard = tuple(heard)
        self.check()

    def keep(self):
        kept = self.watch.kept()
        self.disk = json.dumps(kept)
        self.noted |= {(key, one["since"]) for key, one in kept["events"].items()}
        self.known_kept = self.known
        self.watch.is_changed = False

    def kill(self):
        """The watch is killed, and begun again with what the disk has. Calls that were under way may still come."""
        self.risked += len(self.under_way) + (self.phase == "keep-sent")
        self.orphans += tuple(sorted(self.under_way))
        self.watch, self.phase = restored(self.disk, self.cls, self.routes), "look"
        self.under_way, self.todo, self.known = (), (), self.known_kept

    @property
    def routes(self):
        then = (THEN,) if self.kind.has_then else ()
        return {target: Route(then if target == self.targets[0] else (), SECONDS,
                              self.kind.acknowledge and target == self.targets[0]) for target in self.everybody}

    # What may come.

    def steps(self):
        """All that may come next."""
        if self.phase != "idle":
            yield self.after(lambda world: world.go_on())
        else:
            yield self.after(lambda world: setattr(world, "phase", "look"))
            for place in range(len(self.under_way)):
                for how in ("good", *(how for how in ("fails", "lost") if getattr(self.left, how))):
                    yield self.after(lambda world, place=place, how=how: (
                        how == "good" or world.spent(how), world.end(world.under_way[place], how)))
        if self.left.kills and self.phase != "look":
            yield self.after(lambda world: (world.spent("kills"), world.kill()))
        if self.phase in CALM:
            yield from self.others()

    def others(self):
        """All that others may do."""
        for call in self.orphans:
            for comes in (False, True):
                yield self.after(lambda world, call=call, comes=comes: world.end_orphan(call, comes))
        if self.left.blind and self.phase == "look" and not self.is_blind and not self.acks:
            yield self.after(lambda world: (world.spent("blind"), setattr(world, "is_blind", True), world.go_on(),
                                            setattr(world, "is_blind", False)))
        if self.left.late:
            yield self.after(lambda world: (world.spent("late"), world.pass_time()))
        if self.left.acks:
            for call in {one.id for heard in self.heard for one in heard} - set(self.acks):
                yield self.after(lambda world, call=call: (world.spent("acks"),
                                                           setattr(world, "acks", (*world.acks, call))))
        if self.left.changes:
            for key, level in enumerate(self.truth):
                for other in (None, *range(self.kind.worst + 1)):
                    if other != level:
                        yield self.after(lambda world, key=key, other=other: world.change(key, other))

    def after(self, step):
        world = self.next()
        step(world)
        return world

    def end_orphan(self, call, comes):
        left = list(self.orphans)
        left.remove(call)
        self.orphans = tuple(left)
        if comes:
            self.come(call)

    def pass_time(self):
        """So much time passes that those after the first target may hear of what that one doesn't know."""
        self.steady += SECONDS
        names = {(key, event.since) for key, event in self.watch.events.items()}
        self.allowed |= names - self.acked - (frozenset() if self.kind.acknowledge else self.known)

    def change(self, key, level):
        self.spent("changes")
        truth = list(self.truth)
        truth[key] = level
        self.truth, self.time = tuple(truth), self.time + 1

    # What has to hold.

    def check(self):
        """Asks of what each target heard that it makes sense. A call that comes again is known by its id."""
        for target, heard in zip(self.everybody, self.heard):
            calls, again = {}, 0
            for one in heard:
                if one.id in calls:
                    again += 1
                    if calls[one.id] != one.mentions:
                        raise InvariantViolated(f"call {one.id} comes again with something else")
                calls.setdefault(one.id, one.mentions)
            if again > self.kind.lost - self.left.lost + self.risked:
                raise InvariantViolated(f"calls come again {again} times: {heard}")
            mentions = [one for mentions in calls.values() for one in mentions]
            self.check_events(mentions)
            if target == THEN and (early := {one.name for one in mentions} - self.allowed):
                raise InvariantViolated(f"{early} goes on to {target} too early: {heard}")

    def check_events(self, mentions):
        """Asks of the mentions, in their order, that each event is new once, gets worse, and is over once."""
        last = {}
        for one in mentions:
            before = last.get(one.name)
            if before is not None and (before.kind == OVER or one.kind == NEW):
                raise InvariantViolated(f"{one} comes behind {before}")
            if before is not None and one.kind == WORSE and one.level <= before.level:
                raise InvariantViolated(f"{one} is no worse than {before}")
            if before is None and one.kind == WORSE:
                raise InvariantViolated(f"{one} is told first")
            last[one.name] = one

    def calm(self):
        """What comes of it once nothing goes wrong any more: two looks after which nothing is left to do."""
        world, looks = self.next(), 0
        world.left = Kind(changes=0)
        for _ in range(ROUNDS):
            if world.phase != "idle":
                world.go_on()
            elif world.under_way:
                world.end(world.under_way[0], "good")
                looks = 0
            elif looks == 2:
                return world
            else:
                world.phase, looks = "look", looks + 1
        raise InvariantViolated(f"there is no end to it: {world.heard}")

    def check_end(self):
        """Asks that, once nothing goes wrong any more, each target has heard all, and last what is the case; and those
        after the first one what that one hasn't acknowledged."""
        world = self.calm()
        for heard in world.heard[:self.kind.targets]:
            world.check_heard(heard, set(range(self.kind.keys)))
            events = {one.name for call in heard for one in call.mentions}
            if missing := world.noted - events:
                raise InvariantViolated(f"{missing} was noted and never heard: {heard}")
        if self.kind.has_then:
            world.check_heard(world.heard[-1], {int(key) for key, _ in world.names_of(world.heard[-1])})
        if self.kind.has_then and self.kind.acknowledge:
            world.pass_time()
            later = world.calm()
            names = {(key, event.since) for key, event in later.watch.events.items()}
            if missing := names - later.acked - later.names_of(later.heard[-1]):
                raise InvariantViolated(f"nobody acknowledged {missing}, and it doesn't go on")

    def names_of(self, heard):
        return {one.name for call in heard for one in call.mentions}

    def check_heard(self, heard, keys):
        """Asks that what a target heard last of some things is what is the case. What comes again counts where it came
        first."""
        first = {}
        for call in heard:
            first.setdefault(call.id, call)
        last_heard = {}
        for call in first.values():
            last_heard.update({one.key: one for one in call.mentions})
        for key in keys:
            level, last = self.truth[key], last_heard.get(str(key))
            is_there = last is not None and last.kind != OVER
            is_same = is_there and self.watch.events.get(str(key)) is not None and \
                last.since == self.watch.events[str(key)].since
            if heard is self.heard[-1] and self.kind.has_then and not is_there:
                continue  # what came again may never have gone on
            if is_there != (level is not None) or is_same and last.level < level:
                raise InvariantViolated(f"{key} is {level} and {last} was heard last: {heard}")


def copied(watch):
    """A copy of a state: what its tables have is never changed in place."""
    found = shallow(watch)
    for name, value in watch.__dict__.items():
        if type(value) in PLAIN:
            continue
        if isinstance(value, dict):
            value = {key: dict(one) if type(one) is dict else one for key, one in value.items()}
        found.__dict__[name] = set(value) if isinstance(value, set) else value
    return found


def restored(disk, cls, routes):
    """The state that a disk has, of a class."""
    found = state.of_kept(json.loads(disk))
    found.__class__ = cls
    found.settle({RULE: tuple(routes)}, routes)
    return found


def frozen(watch):
    """What tells a state from others."""
    found = []
    for name, value in sorted(watch.__dict__.items()):
        if type(value) not in PLAIN:
            if isinstance(value, dict):
                value = tuple([(key, tuple(one.items()) if type(one) is dict else one) for key, one in value.items()])
            elif isinstance(value, set):
                value = tuple(sorted(value))
        found.append(value)
    return tuple(found)


def begun(kind, cls=state.State, world=World):
    """The first state of a world."""
    watch = cls()
    watch.life = "life"
    found = world(kind, kind, (None,) * kind.keys, watch, cls, json.dumps(watch.kept()))
    found.heard = ((),) * len(found.everybody)
    watch.settle({RULE: found.targets}, found.routes)
    return found


def explored(kind, cls=state.State, world=World):
    """Meets each state of a world, and asks in each that all comes to its end; how many there are."""
    first = begun(kind, cls, world)
    met, ends, left = {hash(first.frozen())}, set(), deque([first])
    while left:
        world = left.popleft()
        if world.phase in CALM and (end := hash(world.frozen_end())) not in ends:
            world.check_end()
            ends.add(end)
        for other in world.steps():
            name = hash(other.frozen())
            if name not in met:
                met.add(name)
                left.append(other)
    return len(met)


def walked(kind, rng, cls=state.State):
    """Goes through a larger world at random."""
    world = begun(kind, cls)
    for _ in range(MOST_STEPS):
        others = list(world.steps())
        world = others[0] if rng.random() < 0.5 else rng.choice(others)
    world.check_end()
